"""From a GeoDataFrame of polygons to rings on the grid, and to the GeoJSON that ``build`` reads."""

from collections.abc import Sequence
from dataclasses import dataclass
from typing import Any

import geopandas as gpd
import numpy as np
import numpy.typing as npt
from shapely.geometry import MultiPolygon, Polygon

from .errors import NotACoverage
from .grid import Coordinates, Grid, Places, extent
from .shapes import Flags, Layout, Objects, take_apart
from .topology import Integers, alike, closed, columns_at, lists_text, starts_of


@dataclass
class Rings:
    """The rings of all rows. Ring r has the positions ``starts[r]`` to ``starts[r + 1]``, closed.

    ``missing`` says which rows have no geometry or an empty one, ``notes`` is what was seen and is
    no fault.
    """

    coordinates: Coordinates
    starts: Integers
    layout: Layout
    missing: Flags
    notes: list[str]


@dataclass
class Snapped:
    """Rings as cyclic lists of places: no closing position, no consecutive repeats.

    ``moved`` is for each axis the largest move by snapping in the CRS's units.
    """

    places: Places
    starts: Integers
    layout: Layout
    moved: tuple[float, float]
    notes: list[str]


def rings_of(frame: gpd.GeoDataFrame) -> Rings:
    """Take the rings out of a coverage.

    Missing and empty geometries and heights become notes. Raises NotACoverage for rows that are
    neither polygons nor multipolygons, and for coordinates that are not finite.
    """
    geometries = frame.geometry.array
    shapes = np.asarray(geometries.data, dtype=object)
    others = _others(shapes)
    if len(others):
        wrong = [frame.index[row] for row in others if not is_missing(shapes[row])]
        if wrong:
            raise NotACoverage("neither a polygon nor a multipolygon", wrong)
        shapes = shapes.copy()
        shapes[others] = None
    parted = take_apart(shapes)
    missing = np.diff(parted.layout.ring_starts) == 0
    _refuse_infinite(frame, parted.coordinates, parted.starts, parted.layout)
    notes = _notes_on(frame, missing, parted.has_height)
    return Rings(parted.coordinates, parted.starts, parted.layout, missing, notes)


def is_missing(geometry: Any) -> bool:
    """Tell whether there is no geometry, or an empty one."""
    return geometry is None or bool(geometry.is_empty)


def _others(shapes: npt.NDArray[np.object_]) -> list[int]:
    """Give the rows that are neither polygons nor multipolygons nor None."""
    kinds = (Polygon, MultiPolygon, type(None))
    if set(map(type, shapes)) <= set(kinds):
        return []
    return [row for row, shape in enumerate(shapes) if not isinstance(shape, kinds)]


def _refuse_infinite(
    frame: gpd.GeoDataFrame, coordinates: Coordinates, starts: Integers, layout: Layout
) -> None:
    if not len(coordinates) or np.isfinite(extent(coordinates)).all():
        return
    bad = np.flatnonzero(~np.isfinite(coordinates).all(axis=1))
    rings = np.searchsorted(starts, bad, side="right") - 1
    rows = np.unique(layout.row_of_rings[rings])
    raise NotACoverage("a coordinate is not finite", frame.index[rows].tolist())


def _notes_on(frame: gpd.GeoDataFrame, missing: Flags, high: Flags) -> list[str]:
    notes = []
    if missing.any():
        labels = frame.index[missing].tolist()
        notes.append(f"{_rows(labels)} without a geometry, left as found")
    if (high & ~missing).any():
        labels = frame.index[high & ~missing].tolist()
        notes.append(f"{_rows(labels)} with heights, which are dropped")
    return notes


def _rows(labels: list[Any]) -> str:
    some = ", ".join(str(label) for label in labels[:5])
    more = f" and {len(labels) - 5} more" if len(labels) > 5 else ""
    return f"row {some}{more}:"


def snapped(rings: Rings, grid: Grid, labels: list[Any]) -> Snapped:
    """Put the rings on the grid.

    A ring that has fewer than three places left is left out, which a note says. Raises BadGrid
    where a position is off the grid.
    """
    places = grid.snap(rings.coordinates)
    moves = grid.moves(rings.coordinates, places)
    moved = extent(moves)[1] if len(moves) else (0.0, 0.0)
    keep = _without_repeats(places, rings.starts)
    starts = starts_of(keep)[rings.starts]
    places = columns_at(places, keep)
    sizes = np.diff(starts)
    flat = (sizes < 3) | _walks_there_and_back(places, starts)
    notes, layout = [], rings.layout
    if flat.any():
        flat, layout, notes = _without_flat(layout, flat, labels)
    notes += _joined_notes(columns_at(rings.coordinates, keep), places)
    if flat.any():
        places = places[np.repeat(~flat, sizes)]
        starts = starts_of(sizes[~flat])
    return Snapped(places, starts, layout, (float(moved[0]), float(moved[1])), notes)


def _without_repeats(places: Places, starts: Integers) -> Flags:
    """Mark the places that stay where the closing one and consecutive equal ones are dropped."""
    x, y = places[:, 0], places[:, 1]
    keep = np.ones(len(places), dtype=bool)
    keep[:-1] = (x[1:] != x[:-1]) | (y[1:] != y[:-1])
    lasts = starts[1:] - 1
    keep[lasts] = (places[lasts] != places[starts[:-1]]).any(axis=1)
    return keep


def _walks_there_and_back(places: Places, starts: Integers) -> npt.NDArray[np.bool_]:
    """Tell which rings of four places go along one edge, there and back, and back there again."""
    flat: npt.NDArray[np.bool_] = np.diff(starts) == 4
    first = starts[:-1][flat]
    same = [(places[first + at] == places[first + at + 2]).all(axis=1) for at in (0, 1)]
    flat[flat] = same[0] & same[1]
    return flat


def _without_flat(
    layout: Layout, flat: Flags, labels: list[Any]
) -> tuple[Flags, Layout, list[str]]:
    """Leave out flat rings, and with a flat outer ring its holes."""
    gone = layout.with_holes(flat)
    left = layout.without(gone)
    notes = [f"{flat.sum()} rings have fewer than three places on the grid and are left out"]
    lost = np.flatnonzero((np.diff(layout.parts) > 0) & (np.diff(left.parts) == 0))
    if len(lost):
        names = _rows([labels[row] for row in lost])
        notes.append(f"{names} nothing is left on the grid, the geometry is empty")
    return gone, left, notes


def _joined_notes(coordinates: Coordinates, places: Places) -> list[str]:
    """Say where positions that were apart came together on the grid."""
    others = alike((places[:, 0] << 31) + places[:, 1])
    x, y = coordinates[:, 0], coordinates[:, 1]
    differs = (x != x[others]) | (y != y[others])
    if not differs.any():
        return []
    mixed = np.zeros(len(places), dtype=bool)
    mixed[others[differs]] = True
    at = np.flatnonzero(mixed[others])
    coordinates, places = coordinates[at], places[at]
    order = np.lexsort((coordinates[:, 1], coordinates[:, 0], places[:, 1], places[:, 0]))
    found, where = coordinates[order], places[order]
    same = (where[1:] == where[:-1]).all(axis=1)
    apart = np.abs(found[1:] - found[:-1])
    noise = 4 * np.spacing(np.abs(found[1:]))
    joined = same & (apart > noise).any(axis=1)
    if not joined.any():
        return []
    count = len(np.unique(where[1:][joined], axis=0))
    most = float(np.hypot(*apart[joined].T).max())
    x, y = found[1:][joined][0]
    return [
        f"at {count} places positions that were up to {most:.3g} apart came together by snapping, "
        f"the first near ({x:.9g}, {y:.9g})"
    ]


def geojson(rings: Snapped) -> bytes:
    """Give the FeatureCollection that ``build`` reads: one feature a row."""
    rows = row_texts(_ring_texts(rings), rings.layout, b"coordinates", b"null")
    if not len(rows):
        return b'{"type":"FeatureCollection","features":[]}'
    features = b'},{"type":"Feature","geometry":'.join(rows)
    start = b'{"type":"FeatureCollection","features":[{"type":"Feature","geometry":'
    return start + features + b"}]}"


def row_texts(rings: Sequence[bytes], layout: Layout, member: bytes, nothing: bytes) -> Objects:
    """Give each row as a JSON geometry, ``nothing`` where it has no part.

    ``rings`` are the texts of all rings, which the geometries have in ``member``.
    """
    rows = np.full(layout.row_count, nothing, dtype=object)
    full = np.diff(layout.parts) > 0
    parts = _joined(np.array(rings, dtype=object), layout.rings, b",")
    bodies = _joined(parts, layout.parts[np.append(full, True)], b"],[")
    multi = layout.multi[full].astype(np.int64)
    one, many = b'{"type":"Polygon","%s":[' % member, b'{"type":"MultiPolygon","%s":[[' % member
    begins, ends = np.array([one, many], dtype=object), np.array([b"]}", b"]]}"], dtype=object)
    rows[full] = begins[multi] + bodies + ends[multi]
    return rows


def _joined(texts: Objects, starts: Integers, mark: bytes) -> Objects:
    """Join texts ``starts[i]`` to ``starts[i + 1]``, one or more, with a mark between them."""
    made: Objects = texts[starts[:-1]]
    for at in np.flatnonzero(np.diff(starts) > 1).tolist():
        made[at] = mark.join(texts[starts[at] : starts[at + 1]].tolist())
    return made


def _ring_texts(rings: Snapped) -> list[bytes]:
    """Give each ring, closed, as a JSON list."""
    if len(rings.starts) == 1:
        return []
    closings = columns_at(rings.places, closed(rings.starts))
    starts = rings.starts + np.arange(len(rings.starts))
    inner = lists_text(closings, starts)[3:-3]
    return [b"[[" + ring + b"]]" for ring in inner.split(b"]],[[")]
