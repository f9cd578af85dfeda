"""Pictures of a thinned map, by matplotlib."""

import io
import os
from collections.abc import Callable, Iterable, Sequence
from dataclasses import dataclass
from pathlib import Path
from typing import Any

import geopandas as gpd
import numpy as np

from .coverage import is_missing
from .errors import NotWritten
from .files import write_bytes
from .grid import Coordinates
from .thin import Thinned, degree_ratio
from .topology import Topology

_BEFORE, _AFTER, _HELD, _DROPPED, _TOWN = "#e08214", "#2d3a4a", "#c51b7d", "#fdb863", "#1a7837"


@dataclass(frozen=True)
class Change:
    """A line before and after, the positions that were dropped, and how far each was from it."""

    before: Coordinates
    after: Coordinates
    dropped: Coordinates
    distances: Any


def picture(
    before: gpd.GeoDataFrame | Topology,
    after: gpd.GeoDataFrame | Topology,
    *,
    towns: gpd.GeoDataFrame | gpd.GeoSeries | None = None,
    held: Sequence[int] = (),
    title: str | None = None,
    inset: bool = True,
    aspect: float = 1.0,
    file: str | os.PathLike[str] | None = None,
) -> Any:
    """Draw a map before and after, one over the other, and give the matplotlib figure.

    Two topologies are drawn arc by arc (``held`` are numbers of arcs, in another colour), two
    GeoDataFrames ring by ring. Dropped vertices are dots, towns squares, and an inset shows where
    the largest change is. ``aspect`` is how long a unit up is drawn beside a unit across, and
    ``file`` is written in the format of its ending (PNG, SVG, PDF). Raises
    NotWritten.
    """
    from matplotlib.figure import Figure

    changes = list(_changes(before, after, aspect))
    largest = _largest(changes) if inset else None
    figure = Figure(figsize=(10, 6.5), layout="constrained")
    axes, small = figure.subplots(1, 2, width_ratios=(2.6, 1))
    _draw(axes, changes, towns, held, dots=1.5 if len(changes) < 500 else 0.5)
    axes.set_aspect(aspect)
    axes.ticklabel_format(useOffset=False)
    axes.set_title(title or "")
    if largest is not None:
        _inset(axes, small, largest, lambda: _draw(small, changes, towns, held, dots=5))
        small.set_aspect(aspect)
    else:
        small.set_axis_off()
    axes.legend(loc="upper center", bbox_to_anchor=(0.5, -0.06), ncols=3, frameon=False)
    if file is not None:
        _save(figure, file)
    return figure


def picture_of(thinned: Thinned, file: str | os.PathLike[str] | None = None, **options: Any) -> Any:
    """Draw what ``simplify`` made: ``picture`` with its topologies, towns and held arcs."""
    held = [meeting.arc for meeting in thinned.report.held]
    options.setdefault("aspect", _aspect_of(thinned.frame))
    towns = thinned.towns
    return picture(thinned.before, thinned.after, towns=towns, held=held, file=file, **options)


def _aspect_of(frame: gpd.GeoDataFrame) -> float:
    if frame.crs is None or not frame.crs.is_geographic or not len(frame):
        return 1.0
    low, high = frame.total_bounds[1], frame.total_bounds[3]
    return 1 / degree_ratio((low + high) / 2)


def _save(figure: Any, file: str | os.PathLike[str]) -> None:
    kind = Path(file).suffix.lower().lstrip(".")
    if kind not in ("png", "svg", "pdf"):
        raise NotWritten(os.fspath(file), f"no picture has the ending {kind!r}")
    made = io.BytesIO()
    metadata = {"svg": {"Date": None}, "pdf": {"CreationDate": None}}.get(kind, {})
    figure.savefig(made, format=kind, dpi=150, metadata=metadata)
    write_bytes(file, made.getvalue())


def _changes(before: Any, after: Any, aspect: float) -> Iterable[Change]:
    if isinstance(before, Topology) and isinstance(after, Topology):
        first, second = before.grid.unsnap(before.places), after.grid.unsnap(after.places)
        for arc in range(before.arc_count):
            old = first[before.starts[arc] : before.starts[arc + 1]]
            new = second[after.starts[arc] : after.starts[arc + 1]]
            yield change(old, new, aspect)
        return
    for row, thin_row in zip(before.geometry, after.geometry, strict=True):
        if not is_missing(row) and not is_missing(thin_row):
            for ring, thin_ring in zip(_rings(row), _rings(thin_row), strict=False):
                yield change(ring, thin_ring, aspect)


def _rings(geometry: Any) -> Iterable[Coordinates]:
    for part in getattr(geometry, "geoms", [geometry]):
        for ring in (part.exterior, *part.interiors):
            yield np.asarray(ring.coords, dtype=np.float64)[:, :2]


def change(before: Coordinates, after: Coordinates, aspect: float = 1.0) -> Change:
    """Find what was dropped of a line, and its distances from the edges that skip it.

    Distances are in units up, of which one across has ``1 / aspect``. Where the line after is no
    sublist of the one before, they are from the nearest edge.
    """
    unit = np.array([1 / aspect, 1.0])
    kept = _sublist(before, after)
    if kept is None:
        dropped = before[~_members(before, after)]
        return Change(before, after, dropped, _nearest(dropped * unit, after * unit))
    gone = np.ones(len(before), dtype=bool)
    gone[kept] = False
    at = np.flatnonzero(gone)
    edge = np.clip(np.searchsorted(kept, at) - 1, 0, max(len(kept) - 2, 0))
    rows = before * unit
    start, end = rows[kept[edge]], rows[kept[np.minimum(edge + 1, len(kept) - 1)]]
    return Change(before, after, before[at], _distances(rows[at], start, end))


def _sublist(before: Coordinates, after: Coordinates) -> Any:
    rows, kept, at = before.tolist(), [], 0
    for position in after.tolist():
        while at < len(rows) and rows[at] != position:
            at += 1
        if at == len(rows):
            return None
        kept.append(at)
        at += 1
    return np.array(kept, dtype=np.int64)


def _members(before: Coordinates, after: Coordinates) -> Any:
    left = set(map(tuple, after.tolist()))
    return np.array([tuple(row) in left for row in before.tolist()], dtype=bool)


def _nearest(points: Coordinates, line: Coordinates) -> Any:
    if not len(points) or len(line) < 2:
        return np.zeros(len(points))
    return np.array([_distances(p, line[:-1], line[1:]).min() for p in points])


def _distances(points: Coordinates, start: Coordinates, end: Coordinates) -> Any:
    along = end - start
    length = (along**2).sum(axis=-1)
    dot = ((points - start) * along).sum(axis=-1)
    share = np.clip(dot / np.where(length == 0, 1, length), 0, 1)
    return np.hypot(*(points - start - share[..., None] * along).T)


def _largest(changes: list[Change]) -> tuple[Coordinates, float] | None:
    found = [c for c in changes if len(c.distances)]
    if not found:
        return None
    most = max(found, key=lambda c: float(c.distances.max()))
    at = int(most.distances.argmax())
    return most.dropped[at], float(most.distances[at])


def _draw(
    axes: Any, changes: list[Change], towns: Any, held: Sequence[int], *, dots: float
) -> None:
    from matplotlib.collections import LineCollection

    marked = set(held)
    free = [c.after for at, c in enumerate(changes) if at not in marked]
    kept = [changes[at].after for at in sorted(marked)]
    gone = [c.before for c in changes if len(c.dropped)]
    axes.add_collection(LineCollection(gone, colors=_BEFORE, linewidths=0.8, label="before"))
    axes.add_collection(LineCollection(free, colors=_AFTER, linewidths=1.1, label="after"))
    if kept:
        axes.add_collection(LineCollection(kept, colors=_HELD, linewidths=1.6, label="held"))
    dropped = [c.dropped for c in changes if len(c.dropped)]
    if dropped:
        x, y = np.concatenate(dropped).T
        axes.plot(x, y, ".", color=_DROPPED, markersize=dots, label=f"{len(x):,} dropped vertices")
    if towns is not None and len(towns):
        rows = [tuple(p.coords[0][:2]) for g in towns.geometry for p in getattr(g, "geoms", [g])]
        x, y = np.array(rows).T
        size = 4 if len(rows) < 200 else 1.5
        axes.plot(x, y, "s", color=_TOWN, markersize=size, label=f"{len(rows):,} towns")
    axes.autoscale_view()


def _inset(
    axes: Any, small: Any, largest: tuple[Coordinates, float], draw: Callable[[], None]
) -> None:
    from matplotlib.patches import Rectangle

    draw()
    (x, y), distance = largest
    low, high = axes.get_xlim()
    half = min(max(4 * distance, (high - low) / 80), (high - low) / 6)
    small.set_xlim(x - half, x + half)
    small.set_ylim(y - 1.4 * half, y + 1.4 * half)
    small.set_xticks([])
    small.set_yticks([])
    small.set_title(f"largest change: {distance:.3g}", fontsize=10)
    corner, sides = (x - half, y - 1.4 * half), (2 * half, 2.8 * half)
    axes.add_patch(Rectangle(corner, *sides, fill=False, edgecolor="black", linewidth=1, zorder=5))
