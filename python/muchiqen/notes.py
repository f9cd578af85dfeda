"""What the report says of a map's faults: overlaps, gaps, rows, towns, and why arcs are held.

All of it is told from the map, before and after, and nothing is taken from the command's word but
that a map which it thinned without ``--hold`` is arranged.
"""

from collections.abc import Sequence
from dataclasses import replace
from typing import TYPE_CHECKING, Any

import geopandas as gpd
import numpy as np
from shapely.geometry import LineString, Point

from . import survey
from .build import keys_of
from .errors import NotConfirmed
from .meetings import Held
from .shapes import Flags, Objects, are_valid
from .sides import (
    Blocks,
    Cells,
    Sides,
    close_to,
    held,
    held_by,
    rows_named,
    thinned_boxes,
)
from .topology import Integers, Topology, counted_from, starts_of

if TYPE_CHECKING:
    from .thin import Work

_TOWNS_WORTH = 8
"""With fewer towns for so many positions it takes longer to find those beside a run than to look
at all of them."""

_CLOSE = 2
"""Snapping moves a town and an edge together by less than so many grid steps on each axis."""


def with_causes(held: list[Held], work: "Work") -> list[Held]:
    """Say of each meeting whether the edges met before snapping."""
    if work.rings is None:
        return held
    origin = _Origins(work)
    return [origin.judged(meeting) for meeting in held]


class _Origins:
    """Finds where the places on the grid came from."""

    def __init__(self, work: "Work") -> None:
        assert work.rings is not None
        self._topology = work.topology.without_repeats()
        places = work.topology.grid.snap(work.rings.coordinates)
        keys = keys_of(places).tolist()
        self._found = dict(zip(keys, work.rings.coordinates.tolist(), strict=True))
        self._towns = work.town_coordinates

    def _edge(self, arc: int, edge: int) -> Any:
        places = self._topology.arc(arc)[edge : edge + 2]
        return LineString([self._found[key] for key in keys_of(places).tolist()])

    def judged(self, held: Held) -> Held:
        own = self._edge(held.arc, held.edges[0])
        if held.kind == "has a town on it":
            other = Point(self._towns[held.other])
            return replace(held, by_snapping=own.distance(other) > 0)
        return replace(held, by_snapping=not own.intersects(self._edge(held.other, held.edges[1])))


def fault_notes(work: "Work", tolerance: float, arranged: bool) -> list[str]:
    """Say which rows overlap and where gaps are narrow, on the grid before thinning."""
    labels = polygon_labels(work)
    sides = Sides(work.topology.without_repeats())
    pairs = survey.overlapping(work.topology, arranged=arranged, sides=sides)
    notes = [f"rows {labels[a]} and {labels[b]} overlap" for a, b in pairs[:20]]
    if len(pairs) > 20:
        notes.append(f"{len(pairs) - 20} more pairs of rows overlap")
    gaps = survey.narrow_gaps(work.topology, tolerance, arranged=arranged, sides=sides)
    for gap in gaps[:10]:
        x, y = gap.representative_point().coords[0]
        notes.append(f"a gap narrower than the tolerance near ({x:g}, {y:g}), area {gap.area:g}")
    if len(gaps) > 10:
        notes.append(f"{len(gaps) - 10} more gaps narrower than the tolerance")
    return notes


def polygon_labels(work: "Work") -> list[Any]:
    """Give the labels of the polygons, by number: of the rows that are on the grid."""
    if work.frame is None:
        return list(range(work.topology.named.count))
    return work.frame.index[work.on_grid].tolist()


def after_notes(work: "Work", frame: gpd.GeoDataFrame) -> list[str]:
    """Say which rows shapely finds invalid, and whether they came so.

    Raises NotConfirmed where a row was valid before thinning and is not after.
    """
    bad = np.flatnonzero(~are_valid(_shapes_of(frame)))
    if not len(bad):
        return []
    snapped = are_valid(work.shapes_of(work.topology, bad))
    before = snapped if work.frame is None else are_valid(_shapes_of(work.frame)[bad])
    labels = frame.index[bad].tolist()
    fresh = [label for label, valid in zip(labels, snapped.tolist(), strict=True) if valid]
    if fresh:
        raise NotConfirmed(f"rows {fresh[:5]} are valid before thinning and not after")
    return [
        f"row {label}: the polygon crosses or touches itself"
        + (", only once on the grid" if valid else ", as it came")
        for label, valid in zip(labels[:20], before[:20].tolist(), strict=True)
    ]


def _shapes_of(frame: gpd.GeoDataFrame) -> Objects:
    return np.asarray(frame.geometry.array.data, dtype=object)


def town_notes(work: "Work", after: Topology) -> list[str]:
    """Compare which rows hold each town: as they came, on the grid, and thinned.

    Raises NotConfirmed where thinning changed one.
    """
    count = len(work.town_coordinates)
    if not count:
        return []
    rows = rows_named(work.topology)
    towns = work.topology.points()[-count:]
    arcs = np.arange(work.topology.arc_count)
    blocks = Blocks(work.topology.places, work.topology.starts, arcs)
    cells = Cells(towns)
    on_grid = held_by(blocks, rows, cells)
    some = _may_change(work.topology, after, cells)
    thinned = held(after.places, after.starts, rows, towns[some])
    wanted = _of_towns(on_grid, some)
    if not all(np.array_equal(a, b) for a, b in zip(wanted, thinned, strict=True)):
        before, now = _lists(wanted, len(some)), _lists(thinned, len(some))
        pairs = zip(some.tolist(), before, now, strict=True)
        changed = [work.town_labels[town] for town, a, b in pairs if a != b]
        raise NotConfirmed(f"towns {changed[:5]} are in other rows after thinning")
    outside = np.bincount(on_grid[0], minlength=count) == 0
    notes = []
    if work.rings is not None:
        notes += _moved_notes(work, _may_move(work, blocks, cells), on_grid, outside)
    if outside.any():
        labels = [work.town_labels[at] for at in np.flatnonzero(outside)[:6]]
        notes.append(f"{outside.sum()} towns are in no row: {_some(labels)}")
    return notes


def _may_change(before: Topology, after: Topology, towns: Cells) -> Integers:
    """Give the towns that thinning can have brought elsewhere: those beside a run that it cut."""
    count = len(towns.x)
    few = count * _TOWNS_WORTH < len(before.places)
    boxes = None if few else thinned_boxes(before, after)
    if boxes is None:
        return np.arange(count)
    beside = np.zeros(count, dtype=bool)
    for _, town in towns.in_boxes(*boxes):
        beside[town] = True
    return np.flatnonzero(beside)


def _of_towns(pairs: tuple[Integers, Integers], towns: Integers) -> tuple[Integers, Integers]:
    """Give the pairs of some towns (rising); their numbers are those among these towns."""
    there = np.isin(pairs[0], towns)
    return np.searchsorted(towns, pairs[0][there]), pairs[1][there]


def _moved_notes(
    work: "Work",
    moving: tuple[Integers, Integers],
    on_grid: tuple[Integers, Integers],
    outside: Flags,
) -> list[str]:
    """Say which towns go to other rows by snapping; make ``outside`` as they came.

    ``moving`` are the towns that can, and the rows by which: all others are those on the grid.
    """
    towns, rows = moving
    if not len(towns):
        return []
    labels, notes = polygon_labels(work), []
    came = _lists(_held_as_they_came(work, towns, rows), len(towns))
    then = _of_towns(on_grid, towns)
    other = ~np.isin(then[1], rows)
    same = _lists((then[0][other], then[1][other]), len(towns))
    first = [sorted(a + b) for a, b in zip(came, same, strict=True)]
    for town, old, new in zip(towns.tolist(), first, _lists(then, len(towns)), strict=True):
        outside[town] = not old
        if old != new:
            ways = f"from {_names(labels, old)} to {_names(labels, new)}"
            notes.append(f"town {work.town_labels[town]}: snapping takes it {ways}")
    return notes


def _may_move(work: "Work", blocks: Blocks, towns: Cells) -> tuple[Integers, Integers]:
    """Give the towns that snapping can have brought elsewhere, and the rows it can be by.

    Only a town close to an edge can, and only by the rows with that edge.
    """
    named = work.topology.named
    if work.lost_rings:
        return np.arange(len(towns.x)), np.arange(named.count)
    moving, arcs = close_to(blocks, towns, _CLOSE)
    by = np.isin(named.arcs, arcs)
    return np.unique(moving), np.unique(named.polygon_of_rings[named.ring_of_references[by]])


def _held_as_they_came(work: "Work", towns: Integers, rows: Integers) -> tuple[Integers, Integers]:
    """Give pairs of one of the towns and one of the rows, by their numbers on the grid."""
    assert work.rings is not None
    firsts = work.rings.layout.ring_starts
    of_frame = np.flatnonzero(work.on_grid)[rows]
    counts = np.diff(firsts)[of_frame]
    rings = counted_from(firsts[of_frame], counts)
    named = rings, starts_of(counts)
    points = work.town_coordinates[towns]
    town, row = held(work.rings.coordinates, work.rings.starts, named, points)
    return town, rows[row]


def _lists(pairs: tuple[Integers, Integers], count: int) -> list[list[int]]:
    found: list[list[int]] = [[] for _ in range(count)]
    for town, row in zip(pairs[0].tolist(), pairs[1].tolist(), strict=True):
        found[town].append(row)
    return found


def _names(index: list[Any], rows: list[int]) -> str:
    return "no row" if not rows else "row " + " and ".join(str(index[row]) for row in rows)


def _some(labels: Sequence[Any]) -> str:
    return ", ".join(str(label) for label in labels[:5]) + (" .." if len(labels) > 5 else "")
