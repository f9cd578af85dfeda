"""Gaps of a coverage: faces of its outer borders that no row holds."""

from collections.abc import Iterable, Iterator
from dataclasses import dataclass
from functools import cmp_to_key

import numpy as np
import pandas as pd
from shapely.geometry import LineString, Polygon
from shapely.ops import polygonize

from .grid import Coordinates
from .shapes import Flags
from .sides import Sides, held_at_all
from .topology import Integers, Topology, counted_from, starts_of

_MARGIN = 1 + 1e-9
"""Sums of floats are taken to be right within this factor, where they decide what is looked at."""


def outer_arcs(topology: Topology) -> Integers:
    """Give the arcs that the rings name just once: the outer borders of the coverage."""
    uses = np.bincount(topology.named.arcs, minlength=topology.arc_count)
    return np.flatnonzero(uses == 1)


def narrow_gaps(
    topology: Topology, width: float, *, arranged: bool = False, sides: Sides | None = None
) -> list[Polygon]:
    """Give the holes of the whole coverage that are on average narrower than ``width``.

    ``width`` is in the units of the topology's grid. Where it is known that the map is
    ``arranged`` (arcs have only ends of both in common) faces that are too wide or that a row holds
    are left aside before shapely makes them; the gaps are the same.
    """
    plain = topology.without_repeats() if sides is None else sides.topology
    arcs = outer_arcs(plain)
    arcs = arcs[np.diff(plain.starts)[arcs] > 1]
    if not len(arcs):
        return []
    if not arranged:
        return _gaps_of(plain, arcs, width)
    borders = _Borders(sides or Sides(plain), arcs)
    some, boxes = borders.suspects(width)
    if not len(some):
        return []
    found = _gaps_of(plain, some, width)
    matching = [gap for gap in found if gap.bounds in boxes]
    if len({gap.bounds for gap in matching}) < len(matching):
        return _gaps_of(plain, arcs, width)
    return matching


def _gaps_of(topology: Topology, arcs: Integers, width: float) -> list[Polygon]:
    """Give the narrow faces of some arcs that no polygon of the topology holds."""
    starts = topology.starts
    coordinates = topology.grid.unsnap(topology.places)
    lines = [coordinates[starts[arc] : starts[arc + 1]] for arc in arcs.tolist()]
    faces = polygonize([LineString(line) for line in lines])
    thin = [face for face in faces if 2 * face.area < width * face.length]
    inside = held_at_all(coordinates, topology, _centres(thin))
    return [face for face, held in zip(thin, inside.tolist(), strict=True) if not held]


def _centres(faces: Iterable[Polygon]) -> Coordinates:
    points = [face.representative_point() for face in faces]
    return np.array([(point.x, point.y) for point in points]).reshape(-1, 2)


@dataclass(frozen=True)
class _Boxes:
    """Boxes by columns."""

    left: Integers
    low: Integers
    right: Integers
    high: Integers

    def round_some(self, starts: Integers) -> "_Boxes":
        """Give the boxes round boxes ``starts[i]`` to ``starts[i + 1]``, one or more."""
        least = (np.minimum.reduceat(values, starts[:-1]) for values in (self.left, self.low))
        most = (np.maximum.reduceat(values, starts[:-1]) for values in (self.right, self.high))
        return _Boxes(*least, *most)

    def at(self, which: Integers) -> "_Boxes":
        """Give some of the boxes."""
        return _Boxes(self.left[which], self.low[which], self.right[which], self.high[which])

    def each(self) -> Iterator[tuple[int, ...]]:
        """Give each box as its least x and y and its greatest."""
        columns = self.left.tolist(), self.low.tolist(), self.right.tolist(), self.high.tolist()
        return zip(*columns, strict=True)

    def hold(self, box: tuple[int, ...]) -> Flags:
        """Tell which of the boxes hold this one."""
        left, low, right, high = box
        holds = (self.left <= left) & (self.low <= low)
        return np.asarray(holds & (right <= self.right) & (high <= self.high))

    def are_in(self, box: tuple[int, ...]) -> Flags:
        """Tell which of the boxes are in this one."""
        left, low, right, high = box
        inside = (left <= self.left) & (low <= self.low)
        return np.asarray(inside & (self.right <= right) & (self.high <= high))


class _Borders:
    """The faces on both sides of some arcs. Way 2 i goes along arc i, way 2 i + 1 back.

    A way has its face on its left. The next way is the one that follows clockwise, at the end of
    a way, on the way back.
    """

    def __init__(self, sides: Sides, arcs: Integers) -> None:
        self._sides, self._topology = sides, sides.topology
        self.arcs = self._without_dangles(arcs)
        self.cycle = self._cycles()
        bridges = self.cycle[::2] == self.cycle[1::2]
        if bridges.any():
            self.arcs = self.arcs[~bridges]
            self.cycle = self._cycles()

    def _nodes(self, arcs: Integers) -> Integers:
        """Give numbers of the places where the ways of arcs begin."""
        starts = self._topology.starts
        ends = np.column_stack((starts[arcs], starts[arcs + 1] - 1)).ravel()
        places = self._topology.places[ends]
        return np.asarray(pd.factorize((places[:, 0] << 31) + places[:, 1])[0], dtype=np.int64)

    def _without_dangles(self, arcs: Integers) -> Integers:
        while len(arcs):
            nodes = self._nodes(arcs)
            alone = (np.bincount(nodes)[nodes] == 1).reshape(-1, 2).any(axis=1)
            if not alone.any():
                break
            arcs = arcs[~alone]
        return arcs

    def _cycles(self) -> Integers:
        """Give for each way the least way of the border of its face."""
        count = 2 * len(self.arcs)
        label, reach = np.arange(count), self._next()
        for _ in range(count.bit_length()):
            label = np.minimum(label, label[reach])
            reach = reach[reach]
        return label

    def _next(self) -> Integers:
        nodes = self._nodes(self.arcs)
        order = np.argsort(nodes, kind="stable")
        firsts = starts_of(np.bincount(nodes))
        for node in np.flatnonzero(np.diff(firsts) > 2).tolist():
            low, high = firsts[node : node + 2]
            order[low:high] = self._turning_left(order[low:high])
        place = np.empty(len(order), dtype=np.int64)
        place[order] = np.arange(len(order))
        before = np.where(place == firsts[nodes], firsts[nodes + 1], place) - 1
        return np.asarray(order[before][np.arange(len(order)) ^ 1])

    def _turning_left(self, ways: Integers) -> list[int]:
        """Sort ways from one place by their directions."""
        starts, places = self._topology.starts, self._topology.places
        arcs = self.arcs[ways // 2]
        at = np.where(ways % 2 == 0, starts[arcs], starts[arcs + 1] - 1)
        after = np.where(ways % 2 == 0, at + 1, at - 1)
        steps = dict(zip(ways.tolist(), (places[after] - places[at]).tolist(), strict=True))

        def compare(one: int, other: int) -> int:
            (x, y), (u, v) = steps[one], steps[other]
            halves = int((y, x) < (0, 0)) - int((v, u) < (0, 0))
            return halves or (x * v - y * u < 0) - (x * v - y * u > 0)

        return sorted(steps, key=cmp_to_key(compare))

    def suspects(self, width: float) -> tuple[Integers, set[tuple[float, ...]]]:
        """Give the arcs round faces that may be narrow gaps, and the boxes of those faces.

        What is in the box of a face is taken to be in it, but for what is beyond its own arcs.
        """
        if not len(self.arcs):
            return self.arcs, set()
        numbers, cycle = np.unique(self.cycle, return_inverse=True)
        area, length, box_of = self._measures(cycle)
        held = np.zeros(len(numbers), dtype=bool)
        held[cycle[self._is_held()]] = True
        for box in self._mixed_boxes():
            held &= ~box_of.hold(box)
        islands = np.flatnonzero(area < 0)
        boxes_of_islands = box_of.at(islands)
        faces = np.flatnonzero((area > 0) & ~held)
        chosen, boxes = np.zeros(len(numbers), dtype=bool), set()
        for face, box in zip(faces.tolist(), box_of.at(faces).each(), strict=True):
            inner = islands[boxes_of_islands.are_in(box)]
            if len(inner):
                inner = inner[~np.isin(inner, cycle[np.flatnonzero(cycle == face) ^ 1])]
            least, most = area[face] + area[inner].sum(), length[face] + length[inner].sum()
            if 2 * least < width * most * _MARGIN:
                chosen[[face, *inner]] = True
                corners = self._topology.grid.unsnap(np.array(box).reshape(2, 2))
                boxes.add(tuple(corners.ravel().tolist()))
        return np.unique(self.arcs[np.flatnonzero(chosen[cycle]) // 2]), boxes

    def _is_held(self) -> Flags:
        """Tell of each way whether just one part of a plain polygon is on its left: it holds it."""
        crowded = np.zeros(self._topology.arc_count, dtype=bool)
        crowded[self._sides.crowded] = True
        left, right = ((claims == 1) & ~crowded for claims in self._sides.plain_claims)
        return np.column_stack((left[self.arcs], right[self.arcs])).ravel()

    def _mixed_boxes(self) -> Iterator[tuple[int, ...]]:
        """Give the boxes of the other arcs that may have a held side and one that is not held.

        Inside a face with a held way, and with none of these, everything is held. An arc that is
        inside a face has its box in that of the face.
        """
        sides = self._sides
        uses = np.bincount(self._topology.named.arcs, minlength=self._topology.arc_count)
        left, right = sides.plain_claims
        plain = (uses == 2) & (left == 1) & (right == 1)
        plain[sides.crowded] = False
        plain[self.arcs] = True
        arcs = sides.named_arcs[~plain[sides.named_arcs]]
        return self._arc_boxes(arcs).each() if len(arcs) else iter(())

    def _measures(self, cycle: Integers) -> tuple[Coordinates, Coordinates, _Boxes]:
        """Give the area and the length of each cycle, in the units of the map, and its box."""
        arcs, (across, up) = self.arcs, self._topology.grid.scale
        order, starts = np.argsort(cycle, kind="stable"), starts_of(np.bincount(cycle))
        twice = self._sides.arc_areas[arcs]
        areas = np.add.reduceat(np.column_stack((twice, -twice)).ravel()[order], starts[:-1])
        lengths = np.bincount(cycle, np.repeat(self._lengths(arcs), 2))
        boxes = self._arc_boxes(arcs).at(order // 2).round_some(starts)
        return areas * (across * up / 2), lengths, boxes

    def _lengths(self, arcs: Integers) -> Coordinates:
        at, starts = self._positions(arcs)
        steps = np.diff(self._topology.grid.unsnap(self._topology.places[at]), axis=0)
        lengths = np.append(np.hypot(steps[:, 0], steps[:, 1]), 0.0)
        lengths[starts[1:] - 1] = 0.0
        return np.add.reduceat(lengths, starts[:-1])

    def _positions(self, arcs: Integers) -> tuple[Integers, Integers]:
        counts = np.diff(self._topology.starts)[arcs]
        at = counted_from(self._topology.starts[arcs], counts)
        return at, starts_of(counts)

    def _arc_boxes(self, arcs: Integers) -> _Boxes:
        at, starts = self._positions(arcs)
        x, y = self._topology.places[:, 0][at], self._topology.places[:, 1][at]
        return _Boxes(x, y, x, y).round_some(starts)


__all__ = ["narrow_gaps", "outer_arcs"]
