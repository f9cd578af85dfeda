"""Which polygons lie beside an arc, and how many cover a place, by exact whole numbers.

A ray goes upwards from a point, tilted a very little. What it crosses tells what the point is in:
by parity for the rows that hold it, by direction for how many cover it.
"""

import math
from collections.abc import Iterable, Iterator
from functools import cached_property
from typing import Any

import numpy as np
import pandas as pd

from .grid import Places
from .shapes import Flags
from .topology import Integers, Topology, alike, counted_from, starts_of, within

_PAIRS = 2_000_000
_BLOCK = 16


class Sides:
    """The sides of the arcs of a topology without repeats, and the polygons that claim them.

    Side a is the left of arc a, side ``-a - 1`` its right. A polygon claims the sides of its arcs
    that are inside each ring, for an inner ring those that are outside.
    """

    def __init__(self, topology: Topology) -> None:
        self.topology = topology
        named = topology.named
        self.ring = named.ring_of_references
        self.part = named.part_of_rings[self.ring]
        self.polygon = named.polygon_of_rings[self.ring]
        outer = np.zeros(len(named.starts) - 1, dtype=bool)
        outer[named.rings[:-1][np.diff(named.rings) > 0]] = True
        self.arc_areas = self._arc_areas()
        signed = np.where(named.references < 0, -1, 1) * self.arc_areas[named.arcs]
        self.areas = np.diff(starts_of(signed)[named.starts])
        turned = ((self.areas > 0) == outer)[self.ring]
        self.claims = np.where(turned, named.references, -named.references - 1)

    def _arc_areas(self) -> Integers:
        """Give for each arc what it adds to twice the area of a ring, above 0 to the left.

        Sums may pass the ends of int64 on the way; areas of rings do not, so they are exact.
        """
        places, starts = self.topology.places, self.topology.starts
        x, y = places[:, 0], places[:, 1]
        turns = np.zeros(len(places) + 1, dtype=np.int64)
        if len(places) > 1:
            np.cumsum(x[:-1] * y[1:] - x[1:] * y[:-1], out=turns[1:-1])
        return np.asarray(turns[np.maximum(starts[1:] - 1, starts[:-1])] - turns[starts[:-1]])

    @property
    def named_arcs(self) -> Integers:
        """The arcs with an edge that a polygon names, rising."""
        named = np.zeros(self.topology.arc_count, dtype=bool)
        named[self.topology.named.arcs] = True
        return np.flatnonzero(named & (np.diff(self.topology.starts) > 1))

    def middles(self, arcs: Integers) -> Places:
        """Give the middles of the first edges of arcs, on a grid of half steps."""
        first = self.topology.starts[arcs]
        return np.asarray(self.topology.places[first] + self.topology.places[first + 1])

    def polygons_of(self, arcs: Integers) -> list[set[int]]:
        """Give for each arc the polygons that name it."""
        named = self.topology.named.arcs
        order = np.argsort(named, kind="stable")
        low = np.searchsorted(named[order], arcs).tolist()
        high = np.searchsorted(named[order], arcs, "right").tolist()
        polygons = self.polygon[order].tolist()
        return [set(polygons[a:b]) for a, b in zip(low, high, strict=True)]

    @cached_property
    def plain_polygons(self) -> Flags:
        """Tell of the polygons of an arranged map which cover each place once or not at all.

        Told so are those whose rings go through no place twice, and whose parts with holes cover
        what is beside each of their arcs as often as they claim it.
        """
        named = self.topology.named
        wrong = np.zeros(named.count, dtype=bool)
        wrong[named.polygon_of_rings[~self._simple_rings()]] = True
        holed = np.diff(named.rings) > 1
        at = np.flatnonzero(holed[self.part])
        wrong[self.polygon[at[self._differs(at, self.part[at])]]] = True
        return ~wrong

    def _simple_rings(self) -> Flags:
        named, starts = self.topology.named, self.topology.starts
        arc, back = named.arcs, named.references < 0
        end = np.where(back, starts[arc + 1] - 1, starts[arc])
        places = self.topology.places[end]
        node = (places[:, 0] << 31) + places[:, 1]
        order = np.lexsort((node, self.ring))
        node, ring = node[order], self.ring[order]
        simple = self.areas != 0
        simple[ring[1:][(node[1:] == node[:-1]) & (ring[1:] == ring[:-1])]] = False
        return simple

    def _differs(self, at: Integers, group: Integers) -> Flags:
        """Tell of references where their groups cover what is over their arc not as claimed."""
        arc = self.topology.named.arcs[at]
        weight = np.where(self.claims[at] >= 0, 1, -1)
        counts = self._covered(arc, group, arc, group, weight)
        wanted = (self.claims[at] >= 0) == self._goes_right(arc)
        twice = _has_twin(arc, group)
        return np.asarray((counts != wanted) | twice)

    @cached_property
    def crowded(self) -> Integers:
        """Those named arcs over which another number of parts of plain polygons lies than claim it.

        Beside all other arcs, on both sides, lie those parts that claim the side and no others.
        """
        arcs, (left, right) = self.named_arcs, self.plain_claims
        jump = np.flatnonzero(left != right)
        zeros = np.zeros(len(arcs), dtype=np.int64), np.zeros(len(jump), dtype=np.int64)
        counts = self._covered(arcs, zeros[0], jump, zeros[1], (left - right)[jump])
        wanted = np.where(self._goes_right(arcs), left[arcs], right[arcs])
        return arcs[counts != wanted]

    @cached_property
    def plain_claims(self) -> tuple[Integers, Integers]:
        """For each arc how often plain polygons claim its left, and its right."""
        claims = self.claims[self.plain_polygons[self.polygon]]
        count = self.topology.arc_count
        left = np.bincount(claims[claims >= 0], minlength=count)
        return left, np.bincount(-claims[claims < 0] - 1, minlength=count)

    def _goes_right(self, arcs: Integers) -> Flags:
        a = self.topology.places[self.topology.starts[arcs]]
        b = self.topology.places[self.topology.starts[arcs] + 1]
        return _is_before(a, b)

    def _covered(
        self, arcs: Integers, groups: Integers, lines: Integers, of: Integers, weight: Integers
    ) -> Integers:
        """Give how often the lines of the same group cover the place just over each arc.

        ``weight`` is by how much a line covers its left more than its right.
        """
        blocks = Blocks(2 * self.topology.places, self.topology.starts, lines)
        points = _columns(self.middles(arcs))
        pairs = _pairs(blocks, points[0], of[blocks.of], groups)
        found = np.zeros(len(arcs), dtype=np.int64)
        for block, point, way in crossings(blocks, points, pairs):
            weights = way * weight[blocks.of[block]]
            found -= np.bincount(point, weights, len(arcs)).astype(np.int64)
        return found


def _has_twin(values: Integers, groups: Integers) -> Flags:
    """Tell which values come twice in their group."""
    order = np.lexsort((values, groups))
    same = np.zeros(len(values) + 1, dtype=bool)
    same[1:-1] = (values[order][1:] == values[order][:-1]) & (
        groups[order][1:] == groups[order][:-1]
    )
    twin = np.zeros(len(values), dtype=bool)
    twin[order] = same[1:] | same[:-1]
    return twin


def _is_before(a: Any, b: Any) -> Flags:
    return np.asarray((a[:, 0] < b[:, 0]) | ((a[:, 0] == b[:, 0]) & (a[:, 1] < b[:, 1])))


class Blocks:
    """Runs of up to sixteen edges of some lines, and the boxes round them.

    Block i has the positions ``first[i]`` to ``last[i]``, both in it, of line ``line[i]``.
    """

    def __init__(self, coordinates: Any, starts: Integers, lines: Integers) -> None:
        self.line_count = len(starts) - 1
        edges = np.maximum(np.diff(starts)[lines] - 1, 0)
        counts = -(-edges // _BLOCK)
        number = within(counts)
        self.of = np.repeat(np.arange(len(lines)), counts)
        self.line = lines[self.of]
        self.first = starts[self.line] + number * _BLOCK
        self.last = np.minimum(self.first + _BLOCK, starts[self.line + 1] - 1)
        self.x, self.y = _columns(coordinates)
        self.begins = self.x[self.first], self.y[self.first]
        self.ends = self.x[self.last], self.y[self.last]
        self.left, self.right = self._ends_of(self.x)
        self.low, self.high = self._ends_of(self.y)

    def _ends_of(self, values: Any) -> tuple[Any, Any]:
        """Give the least and the greatest value in each block."""
        if not len(self.first):
            return values[:0], values[:0]
        if (np.diff(self.first) > 0).all():
            cuts = np.column_stack((self.first, self.last)).ravel()
            low = np.minimum.reduceat(values, cuts)[::2]
            high = np.maximum.reduceat(values, cuts)[::2]
            return np.minimum(low, values[self.last]), np.maximum(high, values[self.last])
        counts = self.last - self.first + 1
        at = counted_from(self.first, counts)
        firsts = starts_of(counts)[:-1]
        return np.minimum.reduceat(values[at], firsts), np.maximum.reduceat(values[at], firsts)

    def edges_at(self, block: Integers, x: Any, margin: int) -> tuple[Integers, Integers]:
        """Give pairs of a number and an edge of the block of that number, which passes by its x.

        That is within ``margin``.
        """
        counts = (self.last - self.first)[block]
        edge = counted_from(self.first[block], counts)
        number = np.repeat(np.arange(len(block)), counts)
        a, b, x = self.x[edge], self.x[edge + 1], x[number]
        near = (np.minimum(a, b) - margin <= x) & (x <= np.maximum(a, b) + margin)
        return number[near], edge[near]


def crossings(
    blocks: Blocks, points: tuple[Any, Any], pairs: Iterable[tuple[Integers, Integers]]
) -> Iterator[tuple[Integers, Integers, Integers]]:
    """Give, in runs, blocks, points whose ray crosses them, and which way the ray is crossed.

    Of ``pairs`` of a block and a point over or under it; ``points`` are their x and their y. The
    third is 1 where a line crosses the ray to the right, -1 where it does so to the left; what
    crosses to and fro within a block may be left out in pairs.
    """
    for block, point in pairs:
        y = points[1][point]
        over, beside = blocks.low[block] > y, blocks.high[block] >= y
        beside &= ~over
        yield _over(blocks, block[over], point[over], *points)
        yield _beside(blocks, block[beside], point[beside], *points)


def _over(
    blocks: Blocks, block: Integers, point: Integers, px: Any, py: Any
) -> tuple[Integers, Integers, Integers]:
    """Of blocks over the points: those with ends on both sides of the ray."""
    x, y = px[point], py[point]
    begins = _comes_before(blocks.begins[0][block], blocks.begins[1][block], x, y)
    ends = _comes_before(blocks.ends[0][block], blocks.ends[1][block], x, y)
    hit = begins != ends
    return block[hit], point[hit], np.where(begins[hit], 1, -1)


def _beside(
    blocks: Blocks, block: Integers, point: Integers, px: Any, py: Any
) -> tuple[Integers, Integers, Integers]:
    """Of blocks in whose boxes the points are: edge by edge."""
    number, edge = blocks.edges_at(block, px[point], 0)
    block, point = block[number], point[number]
    x, y = px[point], py[point]
    x0, y0, x1, y1 = blocks.x[edge], blocks.y[edge], blocks.x[edge + 1], blocks.y[edge + 1]
    right = _comes_before(x0, y0, x, y) & _comes_before(x, y, x1, y1)
    left = _comes_before(x1, y1, x, y) & _comes_before(x, y, x0, y0)
    at = np.flatnonzero(right | left)
    x, y, right = x[at], y[at], right[at]
    ax, bx = np.where(right, x0[at], x1[at]), np.where(right, x1[at], x0[at])
    ay, by = np.where(right, y0[at], y1[at]), np.where(right, y1[at], y0[at])
    hit = (bx - ax) * (y - ay) < (by - ay) * (x - ax)
    at = at[hit]
    return block[at], point[at], np.where(right[hit], 1, -1)


def _comes_before(x: Any, y: Any, u: Any, v: Any) -> Flags:
    return np.asarray((x < u) | ((x == u) & (y < v)))


def close_to(blocks: Blocks, cells: "Cells", margin: int) -> tuple[Integers, Integers]:
    """Give pairs of a point and a line that may be within ``margin`` grid steps on each axis.

    No pair that is so close is left out; one that is given may be a little further away.
    """
    close, arcs = [np.empty(0, dtype=np.int64)], [np.empty(0, dtype=np.int64)]
    across = blocks.left - margin, blocks.right + margin
    up = blocks.low - margin, blocks.high + margin
    for block, point in cells.in_boxes(across, up):
        number, edge = blocks.edges_at(block, cells.x[point], margin)
        block, point = block[number], point[number]
        near = _is_near(blocks, edge, cells.x[point], cells.y[point], margin)
        close.append(point[near])
        arcs.append(blocks.line[block[near]])
    return np.concatenate(close), np.concatenate(arcs)


def _is_near(blocks: Blocks, edge: Integers, x: Any, y: Any, margin: int) -> Flags:
    """Tell of edges that pass by x whether they pass by the point."""
    x, y = x - blocks.x[edge], y - blocks.y[edge]
    across, up = blocks.x[edge + 1] - blocks.x[edge], blocks.y[edge + 1] - blocks.y[edge]
    near = (np.minimum(up, 0) - margin <= y) & (y <= np.maximum(up, 0) + margin)
    near &= np.abs(across * y - up * x) <= margin * (np.abs(across) + np.abs(up))
    return np.asarray(near)


Spans = tuple[Any, Any]
"""The least and the greatest value of each box on an axis."""


def thinned_boxes(before: Topology, after: Topology) -> tuple[Spans, Spans] | None:
    """Give the boxes round the runs of positions that were dropped, with the ends of each run.

    A place outside them is on the same side of each arc, before and after. None where the arcs
    after are not told to be those before with inner positions left out.
    """
    as_many = before.arc_count == after.arc_count
    if not as_many or any((np.diff(one.starts) < 2).any() for one in (before, after)):
        return None
    count = len(before.places)
    both = np.concatenate((before.places, after.places))
    same = alike((both[:, 0] << 31) + both[:, 1])
    ends = np.zeros(count, dtype=bool)
    ends[before.starts[:-1]], ends[before.starts[1:] - 1] = True, True
    inner = np.flatnonzero(~ends)
    place = np.full(len(both), -1, dtype=np.int64)
    place[same[inner]] = inner
    if (place[same[inner]] != inner).any():
        return None
    at = place[same[count:]]
    at[after.starts[:-1]], at[after.starts[1:] - 1] = before.starts[:-1], before.starts[1:] - 1
    if (at < 0).any() or (np.diff(at) <= 0).any() or (both[at] != after.places).any():
        return None
    dropped = np.diff(at) > 1
    dropped[after.starts[1:-1] - 1] = False
    runs = np.flatnonzero(dropped)
    x, y = _columns(before.places)
    return _range_of(x, at, runs), _range_of(y, at, runs)


def _range_of(values: Any, at: Integers, runs: Integers) -> Spans:
    """Give the least and the greatest value from ``at[r]`` to ``at[r + 1]``, of some r."""
    last = values[at[runs + 1]]
    low, high = np.minimum.reduceat(values, at)[runs], np.maximum.reduceat(values, at)[runs]
    return np.minimum(low, last), np.maximum(high, last)


class Cells:
    """Points, sorted into the cells of a grid: strip over strip, in each from left to right."""

    def __init__(self, points: Any) -> None:
        self.x, self.y = _columns(points)
        self._strips = max(1, math.isqrt(len(points)))
        self._columns = 4 * self._strips
        cell = self._strip(self.y) * self._columns + self._column(self.x)
        self._order = np.argsort(cell, kind="stable")
        self._firsts = starts_of(np.bincount(cell, minlength=self._strips * self._columns))

    def _column(self, x: Any) -> Integers:
        return _part(x, self.x, self._columns)

    def _strip(self, y: Any) -> Integers:
        return _part(y, self.y, self._strips)

    def in_boxes(self, across: Spans, up: Spans) -> Iterator[tuple[Integers, Integers]]:
        """Give, in runs, pairs of a box and a point in it; the edges of a box belong to it."""
        if not len(self.x):
            return
        worth = np.flatnonzero(_meets(across, self.x) & _meets(up, self.y))
        left, right = (self._column(x[worth]) for x in across)
        bottom, top = (self._strip(y[worth]) for y in up)
        counts = top - bottom + 1
        for start, end in _chunks(counts):
            some = np.arange(start, end)
            at = np.repeat(some, counts[some])
            strip = counted_from(bottom[some], counts[some]) * self._columns
            for run, point in self._in_runs(strip + left[at], strip + right[at]):
                box, x, y = worth[at[run]], self.x[point], self.y[point]
                inside = (across[0][box] <= x) & (x <= across[1][box])
                inside &= (up[0][box] <= y) & (y <= up[1][box])
                yield box[inside], point[inside]

    def _in_runs(self, first: Integers, last: Integers) -> Iterator[tuple[Integers, Integers]]:
        """Give, in runs, pairs of a number and a point in the cells from its first to its last."""
        low = self._firsts[first]
        counts = self._firsts[last + 1] - low
        full = np.flatnonzero(counts)
        for start, end in _chunks(counts[full]):
            some = full[start:end]
            yield np.repeat(some, counts[some]), self._order[counted_from(low[some], counts[some])]


def _part(values: Any, points: Any, count: int) -> Integers:
    """Give which of ``count`` equal parts of the points' range values are in, rising with them."""
    if not len(points):
        return np.zeros(len(values), dtype=np.int64)
    low, high = points.min(), points.max()
    parts = (np.clip(values, low, high) - low) / ((high - low) or 1) * count
    return np.asarray(np.minimum(parts.astype(np.int64), count - 1))


def _meets(spans: Spans, points: Any) -> Flags:
    """Tell which spans are not empty and may hold one of the points."""
    low, high = spans
    return np.asarray((low <= high) & (high >= points.min()) & (low <= points.max()))


def _columns(rows: Any) -> tuple[Any, Any]:
    return np.ascontiguousarray(rows[:, 0]), np.ascontiguousarray(rows[:, 1])


def _pairs(
    blocks: Blocks, place: Any, of: Integers, groups: Integers
) -> Iterator[tuple[Integers, Integers]]:
    """Give, in runs, pairs of a block and a point from its left to its right, of one group.

    ``place`` are the x of the points, below 2^31.
    """
    shift, place = of << 32, place + (groups << 32)
    order = np.argsort(place, kind="stable")
    place = place[order]
    first = np.searchsorted(place, blocks.left + shift, "left")
    counts = np.searchsorted(place, blocks.right + shift, "right") - first
    worth = np.flatnonzero(counts > 0)
    for start, end in _chunks(counts[worth]):
        some = worth[start:end]
        block = np.repeat(some, counts[some])
        yield block, order[counted_from(first[some], counts[some])]


def held(
    coordinates: Any, starts: Integers, rows: tuple[Integers, Integers], points: Any
) -> tuple[Integers, Integers]:
    """Give pairs of a point and a row that holds it, rising.

    Row r names the lines ``rows[0][rows[1][r] : rows[1][r + 1]]``.
    """
    used = np.zeros(len(starts) - 1, dtype=bool)
    used[rows[0]] = True
    return held_by(Blocks(coordinates, starts, np.flatnonzero(used)), rows, Cells(points))


def held_by(
    blocks: Blocks, rows: tuple[Integers, Integers], cells: Cells
) -> tuple[Integers, Integers]:
    """Give the same as ``held``, by blocks of all lines that the rows name, or of more.

    A row holds no point below it, so a block is no matter for points below all its rows.
    """
    named, row_starts = rows
    row = np.repeat(np.arange(len(row_starts) - 1), np.diff(row_starts))
    row = row[np.argsort(named, kind="stable")]
    uses = np.bincount(named, minlength=blocks.line_count)
    firsts = starts_of(uses)[:-1]
    bottoms = _bottoms(blocks, rows)
    floors = np.full(blocks.line_count, _limits(blocks.y.dtype)[1])
    floors[uses > 0] = np.minimum.reduceat(bottoms[row], firsts[uses > 0]) if len(row) else 0
    pairs = cells.in_boxes((blocks.left, blocks.right), (floors[blocks.line], blocks.high))
    pieces = [np.empty(0, dtype=np.int64)]
    for block, point, _ in crossings(blocks, (cells.x, cells.y), pairs):
        line = blocks.line[block]
        counts = uses[line]
        crossed = row[counted_from(firsts[line], counts)]
        point = np.repeat(point, counts)
        over = cells.y[point] >= bottoms[crossed]
        pieces.append(point[over] * len(row_starts) + crossed[over])
    keys = np.sort(odd_times(np.concatenate(pieces)))
    return keys // len(row_starts), keys % len(row_starts)


def _limits(kind: Any) -> tuple[Any, Any]:
    """Give the least and the greatest value of a kind of numbers."""
    if kind.kind == "f":
        return -np.inf, np.inf
    return np.iinfo(kind).min, np.iinfo(kind).max


def _bottoms(blocks: Blocks, rows: tuple[Integers, Integers]) -> Any:
    """Give for each row its least y. A row holds no point below it."""
    named, row_starts = rows
    lows = np.full(blocks.line_count, _limits(blocks.y.dtype)[1])
    first = np.flatnonzero(np.diff(blocks.line, prepend=-1))
    if len(first):
        lows[blocks.line[first]] = np.minimum.reduceat(blocks.low, first)
    bottoms = np.full(len(row_starts) - 1, _limits(blocks.y.dtype)[1])
    full = np.flatnonzero(np.diff(row_starts) > 0)
    if len(full):
        bottoms[full] = np.minimum.reduceat(lows[named], row_starts[full])
    return bottoms


def rows_named(topology: Topology) -> tuple[Integers, Integers]:
    """Give the arcs of all polygons, as often as they are named, and where each polygon's begin."""
    named = topology.named
    return named.arcs, named.starts[named.rings[named.parts]]


def held_at_all(coordinates: Any, topology: Topology, points: Any) -> Flags:
    """Tell of each point whether a polygon holds it; ``coordinates`` are those of the places."""
    inside = np.zeros(len(points), dtype=bool)
    if len(points):
        inside[held(coordinates, topology.starts, rows_named(topology), points)[0]] = True
    return inside


def odd_times(values: Integers) -> Integers:
    """Give those values that come an odd number of times, each once, in no order."""
    numbers, found = pd.factorize(values)
    return np.asarray(found[np.bincount(numbers, minlength=len(found)) % 2 == 1])


def _chunks(counts: Integers) -> Iterator[tuple[int, int]]:
    """Give runs of edges that have some two million pairs with points together."""
    sums = np.cumsum(counts)
    low = 0
    while low < len(counts):
        done = sums[low - 1] if low else 0
        high = max(low + 1, int(np.searchsorted(sums, done + _PAIRS, "right")))
        yield low, high
        low = high
