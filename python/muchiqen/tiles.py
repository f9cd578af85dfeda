"""Deals the arcs of a map of any size to tiles, and gives each tile its text.

A long arc is cut into ranges at ends of its chains, which every run keeps, and only where no other
arc comes by. A tile owns ranges; all else with a part in its box is context, which is frozen.
"""

from collections.abc import Iterator
from dataclasses import dataclass

import numpy as np
import numpy.typing as npt

from .build import keys_of
from .command import Weights
from .grid import Places
from .topology import Integers, Topology, arcs_text, counted_from, starts_of

MOST_CHAIN_EDGES = 1_023
"""A chain has at most so many edges."""

_BLOCK = 64

Box = tuple[int, int, int, int]
"""Least x and y, greatest x and y; the edges belong to it."""


@dataclass(frozen=True)
class Task:
    """A tile as it goes to a worker.

    The first ``owned`` arcs are those that may be thinned; ``points`` are the towns in the box and
    one inner position of each other arc that has one.
    """

    tile: int
    owned: int
    places: npt.NDArray[np.int32]
    starts: Integers
    points: npt.NDArray[np.int32]
    bound: int
    weights: Weights | None
    certify: bool
    program: str

    def text(self) -> bytes:
        """Give the TopoJSON text of the tile."""
        points = self.points.tolist()
        objects = f'{{"fixed":{{"type":"MultiPoint","coordinates":{points}}}}}'.replace(" ", "")
        arcs = arcs_text(self.places.astype(np.int64), self.starts)
        return b'{"type":"Topology","objects":' + objects.encode() + b',"arcs":' + arcs + b"}"


@dataclass
class Tile:
    """Ranges that are thinned together, and the box round them."""

    ranges: Integers
    box: Box

    def is_apart(self, other: "Tile") -> bool:
        """Tell whether the two boxes have no place in common."""
        a, b = self.box, other.box
        return a[2] < b[0] or b[2] < a[0] or a[3] < b[1] or b[3] < a[1]


def chain_ends(places: Places) -> list[int]:
    """Give where the chains of one arc (no repeats) end, the last position left out.

    From each cut a chain is the furthest strictly monotone run by x (then y) or by y (then x), at
    most 1,023 edges.
    """
    step = np.sign(np.diff(places, axis=0))
    by_x = np.where(step[:, 0] != 0, step[:, 0], step[:, 1])
    by_y = np.where(step[:, 1] != 0, step[:, 1], step[:, 0])
    reach = np.maximum(_run_ends(by_x), _run_ends(by_y)).tolist()
    ends, at = [], 0
    while at < len(reach):
        at = min(reach[at], at + MOST_CHAIN_EDGES)
        ends.append(at)
    return ends[:-1]


def _run_ends(signs: Integers) -> Integers:
    """Give for each edge the position up to which the edges from it on have its sign."""
    changes = np.flatnonzero(np.diff(signs)) + 1
    ends = np.append(changes, len(signs))
    return ends[np.searchsorted(changes, np.arange(len(signs)), side="right")]


class Tiling:
    """The state of one run: which positions are left, which range and tile each edge is of."""

    def __init__(self, topology: Topology, tile_positions: int) -> None:
        """Take a topology without repeats."""
        self.places = topology.places
        self.starts = topology.starts
        self.towns = topology.points()
        self.kept = np.ones(len(self.places), dtype=bool)
        self._lone = _LonePlaces(self.places)
        self.range_low, self.range_high = self._cut(tile_positions)
        self.range_of = np.full(len(self.places), -1, dtype=np.int32)
        self._number_ranges()
        self.tiles = self._deal(tile_positions)
        self.cut_arcs = len(self.range_low) - int((np.diff(self.starts) > 1).sum())

    def _cut(self, tile_positions: int) -> tuple[Integers, Integers]:
        counts = np.diff(self.starts)
        arcs = np.flatnonzero(counts > 1)
        side = _side(self.places, max(1.0, len(self.places) / tile_positions))
        low = np.minimum.reduceat(self.places, self.starts[arcs]) if len(arcs) else self.places[:0]
        high = np.maximum.reduceat(self.places, self.starts[arcs]) if len(arcs) else self.places[:0]
        wide = ((high - low).max(axis=1) > side) if len(arcs) else np.zeros(0, dtype=bool)
        long = arcs[wide | (counts[arcs] > tile_positions // 2)]
        firsts, lasts = [self.starts[arcs]], [self.starts[arcs + 1] - 1]
        for arc in long:
            start = int(self.starts[arc])
            places = self.places[start : int(self.starts[arc + 1])]
            cuts = np.array(
                _spaced(places, chain_ends(places), side, tile_positions // 2), dtype=np.int64
            )
            cuts = cuts[self._lone.are_lone(places[cuts])] if len(cuts) else cuts
            firsts.append(start + cuts)
            lasts.append(start + cuts)
        return np.sort(np.concatenate(firsts)), np.sort(np.concatenate(lasts))

    def _number_ranges(self) -> None:
        counts = self.range_high - self.range_low
        at = counted_from(self.range_low, counts)
        self.range_of[at] = np.repeat(np.arange(len(counts)), counts).astype(np.int32)

    def _deal(self, tile_positions: int) -> list[Tile]:
        counts = self.range_high - self.range_low + 1
        worth = np.flatnonzero(counts > 2)
        if not len(worth):
            return []
        low, high = self._range_boxes()
        middles = low + high
        groups = _halved(worth, middles, counts, tile_positions)
        return [self._tile(group, low, high) for group in groups]

    def _range_boxes(self) -> tuple[Places, Places]:
        counts = self.range_high - self.range_low + 1
        at = counted_from(self.range_low, counts)
        firsts = starts_of(counts)[:-1]
        rows = self.places[at]
        return np.minimum.reduceat(rows, firsts), np.maximum.reduceat(rows, firsts)

    @staticmethod
    def _tile(group: Integers, low: Places, high: Places) -> Tile:
        (x0, y0), (x1, y1) = low[group].min(axis=0), high[group].max(axis=0)
        return Tile(np.sort(group), (int(x0), int(y0), int(x1), int(y1)))

    def parts_of(self, tile: Tile) -> list[Tile]:
        """Give two tiles for one whose text is too large; a range alone is cut in two.

        Gives none where nothing is left that could be thinned.
        """
        low, high = self._range_boxes()
        counts = self.range_high - self.range_low + 1
        if len(tile.ranges) > 1:
            middles = low + high
            half = _halved(tile.ranges, middles, counts, int(counts[tile.ranges].sum()) - 1)
            return [self._tile(group, low, high) for group in half]
        number = int(tile.ranges[0])
        first, last = int(self.range_low[number]), int(self.range_high[number])
        if last - first < 2:
            return []
        middle = first + self._middle(self.places[first : last + 1])
        self.range_high[number] = middle
        self.range_low = np.append(self.range_low, middle)
        self.range_high = np.append(self.range_high, last)
        self.range_of[middle:last] = len(self.range_low) - 1
        self.cut_arcs += 1
        low, high = self._range_boxes()
        return [self._tile(np.array([at]), low, high) for at in (number, len(self.range_low) - 1)]

    def _middle(self, places: Places) -> int:
        """Give the chain end nearest the middle, a lone one if there is one, else the middle."""
        middle = (len(places) - 1) // 2
        ends = np.array(chain_ends(places), dtype=np.int64)
        if not len(ends):
            return middle
        lone = ends[self._lone.are_lone(places[ends])]
        chosen = lone if len(lone) else ends
        return int(chosen[np.abs(chosen - middle).argmin()])

    def snapshot(self) -> "Snapshot":
        """Give the map as it is, with an index of its edges."""
        return Snapshot(self)

    def drop(self, at: Integers) -> None:
        """Drop positions, by their numbers in the map as it came."""
        self.kept[at] = False

    def result(self) -> tuple[Places, Integers]:
        """Give the arcs that are left."""
        return self.places[self.kept], starts_of(self.kept)[self.starts]

    def arc_of_range(self, number: int) -> int:
        """Give the arc that a range is a part of."""
        return int(np.searchsorted(self.starts, self.range_low[number], side="right")) - 1


class Snapshot:
    """A map between two rounds: only the positions that are left."""

    def __init__(self, tiling: Tiling) -> None:
        self._tiling = tiling
        self.alive = np.flatnonzero(tiling.kept)
        self.places = tiling.places[self.alive]
        arc = np.repeat(np.arange(len(tiling.starts) - 1), np.diff(tiling.starts))[self.alive]
        self._is_edge = (
            np.append(arc[1:] == arc[:-1], False) if len(arc) else np.zeros(0, dtype=bool)
        )
        heads = np.arange(0, len(self.places), _BLOCK)
        low = np.minimum.reduceat(self.places, heads)
        high = np.maximum.reduceat(self.places, heads)
        after = self.places[np.minimum(heads + _BLOCK, len(self.places) - 1)]
        self._low, self._high = np.minimum(low, after), np.maximum(high, after)

    def _edges_in(self, box: Box) -> Integers:
        """Give the edges, by their first positions, whose closed boxes meet the box."""
        low, high = np.array(box[:2]), np.array(box[2:])
        blocks = np.flatnonzero(((self._low <= high) & (self._high >= low)).all(axis=1))
        edges = (blocks[:, None] * _BLOCK + np.arange(_BLOCK)).ravel()
        edges = edges[edges < len(self.places)]
        edges = edges[self._is_edge[edges]]
        a, b = self.places[edges], self.places[edges + 1]
        meets = (np.minimum(a, b) <= high).all(axis=1) & (np.maximum(a, b) >= low).all(axis=1)
        found: Integers = edges[meets]
        return found

    def cut_out(self, tile: Tile) -> "CutOut":
        """Give the arcs of a tile: its own ranges, then the runs of other edges in its box."""
        edges = self._edges_in(tile.box)
        ranges = self._tiling.range_of[self.alive[edges]]
        own = np.isin(ranges, tile.ranges)
        label = np.where(own, ranges, -1)
        breaks = (np.diff(edges) != 1) | (label[1:] != label[:-1])
        firsts = np.insert(np.flatnonzero(breaks) + 1, 0, 0)
        lasts = np.append(firsts[1:] - 1, len(edges) - 1)
        order = np.argsort(~own[firsts], kind="stable")
        owned = int(own[firsts].sum())
        start = edges[firsts][order]
        counts = edges[lasts][order] - start + 2
        at = counted_from(start, counts)
        return CutOut(at, starts_of(counts), owned, label[firsts][order][:owned])


@dataclass
class CutOut:
    """The arcs of a tile by positions of a snapshot; ``ranges`` are the numbers of its own."""

    at: Integers
    starts: Integers
    owned: int
    ranges: Integers

    def fixed(self) -> Integers:
        """Give the second position of each context arc of three or more: a point there holds it."""
        counts = np.diff(self.starts)[self.owned :]
        found: Integers = self.at[self.starts[self.owned : -1][counts > 2] + 1]
        return found

    def own_at(self) -> Integers:
        """Give the positions of the arcs that may be thinned."""
        found: Integers = self.at[: self.starts[self.owned]]
        return found


def towns_in(towns: Places, box: Box) -> Places:
    """Give the towns in a closed box."""
    inside = (towns >= np.array(box[:2])).all(axis=1) & (towns <= np.array(box[2:])).all(axis=1)
    found: Places = towns[inside]
    return found


def rounds(tiles: list[Tile]) -> Iterator[list[Tile]]:
    """Give the tiles in rounds; the boxes of one round are apart."""
    waiting = list(tiles)
    while waiting:
        taken, left = take_round(waiting)
        yield taken
        waiting = left


def take_round(waiting: list[Tile]) -> tuple[list[Tile], list[Tile]]:
    """Give tiles whose boxes are apart, the first that can be had, and those that are left."""
    taken: list[Tile] = []
    left: list[Tile] = []
    for tile in waiting:
        apart = all(tile.is_apart(other) for other in taken)
        (taken if apart else left).append(tile)
    return taken, left


def _side(places: Places, tiles: float) -> float:
    """Give the side of a square tile where so many cover the map."""
    if not len(places):
        return 1.0
    width, height = (places.max(axis=0) - places.min(axis=0) + 1).tolist()
    return float((width * height / tiles) ** 0.5)


def _spaced(places: Places, ends: list[int], side: float, most: int) -> list[int]:
    """Choose chain ends so that, if it can be, no range is longer or wider than said."""
    chosen: list[int] = []
    first = previous = 0
    low = high = places[0]
    for end in [*ends, len(places) - 1]:
        rows = places[previous : end + 1]
        wider_low = np.minimum(low, rows.min(axis=0))
        wider_high = np.maximum(high, rows.max(axis=0))
        if previous > first and (end - first > most or (wider_high - wider_low).max() > side):
            chosen.append(previous)
            first = previous
            wider_low, wider_high = rows.min(axis=0), rows.max(axis=0)
        low, high, previous = wider_low, wider_high, end
    return chosen


class _LonePlaces:
    """Tells which places come once in the whole map; made only where it is asked."""

    def __init__(self, places: Places) -> None:
        self._places = places
        self._sorted: Integers | None = None

    def are_lone(self, places: Places) -> npt.NDArray[np.bool_]:
        if self._sorted is None:
            self._sorted = np.sort(keys_of(self._places))
        keys = keys_of(places)
        first = np.searchsorted(self._sorted, keys, side="left")
        return np.asarray(np.searchsorted(self._sorted, keys, side="right") - first == 1)


def _halved(group: Integers, middles: Places, counts: Integers, most: int) -> list[Integers]:
    """Halve groups at the median along their longer side until none has more than ``most``."""
    done, stack = [], [group]
    while stack:
        part = stack.pop()
        sizes = counts[part]
        if len(part) < 2 or sizes.sum() <= most:
            done.append(part)
            continue
        spread = middles[part].max(axis=0) - middles[part].min(axis=0)
        order = part[np.argsort(middles[part, int(spread[1] > spread[0])], kind="stable")]
        sums = np.cumsum(counts[order])
        cut = int(np.clip(np.searchsorted(sums, sums[-1] / 2), 1, len(order) - 1))
        stack += [order[cut:], order[:cut]]
    return done
