"""Makes the arcs of a coverage from its rings, for maps past the limits of the command's ``build``.

The definition is that of ``build``: rings are cut at junctions, and equal pieces are one arc. What
comes out is tested by ``confirm``, which puts the arcs together again.
"""

from dataclasses import dataclass

import numpy as np
import numpy.typing as npt
import pandas as pd

from .coverage import Snapped
from .errors import NotConfirmed
from .grid import EDGE, Places
from .topology import Integers, References, Topology, counted_from, starts_of

Flags = npt.NDArray[np.bool_]


@dataclass
class Built:
    """Arcs, and for ring r the arcs that it goes along, from ``ring_starts[r]`` on."""

    places: Places
    starts: Integers
    references: Integers
    ring_starts: Integers

    @property
    def rings(self) -> list[References]:
        """For each ring the arcs that it goes along."""
        return lists_of(self.references, self.ring_starts)


def lists_of(numbers: Integers, starts: Integers) -> list[list[int]]:
    """Give lists of numbers: list i ends before ``starts[i + 1]``."""
    flat, cuts = numbers.tolist(), starts.tolist()
    return [flat[a:b] for a, b in zip(cuts, cuts[1:], strict=False)]


def keys_of(places: Places) -> Integers:
    """Give one number for each place: equal exactly for equal places."""
    return np.asarray(((places[:, 0] + EDGE) << 31) | (places[:, 1] + EDGE), dtype=np.int64)


def numbers_of(places: Places) -> tuple[Integers, int]:
    """Give each place the number of its first occurrence among those that differ, and how many."""
    numbers, found = pd.factorize(keys_of(places))
    return np.asarray(numbers, dtype=np.int64), len(found)


def build(places: Places, starts: Integers) -> Built:
    """Cut rings (cyclic lists of two or more places, no consecutive repeats) into arcs."""
    if not len(places):
        none = np.zeros(1, dtype=np.int64)
        return Built(places, none, np.empty(0, dtype=np.int64), none)
    numbers, count = numbers_of(places)
    rings = _Rings(numbers, count, starts)
    pieces = rings.pieces(rings.junctions())
    return pieces.arcs(places, rings)


class _Rings:
    """Rings by numbers of their places."""

    def __init__(self, numbers: Integers, count: int, starts: Integers) -> None:
        self.numbers, self.count, self.starts = numbers, count, starts
        self.sizes = np.diff(starts)
        self.ring = np.repeat(np.arange(len(self.sizes)), self.sizes)
        at = np.arange(len(numbers))
        self.after, self.before = at + 1, at - 1
        self.after[starts[1:] - 1] = starts[:-1]
        self.before[starts[:-1]] = starts[1:] - 1

    def junctions(self) -> Flags:
        """Tell which positions are at a junction.

        A place is one where an occurrence has equal neighbours, where it comes twice in a ring, or
        where two occurrences have different pairs of neighbours.
        """
        after, before = self.numbers[self.after], self.numbers[self.before]
        low, high = np.minimum(after, before), np.maximum(after, before)
        mark = low == high
        for values in (low, high):
            some = np.empty(self.count, dtype=np.int64)
            some[self.numbers] = values
            mark |= some[self.numbers] != values
        found = np.zeros(self.count, dtype=bool)
        found[self.numbers[mark]] = True
        found[self._twice_in_a_ring(found)] = True
        return found[self.numbers]

    def _twice_in_a_ring(self, found: Flags) -> Integers:
        times = np.bincount(self.numbers, minlength=self.count)
        at = np.flatnonzero(((times > 1) & ~found)[self.numbers])
        pairs = np.sort(self.numbers[at] * len(self.starts) + self.ring[at])
        return np.asarray(pairs[1:][pairs[1:] == pairs[:-1]] // len(self.starts))

    def pieces(self, junction: Flags) -> "_Pieces":
        """Cut the rings at their junctions; a ring without one is one piece from its start."""
        whole = np.bincount(self.ring[junction], minlength=len(self.sizes)) == 0
        firsts = junction.copy()
        firsts[self.starts[:-1][whole]] = True
        first = np.flatnonzero(firsts)
        ring = self.ring[first]
        last = np.append(first[1:], 0)
        ends = np.flatnonzero(np.append(ring[1:] != ring[:-1], True))
        begins = np.append(0, ends[:-1] + 1)
        last[ends] = first[begins] + self.sizes[ring[ends]]
        heads, tails = self._directions(first, last, ring, whole[ring])
        return _Pieces(first, last - first + 1, ring, heads, tails)

    def _directions(
        self, first: Integers, last: Integers, ring: Integers, whole: Flags
    ) -> tuple[Integers, Integers]:
        """Give what tells a piece and its direction: its first edge, and its last one backwards.

        Of a ring without junctions they are the two edges from its least place.
        """
        end = self.starts[ring] + (last - self.starts[ring]) % self.sizes[ring]
        least = self.starts[:-1].copy()
        if whole.any():
            lows = np.minimum.reduceat(self.numbers, self.starts[:-1])
            at_low = np.flatnonzero(self.numbers == lows[self.ring])
            least[self.ring[at_low]] = at_low
        begin = np.where(whole, least[ring], first)
        end = np.where(whole, least[ring], end)
        heads = self.numbers[begin] * self.count + self.numbers[self.after[begin]]
        tails = self.numbers[end] * self.count + self.numbers[self.before[end]]
        return heads, tails


@dataclass
class _Pieces:
    """Pieces of rings: from which position, how many positions, and both their directions."""

    first: Integers
    length: Integers
    ring: Integers
    heads: Integers
    tails: Integers

    def arcs(self, places: Places, rings: _Rings) -> Built:
        """Give equal pieces one arc, in the order in which they come first."""
        kinds, _ = pd.factorize(np.minimum(self.heads, self.tails))
        fresh = np.flatnonzero(np.diff(np.maximum.accumulate(kinds), prepend=-1))
        backwards = self.heads != self.heads[fresh][kinds]
        references = np.where(backwards, -kinds - 1, kinds).astype(np.int64)
        length, ring = self.length[fresh], self.ring[fresh]
        low, size = rings.starts[ring], rings.sizes[ring]
        at = counted_from(self.first[fresh] - low, length)
        at = np.repeat(low, length) + at % np.repeat(size, length)
        ring_starts = starts_of(np.bincount(self.ring, minlength=len(rings.sizes)))
        return Built(places[at], starts_of(length), references, ring_starts)


def ring_places(topology: Topology, references: References) -> Places:
    """Give the places of a ring without its closing one, consecutive repeats as they stand."""
    pieces = [topology.arc(number)[:-1] for number in references]
    return np.concatenate(pieces) if pieces else np.empty((0, 2), dtype=np.int64)


def confirm(
    topology: Topology, references: Integers, ring_starts: Integers, wanted: Snapped
) -> None:
    """Put the rings together again and compare them with those wanted, as cyclic lists.

    Raises NotConfirmed at the first that differs.
    """
    if len(ring_starts) != len(wanted.starts):
        raise NotConfirmed(f"the topology has {len(ring_starts) - 1} rings")
    found, starts = ring_positions(topology, references, ring_starts)
    keys, goal = keys_of(topology.places)[found], keys_of(wanted.places)
    sizes = np.diff(wanted.starts)
    same = np.diff(starts) == sizes
    if same.all():
        same = _are_turned(keys, goal, wanted.starts)
    for ring in np.flatnonzero(~same).tolist():
        low, high = wanted.starts[ring : ring + 2]
        if not _is_turned(keys[starts[ring] : starts[ring + 1]], goal[low:high]):
            raise NotConfirmed(f"ring {ring} of the topology is not that of the coverage")


def ring_positions(
    topology: Topology, references: Integers, ring_starts: Integers
) -> tuple[Integers, Integers]:
    """Give the positions, by number, of rings without their closing ones, and their starts."""
    back = references < 0
    arc = np.where(back, -references - 1, references)
    first, last = topology.starts[arc], topology.starts[arc + 1] - 1
    counts = np.maximum(last - first, 0)
    starts, step = starts_of(counts), np.where(back, -1, 1)
    before = np.where(back, last, first) - step * starts[:-1]
    found = np.repeat(before, counts) + np.repeat(step, counts) * np.arange(starts[-1])
    return np.asarray(found, dtype=np.int64), starts[ring_starts]


def _are_turned(found: Integers, wanted: Integers, starts: Integers) -> Flags:
    """Tell of rings of equal sizes which are the same where each begins at its first place.

    A ring that comes by its first place again may be the same where this says no.
    """
    sizes = np.diff(starts)
    ring = np.repeat(np.arange(len(sizes)), sizes)
    hits = np.flatnonzero(wanted == found[starts[:-1]][ring])
    turn = np.full(len(sizes), -1, dtype=np.int64)
    turn[ring[hits]] = hits - starts[:-1][ring[hits]]
    at = np.arange(len(ring)) + turn[ring]
    at -= np.where(at >= starts[1:][ring], sizes[ring], 0)
    differs = np.bincount(ring[found != wanted[at]], minlength=len(sizes)) > 0
    return np.asarray((turn >= 0) & ~differs)


def _is_turned(found: Integers, wanted: Integers) -> bool:
    if len(found) != len(wanted):
        return False
    for at in np.flatnonzero(wanted == found[0]).tolist():
        rest = len(wanted) - at
        if (found[:rest] == wanted[at:]).all() and (found[rest:] == wanted[:at]).all():
            return True
    return False
