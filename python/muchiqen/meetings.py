"""Why an arc is held: where it meets another arc or a town, in exact whole numbers."""

from collections.abc import Iterator
from dataclasses import dataclass

import numpy as np
import numpy.typing as npt

from .grid import Places
from .topology import Integers, Topology

Flags = npt.NDArray[np.bool_]


@dataclass(frozen=True)
class Held:
    """An arc that was left as it is, and the first meeting that was found on it.

    ``kind`` is ``crosses``, ``touches``, ``runs along`` or ``has a town on it``; ``other`` is the
    other arc or the town, by number; ``edges`` are the two edges, or the edge and nothing;
    ``place`` is a place on the grid near the meeting. ``by_snapping`` is True where the edges did
    not meet before they were put on the grid, None where that is not known.
    """

    arc: int
    kind: str
    other: int
    edges: tuple[int, int]
    place: tuple[int, int]
    by_snapping: bool | None = None

    def __str__(self) -> str:
        name = "town" if self.kind == "has a town on it" else "arc"
        verb = "has on it" if name == "town" else self.kind
        cause = " (only once on the grid)" if self.by_snapping else ""
        return f"arc {self.arc} {verb} {name} {self.other} near {self.place}{cause}"


@dataclass(frozen=True)
class Edges:
    """All edges of a topology without repeats: their ends, arcs, numbers, and ends of arcs."""

    start: Places
    end: Places
    arc: Integers
    number: Integers
    start_is_end: Flags
    end_is_end: Flags

    @classmethod
    def of(cls, topology: Topology) -> "Edges":
        """Take the edges out of a topology without repeats."""
        starts, count = topology.starts, len(topology.places)
        arc = np.repeat(np.arange(topology.arc_count), np.diff(starts))
        number = np.arange(count) - np.repeat(starts[:-1], np.diff(starts))
        first = np.zeros(count, dtype=bool)
        first[starts[:-1][np.diff(starts) > 0]] = True
        last = np.zeros(count, dtype=bool)
        last[starts[1:][np.diff(starts) > 0] - 1] = True
        at = np.flatnonzero(~last)
        places = topology.places
        return cls(places[at], places[at + 1], arc[at], number[at], first[at], last[at + 1])

    def __getitem__(self, at: Integers | Flags) -> "Edges":
        return Edges(
            self.start[at],
            self.end[at],
            self.arc[at],
            self.number[at],
            self.start_is_end[at],
            self.end_is_end[at],
        )

    def near(self, low: Places, high: Places) -> Integers:
        """Give the edges whose closed boxes meet the box."""
        below = (np.minimum(self.start, self.end) <= high).all(axis=1)
        above = (np.maximum(self.start, self.end) >= low).all(axis=1)
        return np.flatnonzero(below & above)


def why_held(topology: Topology, held: list[int]) -> list[Held]:
    """Give for each held arc its first meeting, with another arc if there is one."""
    plain = topology.without_repeats()
    edges = Edges.of(plain)
    towns = plain.points()
    found = (_first_meeting(edges, towns, arc) for arc in held)
    return [meeting for meeting in found if meeting is not None]


def _first_meeting(edges: Edges, towns: Places, arc: int) -> Held | None:
    own = np.flatnonzero(edges.arc == arc)
    if not len(own):
        return None
    low = np.minimum(edges.start[own], edges.end[own]).min(axis=0)
    high = np.maximum(edges.start[own], edges.end[own]).max(axis=0)
    close = edges[edges.near(low, high)]
    for at in own:
        edge = edges[np.array([at])]
        meeting = _meeting_of_edge(edge, close)
        if meeting is not None:
            return meeting
    return next(_towns_on(edges[own], towns, arc), None)


def _meeting_of_edge(edge: Edges, others: Edges) -> Held | None:
    low = np.minimum(edge.start, edge.end)[0]
    high = np.maximum(edge.start, edge.end)[0]
    near = others[others.near(low, high)]
    near = near[~((near.arc == edge.arc[0]) & (near.number == edge.number[0]))]
    kinds = clashes(edge, near)
    hits = np.flatnonzero(kinds > 0)
    if not len(hits):
        return None
    hit = hits[0]
    place = ((edge.start[0] + edge.end[0]) // 2).tolist()
    kind = ("", "crosses", "touches", "runs along")[kinds[hit]]
    numbers = int(edge.number[0]), int(near.number[hit])
    return Held(int(edge.arc[0]), kind, int(near.arc[hit]), numbers, (place[0], place[1]))


def _towns_on(edges: Edges, towns: Places, arc: int) -> Iterator[Held]:
    for at in range(len(edges.arc)):
        start, end = edges.start[at], edges.end[at]
        low, high = np.minimum(start, end), np.maximum(start, end)
        inside = ((towns >= low) & (towns <= high)).all(axis=1)
        for town in np.flatnonzero(inside & (_areas(start, end, towns) == 0)):
            place = towns[town].tolist()
            number = int(edges.number[at])
            yield Held(arc, "has a town on it", int(town), (number, -1), (place[0], place[1]))


def _areas(a: Places, b: Places, c: Places) -> Integers:
    across, up = b - a, c - a
    area = across[..., 0] * up[..., 1] - across[..., 1] * up[..., 0]
    return np.asarray(area, dtype=np.int64)


def clashes(edge: Edges, others: Edges) -> Integers:
    """Give for one edge and each other 0 for no clash, 1 crosses, 2 touches, 3 runs along.

    A common point clashes unless it ends both edges and either joins neighbours of one arc or
    ends both arcs.
    """
    a, b, c, d = edge.start, edge.end, others.start, others.end
    left, right = np.sign(_areas(a, b, c)), np.sign(_areas(a, b, d))
    over, under = np.sign(_areas(c, d, a)), np.sign(_areas(c, d, b))
    kinds = np.where((left * right < 0) & (over * under < 0), 1, 0)
    along = (left == 0) & (right == 0)
    for p, sign in ((c, left), (d, right)):
        inside = _strictly_between(a, b, p) & (sign == 0)
        kinds = np.where(inside, np.where(along, 3, 2), kinds)
    for p, sign in ((a, over), (b, under)):
        inside = _strictly_between(c, d, p) & (sign == 0)
        kinds = np.where(inside, np.where(along, 3, 2), kinds)
    same = (_equal(a, c) & _equal(b, d)) | (_equal(a, d) & _equal(b, c))
    kinds = np.where(same, 3, kinds)
    return np.where((kinds == 0) & _unlawful_junction(edge, others), 2, kinds)


def _equal(p: Places, q: Places) -> Flags:
    return np.asarray((p == q).all(axis=-1))


def _strictly_between(a: Places, b: Places, p: Places) -> Flags:
    low, high = np.minimum(a, b), np.maximum(a, b)
    inside = ((p >= low) & (p <= high)).all(axis=-1)
    return np.asarray(inside & ~_equal(p, a) & ~_equal(p, b))


def _unlawful_junction(edge: Edges, others: Edges) -> Flags:
    unlawful = np.zeros(len(others.arc), dtype=bool)
    same_arc = others.arc == edge.arc
    for p, p_ends, before in ((edge.start, edge.start_is_end, -1), (edge.end, edge.end_is_end, 1)):
        for q, q_ends, after in (
            (others.start, others.start_is_end, 1),
            (others.end, others.end_is_end, -1),
        ):
            step = others.number - edge.number
            neighbours = same_arc & (step == before) & (after == before)
            unlawful |= _equal(p, q) & ~(p_ends & q_ends) & ~neighbours
    return unlawful
