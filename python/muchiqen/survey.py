"""Faults of a coverage, told from its topology and by shapely: overlaps, gaps, invalid rings."""

from typing import Any

import geopandas as gpd
import numpy as np

from .build import lists_of
from .gaps import narrow_gaps, outer_arcs
from .grid import Coordinates, Places
from .shapes import Flags, are_valid
from .sides import Sides, held, rows_named
from .topology import Integers, Topology, starts_of


def area_twice(places: Places) -> int:
    """Give twice the area of a ring (no closing position), above 0 where it turns left.

    The sums may pass the ends of int64 on the way; the value does not, so it is exact.
    """
    if len(places) < 3:
        return 0
    rows = places - places[0]
    after = np.roll(rows, -1, axis=0)
    return int((rows[:, 0] * after[:, 1] - rows[:, 1] * after[:, 0]).sum())


def claimed_twice(topology: Topology) -> list[tuple[int, int]]:
    """Give the pairs of polygons (by number) that lie on the same side of an arc: they overlap."""
    return _claimed_twice(Sides(topology))


def _claimed_twice(sides: Sides) -> list[tuple[int, int]]:
    order = np.argsort(sides.claims, kind="stable")
    claims, polygons = sides.claims[order], sides.polygon[order]
    if not len(claims):
        return []
    firsts = np.flatnonzero(np.insert(claims[1:] != claims[:-1], 0, True))
    low, high = np.minimum.reduceat(polygons, firsts), np.maximum.reduceat(polygons, firsts)
    differ = low != high
    return sorted(set(zip(low[differ].tolist(), high[differ].tolist(), strict=True)))


def overlapping(
    topology: Topology, *, arranged: bool = False, sides: Sides | None = None
) -> list[tuple[int, int]]:
    """Give the pairs of polygons (by number) that overlap, as their borders tell.

    Two overlap where they lie on the same side of an arc, or where an arc of one that is none of
    the other lies inside the other. Borders that cross are told as held arcs, not here. Where it is
    known that the map is ``arranged`` (arcs have only ends of both in common) the same is found
    sooner.
    """
    sides = sides or Sides(topology.without_repeats())
    return sorted({*_claimed_twice(sides), *_inside_others(sides, arranged)})


def _inside_others(sides: Sides, arranged: bool) -> set[tuple[int, int]]:
    named = sides.topology.named
    arcs = sides.named_arcs
    if not arranged:
        return _pairs_inside(sides, arcs, np.ones(named.count, dtype=bool))
    whole = sides.plain_polygons
    pairs = _pairs_inside(sides, sides.crowded, np.ones(named.count, dtype=bool))
    if not whole.all():
        pairs |= _pairs_inside(sides, arcs, ~whole)
    return pairs


def _pairs_inside(sides: Sides, arcs: Integers, polygons: Flags) -> set[tuple[int, int]]:
    """Give the pairs of a polygon of an arc and another, of those given, that holds the arc."""
    if not len(arcs) or not polygons.any():
        return set()
    named, row_starts = rows_named(sides.topology)
    counts = np.where(polygons, np.diff(row_starts), 0)
    rows = named[np.repeat(polygons, np.diff(row_starts))], starts_of(counts)
    doubled = sides.topology.places * 2
    at, other = held(doubled, sides.topology.starts, rows, sides.middles(arcs))
    touched, which = np.unique(at, return_inverse=True)
    owners = sides.polygons_of(arcs[touched])
    return {
        (min(own, one), max(own, one))
        for arc, one in zip(which.tolist(), other.tolist(), strict=True)
        if one not in owners[arc]
        for own in owners[arc]
    }


def holders(
    coordinates: Coordinates | Places,
    starts: Integers,
    rows: list[list[int]],
    points: Coordinates | Places,
) -> list[list[int]]:
    """Give for each point the numbers of the rows that hold it, rising.

    A row holds a point from which the edges of its lines, each as often as it is named, are crossed
    an odd number of times: the rule of the command's ``faces``.
    """
    row_starts = starts_of([len(named) for named in rows])
    named = np.array([line for one in rows for line in one], dtype=np.int64)
    found: list[list[int]] = [[] for _ in range(len(points))]
    at, row = held(coordinates, starts, (named, row_starts), points)
    for point, number in zip(at.tolist(), row.tolist(), strict=True):
        found[point].append(number)
    return found


def arcs_of_polygons(topology: Topology) -> list[list[int]]:
    """Give for each polygon the arcs that its rings name, as often as they name them."""
    return lists_of(*rows_named(topology))


def invalid_rows(frame: gpd.GeoDataFrame) -> list[Any]:
    """Give the labels of the rows that shapely finds invalid."""
    valid = are_valid(np.asarray(frame.geometry.array.data, dtype=object))
    return list(frame.index[~valid]) if not valid.all() else []


__all__ = [
    "area_twice",
    "arcs_of_polygons",
    "claimed_twice",
    "holders",
    "invalid_rows",
    "narrow_gaps",
    "outer_arcs",
    "overlapping",
]
