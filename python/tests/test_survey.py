"""Meetings and faults by exact numbers, beside the command and shapely."""

import numpy as np
from shapely.geometry import Point, Polygon

from muchiqen import survey
from muchiqen.command import Command
from muchiqen.frames import frame_of
from muchiqen.meetings import Held, why_held
from muchiqen.topology import Topology, read, starts_of


def topology_of(
    *arcs: list[tuple[int, int]], points: list[tuple[int, int]] | None = None
) -> Topology:
    """Give a topology of arcs and points."""
    places = np.array([place for arc in arcs for place in arc], dtype=np.int64)
    objects = {"t": {"type": "MultiPoint", "coordinates": [list(p) for p in points or []]}}
    members = {"type": "Topology", "objects": objects}
    return Topology(places, starts_of([len(arc) for arc in arcs]), members)


def kinds(*arcs: list[tuple[int, int]]) -> list[tuple[str, int]]:
    """Give the kind and the other arc of the first meeting of each arc that has one."""
    return [
        (held.kind, held.other) for held in why_held(topology_of(*arcs), list(range(len(arcs))))
    ]


def test_arcs_that_cross() -> None:
    assert kinds([(0, 0), (4, 4)], [(0, 4), (4, 0)]) == [("crosses", 1), ("crosses", 0)]


def test_an_end_on_an_edge_touches() -> None:
    assert kinds([(0, 0), (4, 0)], [(2, 0), (2, 5)]) == [("touches", 1), ("touches", 0)]


def test_shared_ends_are_lawful() -> None:
    assert kinds([(0, 0), (4, 0)], [(4, 0), (4, 5)], [(4, 5), (0, 0)]) == []


def test_an_end_at_an_inner_position_touches() -> None:
    assert kinds([(0, 0), (4, 0), (8, 1)], [(4, 0), (4, 5)]) == [("touches", 1), ("touches", 0)]


def test_edges_on_one_line_run_along() -> None:
    assert kinds([(0, 0), (4, 0)], [(2, 0), (9, 0)]) == [("runs along", 1), ("runs along", 0)]
    assert kinds([(0, 0), (4, 0)], [(4, 0), (0, 0)]) == [("runs along", 1), ("runs along", 0)]


def test_an_arc_that_turns_back_runs_along_itself() -> None:
    assert kinds([(0, 0), (4, 0), (2, 0)]) == [("runs along", 0)]


def test_an_arc_that_closes_is_lawful_and_one_that_meets_itself_is_not() -> None:
    assert kinds([(0, 0), (4, 0), (2, 3), (0, 0)]) == []
    assert kinds([(0, 0), (4, 0), (2, 3), (0, 0), (-1, 5)]) == [("touches", 0)]


def test_a_town_on_an_arc() -> None:
    found = why_held(topology_of([(0, 0), (9, 3)], points=[(1, 1), (3, 1)]), [0])
    assert found == [Held(0, "has a town on it", 1, (0, -1), (3, 1))]
    assert str(found[0]) == "arc 0 has on it town 1 near (3, 1)"


def test_held_arcs_are_those_of_the_command(command: Command) -> None:
    """Random short arcs: the arcs that have a meeting are those that the certificate holds."""
    import json

    numbers = np.random.default_rng(11)
    for _ in range(20):
        arcs = [
            [
                (int(x), int(y))
                for x, y in numbers.integers(0, 12, size=(int(numbers.integers(2, 5)), 2))
            ]
            for _ in range(8)
        ]
        towns = [(int(x), int(y)) for x, y in numbers.integers(0, 12, size=(4, 2))]
        topology = topology_of(*arcs, points=towns)
        held = json.loads(command.layers(topology.text(), 1, hold=True))["held"]
        found = [held.arc for held in why_held(topology, list(range(8)))]
        assert found == held


def test_areas_are_exact_at_the_corners_of_the_grid() -> None:
    edge = 2**29
    square = np.array([[-edge, -edge], [edge, -edge], [edge, edge], [-edge, edge]])
    assert survey.area_twice(square) == 2 * 2**60
    assert survey.area_twice(square[::-1]) == -2 * 2**60


def test_holders_are_those_of_faces_and_shapely(command: Command) -> None:
    text = command.make(7, 5, 3)
    topology = read(text)
    rows = survey.arcs_of_polygons(topology)
    towns = topology.points()
    found = survey.holders(topology.places, topology.starts, rows, towns)
    assert found == command.faces(text)
    cells = list(frame_of(topology, "cells").geometry)
    by_shapely = [
        [number for number, cell in enumerate(cells) if cell.contains(Point(town))]
        for town in towns
    ]
    assert found == by_shapely


def test_a_hole_is_outside() -> None:
    ring = [(0, 0), (9, 0), (9, 9), (0, 9), (0, 0)]
    hole = [(3, 3), (3, 6), (6, 6), (6, 3), (3, 3)]
    topology = topology_of(ring, hole)
    points = np.array([[1, 1], [4, 4], [20, 1]])
    assert survey.holders(topology.places, topology.starts, [[0, 1]], points) == [[0], [], []]


def test_narrow_gaps_are_found_and_wide_holes_are_not() -> None:
    outer = [(0, 0), (90, 0), (90, 90), (0, 90), (0, 0)]
    slit = [(10, 10), (80, 10), (80, 11), (10, 11), (10, 10)]
    lake = [(20, 30), (60, 30), (60, 70), (20, 70), (20, 30)]
    topology = topology_of(outer, slit, lake)
    topology.members["objects"] = {"a": {"type": "Polygon", "arcs": [[0], [1], [2]]}}
    (gap,) = survey.narrow_gaps(topology, 5)
    assert gap.equals(Polygon(slit))
