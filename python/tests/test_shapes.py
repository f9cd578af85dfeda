"""Geometries by WKB, lists of numbers as JSON, checks of arranged maps beside the plain ones."""

import json

import numpy as np
import pytest
from shapely.geometry import MultiPolygon, Polygon

from muchiqen import build, survey
from muchiqen.shapes import are_valid, put_together, take_apart
from muchiqen.topology import Topology, lists_text, positions_text, starts_of

HOLED = Polygon([(0, 0), (9, 0), (9, 9), (0, 9)], [[(3, 3), (3, 6), (6, 6)]])
BOW = Polygon([(0, 0), (1, 1), (1, 0), (0, 1)])


def test_polygons_come_apart_and_together_again() -> None:
    there = [HOLED, MultiPolygon([HOLED, BOW]), BOW]
    parted = take_apart([there[0], None, there[1], Polygon(), there[2]])
    assert np.diff(parted.layout.parts).tolist() == [1, 0, 2, 0, 1]
    assert np.diff(parted.layout.rings).tolist() == [2, 2, 1, 1]
    made = put_together(parted.coordinates, parted.starts, parted.layout)
    assert all(a.equals_exact(b, 0) for a, b in zip(made[[0, 2, 4]], there, strict=True))
    assert [shape.is_empty for shape in made] == [False, True, False, True, False]
    assert are_valid(made).tolist() == [True, True, False, True, False]


def test_heights_are_dropped_and_told() -> None:
    high = Polygon([(0, 0, 5), (4, 0, 5), (4, 3, 5)])
    parted = take_apart([high, HOLED])
    assert parted.has_height.tolist() == [True, False]
    assert parted.coordinates[:4].tolist() == [[0, 0], [4, 0], [4, 3], [0, 0]]


@pytest.mark.parametrize("most", [0, 1, 9_999, 10_000, 10**8, 2**30])
def test_numbers_are_spelled_as_json_has_them(most: int) -> None:
    rows = np.random.default_rng(most).integers(-most, most + 1, (200, 2))
    starts = np.array([0, 1, 4, 4, 150, 200, 200])
    lists = [rows[a:b].tolist() for a, b in zip(starts, starts[1:], strict=False)]
    assert json.loads(lists_text(rows, starts)) == lists
    assert lists_text(rows, starts_of([3, 197])).decode() == json.dumps(
        [rows[:3].tolist(), rows[3:].tolist()], separators=(",", ":")
    )
    assert positions_text(rows).decode() == json.dumps(rows.tolist(), separators=(",", ":"))


def rectangle(numbers: np.random.Generator) -> list[tuple[int, int]]:
    """Give a ring with a position at each whole number, so that rings meet only in positions."""
    (x0, x1), (y0, y1) = (sorted(numbers.choice(8, 2, replace=False).tolist()) for _ in "xy")
    ring = [(x, y0) for x in range(x0, x1)] + [(x1, y) for y in range(y0, y1)]
    ring += [(x, y1) for x in range(x1, x0, -1)] + [(x0, y) for y in range(y1, y0, -1)]
    return ring if numbers.random() < 0.7 else ring[::-1]


def random_map(numbers: np.random.Generator) -> Topology:
    """Give an arranged map of polygons that overlap, with holes that may lie anywhere."""
    layout = [[int(numbers.choice([1, 1, 2])) for _ in range(numbers.integers(1, 3))]
              for _ in range(numbers.integers(1, 6))]
    rings = [rectangle(numbers) for parts in layout for count in parts for _ in range(count)]
    places = np.array([place for ring in rings for place in ring], dtype=np.int64)
    made = build.build(places, starts_of([len(ring) for ring in rings]))
    left = iter(made.rings)
    shapes = [
        {"type": "MultiPolygon", "arcs": [[next(left) for _ in range(count)] for count in parts]}
        for parts in layout
    ]
    objects = {"rows": {"type": "GeometryCollection", "geometries": shapes}}
    return Topology(made.places, made.starts, {"type": "Topology", "objects": objects})


def test_what_is_known_to_be_arranged_is_told_alike() -> None:
    numbers = np.random.default_rng(5)
    for _ in range(60):
        made = random_map(numbers)
        assert survey.overlapping(made, arranged=True) == survey.overlapping(made)
        for width in (0.6, 1.3, 4.0):
            found = survey.narrow_gaps(made, width, arranged=True)
            wanted = survey.narrow_gaps(made, width)
            assert sorted(gap.bounds for gap in found) == sorted(gap.bounds for gap in wanted)
