"""What is done by arrays beside what is done one by one: answers of ``build``, lists, cells."""

import json
from typing import Any

import numpy as np
import pytest

from muchiqen import answer
from muchiqen.shapes import Layout
from muchiqen.sides import Cells
from muchiqen.topology import (
    LongList,
    Named,
    PositionList,
    Topology,
    alike,
    counted_from,
    starts_of,
)

ARCS = [[[0, 0], [5, 0], [5, -5]], [[5, -5], [0, 0]], [[1, -1], [2, -1], [2, -2], [1, -1]]]
SHAPES = [[[[0, 1], [-3]]], None, [[[2]], [[-2, -1], [2]]]]
LAYOUT = Layout(np.array([0, 1, 1, 3]), np.array([0, 2, 3, 5]), np.array([False, False, True]))


def answered(**more: Any) -> bytes:
    """Give what ``build`` answers for rows of these parts, with other members behind."""
    rows = [
        {"type": None} if parts is None
        else {"type": "MultiPolygon", "arcs": parts} if len(parts) > 1
        else {"type": "Polygon", "arcs": parts[0]}
        for parts in SHAPES
    ]
    features = {"type": "GeometryCollection", "geometries": rows}
    whole = {"type": "Topology", "objects": {"features": features}, "arcs": ARCS, **more}
    return json.dumps(whole, separators=(",", ":")).encode()


def assert_same(one: answer.Made, other: answer.Made) -> None:
    """Compare arcs, what is named, and rows."""
    assert np.array_equal(one[0].places, other[0].places)
    assert np.array_equal(one[0].starts, other[0].starts)
    for name in ("references", "starts", "rings", "parts"):
        assert np.array_equal(getattr(one[1], name), getattr(other[1], name))
    assert one[2] == other[2]


def test_an_answer_is_read_by_arrays_as_by_json() -> None:
    laid = answer._read_as_laid(answered(), LAYOUT)
    assert laid is not None and isinstance(laid[2], LongList)
    assert_same(laid, answer._read_as_json(answered()))
    assert laid[1].references.tolist() == [0, 1, -3, 2, -2, -1, 2]


def test_any_other_answer_is_read_by_json() -> None:
    other = Layout(LAYOUT.parts, np.array([0, 1, 3, 5]), LAYOUT.multi)
    texts = [answered().replace(b",", b", "), answered(bbox=[0, 0, 1, 1])]
    texts += [answered().replace(b"-3", b"-3.0"), answered()[:-1] + b" }"]
    for text in texts:
        assert answer._read_as_laid(text, LAYOUT) is None
        assert_same(answer.read_answer(text, LAYOUT), answer._read_as_json(answered()))
    assert answer._read_as_laid(answered(), other) is None


def test_some_polygons_name_what_they_name_among_all() -> None:
    shapes = [parts for parts in SHAPES if parts is not None]
    for some in ([], [0], [1], [1, 0], [0, 1, 1]):
        one = Named.of(shapes).some(np.array(some, dtype=np.int64))
        other = Named.of([shapes[at] for at in some])
        for name in ("references", "starts", "rings", "parts"):
            assert getattr(one, name).tolist() == getattr(other, name).tolist()


def test_long_lists_are_what_their_texts_say() -> None:
    rows = [[0, 1], [2, -3]]
    known, long = PositionList(np.array(rows)), LongList(b"[[0,1],[2,-3]]")
    assert known == rows == long == known and long != rows[:1] and len(known) == 2
    assert list(reversed(known)) == rows[::-1] and known[1] == [2, -3]
    objects = {"towns": {"type": "MultiPoint", "coordinates": known}, "deep": {"a": [known]}}
    members = {"type": "Topology", "objects": objects}
    text = Topology(np.empty((0, 2), dtype=np.int64), np.zeros(1, dtype=np.int64), members).text()
    assert json.loads(text)["objects"] == {
        "towns": {"type": "MultiPoint", "coordinates": rows},
        "deep": {"a": [rows]},
    }


@pytest.mark.parametrize("kind", [np.int64, np.float64])
@pytest.mark.parametrize("count", [0, 1, 2, 300])
def test_cells_give_the_points_in_boxes(count: int, kind: Any) -> None:
    numbers = np.random.default_rng(count)
    points = numbers.integers(-40, 41, (count, 2)).astype(kind)
    low = numbers.integers(-60, 60, (200, 2)).astype(kind)
    high = low + numbers.integers(-5, 30, (200, 2)).astype(kind)
    low[0], high[0] = points.min(initial=0), points.max(initial=0)
    most = np.inf if kind is np.float64 else np.iinfo(np.int64).max
    low[1], high[2] = most, most
    found = [np.empty((0, 2), dtype=np.int64)]
    for pair in Cells(points).in_boxes((low[:, 0], high[:, 0]), (low[:, 1], high[:, 1])):
        found.append(np.column_stack(pair))
    inside = (low[:, None] <= points).all(axis=2) & (points <= high[:, None]).all(axis=2)
    assert sorted(np.concatenate(found).tolist()) == np.argwhere(inside).tolist()


def test_numbers_are_counted_from_each_first() -> None:
    assert counted_from(np.array([5, 0, 9]), np.array([2, 0, 3])).tolist() == [5, 6, 9, 10, 11]
    assert counted_from(np.array([1]), np.array([0])).tolist() == []
    assert starts_of([]).tolist() == [0]


@pytest.mark.parametrize("count", [0, 1, 7, 5000])
def test_equal_keys_are_found_alike(count: int) -> None:
    numbers = np.random.default_rng(count)
    few = numbers.integers(-(2**62), 2**62, 1 + count // 3)
    keys = few[numbers.integers(0, len(few), count)]
    found = alike(keys)
    assert np.array_equal(keys[found], keys)
    assert len(np.unique(found)) == len(np.unique(keys))
