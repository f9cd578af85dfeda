"""Grid, texts of topologies, and the way from rings to arcs."""

import numpy as np
import pytest

from muchiqen import build, errors, grid, topology
from muchiqen.topology import starts_of


def test_a_grid_goes_there_and_back() -> None:
    plain = grid.Grid((0.01, 0.01))
    places = plain.snap(np.array([[1.234, -0.006], [0.0049, 7.0]]))
    assert places.tolist() == [[123, -1], [0, 700]]
    assert plain.unsnap(places).tolist() == [[1.23, -0.01], [0.0, 7.0]]
    moves = plain.moves(np.array([[1.234, 7.0]]), np.array([[123, 700]]))
    assert moves == pytest.approx(np.array([[0.004, 0.0]]))
    assert moves[0, 1] == 0.0


def test_a_grid_is_chosen_from_extent_and_tolerance() -> None:
    corners = np.array([[0.0, 0.0], [20.0, 50.0]])
    assert grid.choose(corners, 1.0) == grid.Grid((0.01, 0.01))
    assert grid.choose(corners, 0.99) == grid.Grid((0.001, 0.001))
    # However wide the tolerance, the map has a thousand steps.
    assert grid.choose(corners, 1e9) == grid.Grid((0.01, 0.01))
    # No tolerance: the finest power of ten on which 50 fits: 50 / 1e-7 = 5e8, below 2^29.
    assert grid.choose(corners, 0).scale == (1e-7, 1e-7)
    # Weights up to 10 leave a tenth of that.
    assert grid.choose(corners, 0, 10).scale == (1e-6, 1e-6)
    far = grid.choose(np.array([[1e9, 1e9], [1e9 + 50, 1e9 + 50]]), 0)
    assert far == grid.Grid((1e-7, 1e-7), (1e9 + 25, 1e9 + 25))
    assert far.snap(np.array([[1e9, 1e9 + 50]])).tolist() == [[-250_000_000, 250_000_000]]


@pytest.mark.parametrize("step", [0.0, -1.0, float("nan"), float("inf")])
def test_steps_are_above_zero(step: float) -> None:
    with pytest.raises(errors.BadGrid):
        grid.Grid((1.0, step))


def test_a_map_past_the_grid_is_refused() -> None:
    grid.Grid().snap(np.array([[2.0**29, -(2.0**29)]]))
    with pytest.raises(errors.BadGrid):
        grid.Grid().snap(np.array([[2.0**29 + 1, 0.0]]))


@pytest.mark.parametrize("tolerance", [-1, float("nan"), float("inf"), "1", None, True])
def test_tolerances_are_numbers_from_zero(tolerance: object) -> None:
    with pytest.raises(errors.BadTolerance):
        grid.checked_tolerance(tolerance)


CODED = (
    '{"type":"Topology","transform":{"scale":[0.5,0.25],"translate":[10,20]},'
    '"objects":{"é":{"type":"Polygon","arcs":[[0]]},"t":{"type":"Point","coordinates":[1,2]}},'
    '"arcs":[[[4,0],[1,2],[-2,2],[1,-4]],[[0,0],[0,0]]],"bbox":[0,0,1,1]}'
).encode()


def test_a_coded_text_reads_and_writes_back() -> None:
    read = topology.read(CODED)
    assert read.places.tolist() == [[4, 0], [5, 2], [3, 4], [4, 0], [0, 0], [0, 0]]
    assert read.starts.tolist() == [0, 4, 6]
    assert read.grid == grid.Grid((0.5, 0.25), (10.0, 20.0))
    assert read.points().tolist() == [[1, 2]]
    assert read.arc(-1).tolist() == [[4, 0], [3, 4], [5, 2], [4, 0]]
    assert read.text() == CODED
    # An arc of one position is written with it twice, so the text stays.
    assert read.without_repeats().starts.tolist() == [0, 4, 5]
    assert read.without_repeats().text() == CODED


def test_white_space_and_any_order_of_members() -> None:
    text = (
        b'\xef\xbb\xbf {"arcs" : [ [ [1, 2] , [3,-4] ] ,\n[] ], "objects":{}, "type":"Topology" } '
    )
    read = topology.read(text)
    assert read.places.tolist() == [[1, 2], [3, -4]]
    assert read.starts.tolist() == [0, 2, 2]
    assert read.text() == b'{"arcs":[[[1,2],[3,-4]],[]],"objects":{},"type":"Topology"}'


@pytest.mark.parametrize(
    ("text", "error"),
    [
        (b"", errors.NotJson),
        (b"\xff", errors.NotUtf8),
        (b'{"type":"Topology","objects":{},"arcs":[[[0,0],', errors.NotATopology),
        (b'{"type":"Topology","objects":{},"arcs":[[[0,0],[1,0.5]]]}', errors.NotATopology),
        (b'{"type":"Topology","objects":{},"arcs":[[[0,0],[1]]]}', errors.NotATopology),
        (b'{"type":"Topology","objects":{}}', errors.NotATopology),
        (b'{"type":"Other","objects":{},"arcs":[]}', errors.NotATopology),
        (b"[]", errors.NotATopology),
    ],
)
def test_other_texts_are_refused(text: bytes, error: type[Exception]) -> None:
    with pytest.raises((error, errors.NotJson)):
        topology.read(text)


def built(*rings: list[tuple[int, int]]) -> tuple[list[list[list[int]]], list[list[int]]]:
    """Give the arcs and the rings of closed rings."""
    places = np.array([p for ring in rings for p in ring[:-1]], dtype=np.int64)
    made = build.build(places, starts_of([len(ring) - 1 for ring in rings]))
    cuts = made.starts.tolist()
    return [made.places[a:b].tolist() for a, b in zip(cuts, cuts[1:], strict=False)], made.rings


def test_two_squares_share_one_arc() -> None:
    arcs, rings = built(
        [(0, 0), (2, 0), (2, 2), (0, 2), (0, 0)], [(2, 0), (4, 0), (4, 2), (2, 2), (2, 0)]
    )
    assert arcs == [
        [[2, 0], [2, 2]],
        [[2, 2], [0, 2], [0, 0], [2, 0]],
        [[2, 0], [4, 0], [4, 2], [2, 2]],
    ]
    assert rings == [[0, 1], [2, -1]]


def test_a_triangle_alone_is_one_closed_arc() -> None:
    assert built([(0, 0), (4, 0), (2, 3), (0, 0)]) == ([[[0, 0], [4, 0], [2, 3], [0, 0]]], [[0]])


def test_a_triangle_walked_twice_is_three_arcs() -> None:
    ring = [(0, 0), (4, 0), (2, 3), (0, 0), (4, 0), (2, 3), (0, 0)]
    arcs, rings = built(ring)
    assert arcs == [[[0, 0], [4, 0]], [[4, 0], [2, 3]], [[2, 3], [0, 0]]]
    assert rings == [[0, 1, 2, 0, 1, 2]]


def test_a_hole_and_the_island_in_it_are_one_arc() -> None:
    outer = [(0, 0), (9, 0), (9, 9), (0, 9), (0, 0)]
    hole = [(3, 3), (3, 6), (6, 6), (6, 3), (3, 3)]
    island = [(6, 6), (3, 6), (3, 3), (6, 3), (6, 6)]
    arcs, rings = built(outer, hole, island)
    assert len(arcs) == 2
    assert rings == [[0], [1], [-2]]
