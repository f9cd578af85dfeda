"""Maps of any size: tiles, rounds, and workers that die."""

from collections.abc import Callable
from pathlib import Path

import geopandas as gpd
import numpy as np
import pytest
from shapely.geometry import LineString
from shapely.strtree import STRtree

import muchiqen
from muchiqen import errors, large, tiles
from muchiqen.command import Command
from muchiqen.frames import frame_of
from muchiqen.topology import Topology, read, starts_of
from muchiqen.workers import kept_positions


def topology_of(*arcs: list[tuple[int, int]]) -> Topology:
    """Give a topology of arcs alone."""
    places = np.array([place for arc in arcs for place in arc], dtype=np.int64)
    return Topology(places, starts_of([len(arc) for arc in arcs]))


def test_chains_end_where_no_order_goes_on() -> None:
    ring = np.array([(4, 8), (0, 8), (0, 0), (4, 0)])
    # Falling by y as far as (0, 0), which is further than by x; then one edge.
    assert tiles.chain_ends(ring) == [2]
    straight = np.array([(x, 0) for x in range(2100)])
    assert tiles.chain_ends(straight) == [1023, 2046]
    assert tiles.chain_ends(np.array([(0, 0), (1, 1)])) == []


def spiral(turns: int) -> list[tuple[int, int]]:
    """Give a spiral, four places a turn: no run of three edges keeps an order."""
    ways = [(1, 0), (0, 1), (-1, 0), (0, -1)]
    return [
        (10 * (k + 1) * ways[k % 4][0], 10 * (k + 1) * ways[k % 4][1]) for k in range(4 * turns)
    ]


def test_a_long_arc_is_cut_at_chain_ends_alone() -> None:
    arc = spiral(10)
    tiling = tiles.Tiling(topology_of(arc), 8)
    ends = [0, *tiles.chain_ends(np.array(arc)), 39]
    # Chains of two edges; a range is at most four positions long, or a chain.
    assert ends == [0, *range(2, 39, 2), 39]
    assert set(tiling.range_low.tolist()) <= set(ends)
    assert tiling.range_low[1:].tolist() == tiling.range_high[:-1].tolist()
    assert tiling.cut_arcs >= 9


def test_no_cut_where_another_arc_comes_by() -> None:
    arc = spiral(10)
    guests = [[place, (place[0] + 1, place[1] + 1)] for place in arc]
    assert tiles.Tiling(topology_of(arc, *guests), 8).cut_arcs == 0


def test_a_tile_takes_what_is_in_its_box_and_freezes_it() -> None:
    own = [(0, 0), (5, 1), (10, 0)]
    # Of this arc the edges from (-9, -5) to (5, -5) and on to (5, 20) reach the box; the rest not.
    other = [(-90, -50), (-9, -5), (4, 1), (5, 20), (6, 90), (7, 99)]
    far = [(100, 100), (101, 101), (102, 100)]
    tiling = tiles.Tiling(topology_of(own, other, far), 1000)
    tile = tiles.Tile(np.array([0]), (0, 0, 10, 1))
    cut = tiling.snapshot().cut_out(tile)
    assert cut.owned == 1
    assert tiling.places[cut.own_at()].tolist() == [list(place) for place in own]
    rest = tiling.places[cut.at[cut.starts[1] :]].tolist()
    assert rest == [[-9, -5], [4, 1], [5, 20]]
    assert tiling.places[cut.fixed()].tolist() == [[4, 1]]


def test_boxes_of_one_round_are_apart() -> None:
    boxes = [(0, 0, 4, 4), (4, 4, 8, 8), (5, 0, 8, 3), (0, 5, 3, 8)]
    made = [tiles.Tile(np.array([at]), box) for at, box in enumerate(boxes)]
    found = [[int(tile.ranges[0]) for tile in taken] for taken in tiles.rounds(made)]
    # The second touches the first in a corner and waits.
    assert found == [[0, 2, 3], [1]]


def test_kept_positions_are_a_sublist_with_both_ends() -> None:
    places = np.array([[0, 0], [1, 1], [2, 0], [0, 0]])
    starts = np.array([0, 4])
    ring = np.array([[0, 0], [2, 0], [0, 0]])
    assert kept_positions(places, starts, ring, np.array([0, 3])).tolist() == [
        True,
        False,
        True,
        True,
    ]
    with pytest.raises(errors.NotConfirmed):
        kept_positions(places, starts, np.array([[0, 0], [9, 9], [0, 0]]), np.array([0, 3]))
    with pytest.raises(errors.NotConfirmed):
        kept_positions(places, starts, np.array([[0, 0], [2, 0]]), np.array([0, 2]))


def crossings(topology: Topology) -> int:
    """Count by shapely's tree the pairs of arcs that meet elsewhere than at ends of both."""
    lines = [LineString(topology.arc(arc)) for arc in range(topology.arc_count)]
    ends = [{line.coords[0], line.coords[-1]} for line in lines]
    tree = STRtree(lines)
    number = {id(line): at for at, line in enumerate(lines)}
    found = 0
    for at, line in enumerate(lines):
        for hit in tree.query(line):
            other = number[id(hit)] if hasattr(hit, "geom_type") else int(hit)
            if other > at:
                common = lines[other].intersection(line)
                shared = ends[at] & ends[other]
                pieces = getattr(common, "geoms", [common])
                found += any(
                    piece.geom_type != "Point" or piece.coords[0] not in shared
                    for piece in pieces
                    if not piece.is_empty
                )
    return found


@pytest.fixture(scope="module")
def made(command: Command) -> bytes:
    """A made coverage of 900 cells."""
    return command.make(30, 30, 7)


@pytest.fixture(scope="module")
def in_tiles(command: Command, made: bytes) -> large.ThinnedLarge:
    """The coverage thinned in tiles by two processes."""
    return muchiqen.simplify_large(
        made, 20, "processes", workers=2, tile_positions=2000, program=command
    )


def test_tiles_give_what_one_run_gives(
    command: Command, made: bytes, in_tiles: large.ThinnedLarge
) -> None:
    report = in_tiles.report
    one = read(command.simplify(made, 20))
    assert report.tiles > 8
    assert 2 <= report.rounds < report.tiles
    assert report.confirmed == report.tiles
    assert abs(report.positions_after - len(one.places)) <= 0.01 * len(one.places)
    text = in_tiles.after.text()
    command.simplify(text, 0)
    assert command.faces(text) == command.faces(made)
    assert crossings(in_tiles.after) == 0
    assert in_tiles.after.members == read(made).members


def test_no_vertex_is_further_than_the_tolerance(in_tiles: large.ThinnedLarge) -> None:
    before, after = in_tiles.before, in_tiles.after
    for arc in range(before.arc_count):
        line = LineString(after.arc(arc))
        assert LineString(before.arc(arc)).hausdorff_distance(line) <= 20 * (1 + 1e-12)


def test_the_same_for_any_number_of_workers_and_without_certificates(
    command: Command, made: bytes, in_tiles: large.ThinnedLarge
) -> None:
    seen = []
    again = muchiqen.simplify_large(
        made,
        20,
        "processes",
        workers=1,
        tile_positions=2000,
        certify=False,
        program=command,
        progress=lambda done, total: seen.append((done, total)),
    )
    assert again.after.text() == in_tiles.after.text()
    assert again.report.confirmed == 0
    assert len(seen) == again.report.tiles


def killer(program: Callable[[str], Path], command: Command, mark: Path) -> Path:
    """Give a program that ends the worker that calls it, the first time that it is called."""
    return program(
        f'if mkdir "{mark}" 2>/dev/null; then kill -9 $PPID; sleep 1; fi\n'
        f'exec "{command.program}" "$@"'
    )


def test_a_killed_process_changes_nothing(
    command: Command,
    made: bytes,
    in_tiles: large.ThinnedLarge,
    program: Callable[[str], Path],
    tmp_path: Path,
) -> None:
    bad = killer(program, command, tmp_path / "mark")
    again = muchiqen.simplify_large(
        made, 20, "processes", workers=2, tile_positions=2000, program=bad
    )
    assert (tmp_path / "mark").exists()
    assert again.after.text() == in_tiles.after.text()
    assert again.report.confirmed == again.report.tiles


def test_a_worker_that_always_dies_is_named(made: bytes, program: Callable[[str], Path]) -> None:
    with pytest.raises(errors.WorkerLost):
        muchiqen.simplify_large(
            made, 20, "processes", workers=1, program=program("kill -9 $PPID; sleep 1")
        )


def test_a_killed_worker_of_dask_changes_nothing(
    command: Command,
    made: bytes,
    in_tiles: large.ThinnedLarge,
    program: Callable[[str], Path],
    tmp_path: Path,
) -> None:
    distributed = pytest.importorskip("distributed")
    bad = killer(program, command, tmp_path / "mark")
    with distributed.LocalCluster(
        n_workers=2, threads_per_worker=1, dashboard_address=None, silence_logs=50
    ) as cluster, distributed.Client(cluster) as client:
        again = muchiqen.simplify_large(made, 20, client, tile_positions=2000, program=bad)
        assert client.status == "running"
    assert (tmp_path / "mark").exists()
    assert again.after.text() == in_tiles.after.text()


def test_a_cluster_of_its_own_is_ended(command: Command) -> None:
    pytest.importorskip("distributed")
    text = command.make(3, 3, 7)
    thinned = muchiqen.simplify_large(text, 20, workers=1, tile_positions=200, program=command)
    assert command.faces(thinned.after.text()) == command.faces(text)
    assert thinned.report.confirmed == thinned.report.tiles > 1


def test_an_error_of_the_command_comes_through(made: bytes, program: Callable[[str], Path]) -> None:
    bad = program("cat > /dev/null; echo 'no memory' >&2; exit 10")
    with pytest.raises(errors.NoMemory):
        muchiqen.simplify_large(made, 20, "processes", workers=1, program=bad)


def test_a_tile_too_large_is_parted(
    command: Command, made: bytes, monkeypatch: pytest.MonkeyPatch
) -> None:
    # At most 1,500 positions a tile, where the least has more than 2,000 of its own.
    monkeypatch.setattr(large, "_MOST_IN_TILE", 1500)
    parted = muchiqen.simplify_large(
        made, 20, "processes", workers=2, tile_positions=2000, program=command
    )
    one = read(command.simplify(made, 20))
    assert abs(parted.report.positions_after - len(one.places)) <= 0.01 * len(one.places)
    assert command.faces(parted.after.text()) == command.faces(made)


def test_a_chain_too_long_for_a_tile_is_cut_and_joined(
    command: Command, monkeypatch: pytest.MonkeyPatch
) -> None:
    monkeypatch.setattr(large, "_MOST_IN_TILE", 100)
    arc = [(x, x % 2) for x in range(257)]
    text = topology_of(arc).text()
    thinned = muchiqen.simplify_large(text, 2, "processes", workers=1, program=command)
    kept = thinned.after.arc(0).tolist()
    # One run leaves the two ends; cut in 129 + 128 and then 65 + 65 + 65 + 65, five places stay.
    assert kept == [[0, 0], [64, 0], [128, 0], [192, 0], [256, 0]]
    assert thinned.report.cuts == 3


def test_arcs_that_meet_are_held_in_tiles_too(command: Command) -> None:
    cross = [(0, 0), (5, 1), (10, 0)]
    other = [(5, -5), (6, 0), (5, 5)]
    free = [(0, 50), (5, 51), (10, 50)]
    text = topology_of(cross, other, free).text()
    thinned = muchiqen.simplify_large(
        text, 3, "processes", workers=1, tile_positions=3, program=command
    )
    assert thinned.report.held == [0, 1]
    assert thinned.after.starts.tolist() == [0, 3, 6, 8]


def test_a_frame_goes_in_tiles_with_towns(command: Command, made: bytes) -> None:
    before = read(made)
    frame = frame_of(before, "cells", "EPSG:3035")
    frame["number"] = range(len(frame))
    towns = gpd.GeoDataFrame(
        geometry=gpd.points_from_xy(*before.points().T.astype(float)), crs="EPSG:3035"
    )
    thinned = muchiqen.simplify_large(
        frame, 20, "processes", towns=towns, workers=2, tile_positions=2000, program=command
    )
    assert thinned.frame["number"].tolist() == list(range(900))
    assert thinned.frame.geometry.is_valid.all()
    assert thinned.report.bound == 200
    found = command.faces(thinned.after.text())
    assert found == command.faces(made)
