"""``simplify``: frames in, frames out, and what the report says of a map's faults."""

from pathlib import Path

import geopandas as gpd
import numpy as np
import pandas as pd
import pytest
from shapely.geometry import LineString, MultiPolygon, Point, Polygon
from shapely.ops import unary_union

import muchiqen
from muchiqen import build, coverage, errors
from muchiqen.command import Command
from muchiqen.frames import frame_of
from muchiqen.thin import bound_of, weights_by_ratio
from muchiqen.topology import read


def notes(thinned: muchiqen.Thinned) -> str:
    return "\n".join(thinned.report.notes)


def test_rows_attributes_and_index_stay(command: Command, two_rows: gpd.GeoDataFrame) -> None:
    thinned = muchiqen.simplify(two_rows, 1, certify=True, program=command)
    frame = thinned.frame
    assert frame.drop(columns="geometry").equals(two_rows.drop(columns="geometry"))
    assert frame.index.tolist() == ["w", "e"]
    assert frame.crs == two_rows.crs
    # The border keeps its two ends; the corners of the outer borders are ends of chains.
    assert frame.geometry["w"].equals(Polygon([(0, 0), (10, 0), (10, 20), (0, 20)]))
    assert frame.geometry["e"].equals(Polygon([(20, 0), (10, 0), (10, 20), (20, 20)]))
    assert thinned.report.largest_move == 0
    assert (thinned.report.step, thinned.report.bound) == (0.01, 100)
    # Three arcs: the border of 5, and two outer ones of 4 positions.
    assert (thinned.report.positions_before, thinned.report.positions_after) == (13, 10)
    assert thinned.verdict == "yes"
    assert thinned.certificate is not None
    assert thinned.certificate.startswith(b'{"bound":100,')


def test_a_tolerance_too_small_keeps_the_bend(command: Command, two_rows: gpd.GeoDataFrame) -> None:
    thinned = muchiqen.simplify(two_rows, 0.9, program=command)
    west = Polygon([(0, 0), (10, 0), (10, 5), (11, 10), (10, 15), (10, 20), (0, 20)])
    # (10, 5) is 0.44.. from the edge to (11, 10), so the shortest way is by the middle alone.
    assert not thinned.frame.geometry["w"].equals(west)
    assert thinned.frame.geometry["w"].equals(
        Polygon([(0, 0), (10, 0), (11, 10), (10, 20), (0, 20)])
    )


def test_towns_stay_in_their_rows(
    command: Command, two_rows: gpd.GeoDataFrame, two_towns: gpd.GeoDataFrame
) -> None:
    close = gpd.GeoDataFrame(geometry=[Point(10.5, 10)], index=["c"], crs="EPSG:3035")
    thinned = muchiqen.simplify(two_rows, 1, close, program=command)
    assert thinned.frame.geometry["w"].contains(Point(10.5, 10))
    assert not notes(thinned)
    free = muchiqen.simplify(two_rows, 1, two_towns, program=command)
    assert not free.frame.geometry["w"].contains(Point(10.5, 10))
    assert free.towns is not None
    assert free.towns.index.tolist() == ["a", "b"]


def test_towns_outside_and_on_a_border_are_told(
    command: Command, two_rows: gpd.GeoDataFrame
) -> None:
    towns = gpd.GeoDataFrame(
        geometry=[Point(50, 50), Point(10, 2), None, Point()],
        index=["out", "on", "none", "empty"],
        crs="EPSG:3035",
    )
    thinned = muchiqen.simplify(two_rows, 1, towns, program=command)
    assert "1 towns are in no row: out" in notes(thinned)
    assert "2 towns without a geometry, left out" in notes(thinned)
    (held,) = thinned.report.held
    assert (held.kind, held.other, held.by_snapping) == ("has a town on it", 1, False)
    assert thinned.report.positions_after == 13
    with pytest.raises(errors.PointOnArc):
        muchiqen.simplify(two_rows, 1, towns, hold=False, program=command)


def test_towns_that_are_no_points_are_refused(command: Command, two_rows: gpd.GeoDataFrame) -> None:
    lines = gpd.GeoDataFrame(geometry=[LineString([(0, 0), (1, 1)])], index=["x"], crs="EPSG:3035")
    with pytest.raises(errors.NotACoverage) as caught:
        muchiqen.simplify(two_rows, 1, lines, program=command)
    assert caught.value.rows == ["x"]


def test_towns_of_another_crs_are_brought_over(
    command: Command, two_rows: gpd.GeoDataFrame, two_towns: gpd.GeoDataFrame
) -> None:
    moved = two_rows.copy()
    moved.geometry = two_rows.translate(4_321_000, 3_210_000)
    towns = two_towns.copy()
    towns.geometry = two_towns.translate(4_321_000, 3_210_000)
    thinned = muchiqen.simplify(moved, 1, towns.to_crs("EPSG:4326"), program=command)
    assert thinned.towns is not None
    assert thinned.towns.distance(towns).max() < 0.01
    assert "brought to the CRS" in notes(thinned)


def test_snapping_that_moves_a_town_is_told(command: Command, two_rows: gpd.GeoDataFrame) -> None:
    # Where y is 8 the border has x 10.6. The town at 10.55 is west of it, and goes to 11.
    towns = gpd.GeoDataFrame(geometry=[Point(10.55, 8)], index=["t"], crs="EPSG:3035")
    thinned = muchiqen.simplify(two_rows, 1, towns, grid=1, program=command)
    assert "town t: snapping takes it from row w to row e" in notes(thinned)
    assert thinned.report.largest_move == pytest.approx(0.45)
    towns.geometry = [Point(10.4, 8)]
    assert "snapping" not in notes(muchiqen.simplify(two_rows, 1, towns, grid=1, program=command))


def test_a_grid_too_coarse_for_the_tolerance_is_told(
    command: Command, two_rows: gpd.GeoDataFrame
) -> None:
    thinned = muchiqen.simplify(two_rows, 1, grid=4, program=command)
    # 10 goes to 8: 2 away, more than the tolerance.
    assert thinned.report.largest_move == 2
    assert thinned.report.bound == 0
    assert "more than the tolerance" in notes(thinned)


def test_rings_that_meet_only_on_the_grid_are_told(command: Command) -> None:
    low = Polygon([(0, 0), (10, 0), (10, 4), (5, 4.9), (0, 4)])
    high = Polygon([(0, 9), (0, 6), (5, 5.1), (10, 6), (10, 9)])
    frame = gpd.GeoDataFrame(geometry=[low, high], crs="EPSG:3035")
    assert not notes(muchiqen.simplify(frame, 2, grid=0.1, program=command))
    coarse = muchiqen.simplify(frame, 2, grid=1, program=command)
    assert "at 1 places positions that were up to 0.2 apart came together" in notes(coarse)


def test_borders_that_meet_only_on_the_grid_are_held(command: Command) -> None:
    # The tip at (5.4, 4.9) lies below the edge from (0, 5) to (11, 5.4), and goes to (5, 5) on it.
    low = Polygon([(0, 0), (11, 0), (5.4, 4.9)])
    high = Polygon([(0, 5), (11, 5.4), (11, 9)])
    frame = gpd.GeoDataFrame(geometry=[low, high], crs="EPSG:3035")
    assert not muchiqen.simplify(frame, 2, grid=0.1, program=command).report.held
    coarse = muchiqen.simplify(frame, 2, grid=1, program=command)
    assert [(held.kind, held.by_snapping) for held in coarse.report.held] == [("touches", True)] * 2
    with pytest.raises(errors.ArcsMeet):
        muchiqen.simplify(frame, 2, grid=1, hold=False, program=command)


def test_overlapping_rows_are_held_and_told(command: Command) -> None:
    square = Polygon([(0, 0), (10, 0), (10, 10), (0, 10)])
    other = Polygon([(5, 5), (15, 5), (15, 15), (5, 15)])
    frame = gpd.GeoDataFrame(geometry=[square, other], crs="EPSG:3035")
    thinned = muchiqen.simplify(frame, 1, program=command)
    assert [(h.kind, h.by_snapping) for h in thinned.report.held] == [("crosses", False)] * 2
    twice = gpd.GeoDataFrame(geometry=[square, square], index=["a", "b"], crs="EPSG:3035")
    assert "rows a and b overlap" in notes(muchiqen.simplify(twice, 1, program=command))
    inner = Polygon([(2, 2), (4, 2), (4, 4), (2, 4)])
    nested = gpd.GeoDataFrame(geometry=[square, inner], index=["a", "b"], crs="EPSG:3035")
    thinned = muchiqen.simplify(nested, 1, program=command)
    assert not thinned.report.held
    assert notes(thinned) == "rows a and b overlap"
    ring = square.difference(inner)
    beside = gpd.GeoDataFrame(geometry=[ring, inner], crs="EPSG:3035")
    assert not notes(muchiqen.simplify(beside, 1, program=command))


def test_gaps_are_told(command: Command) -> None:
    left = Polygon([(0, 0), (10, 0), (10, 10), (0, 10)])
    right = Polygon([(10, 0), (20, 0), (20, 10), (10, 10), (10.5, 5)])
    frame = gpd.GeoDataFrame(geometry=[left, right], crs="EPSG:3035")
    # The gap is a triangle of base 10 and height 0.5.
    assert "a gap narrower than the tolerance" in notes(
        muchiqen.simplify(frame, 1, program=command)
    )
    assert "area 2.5" in notes(muchiqen.simplify(frame, 1, program=command))
    lake = Polygon([(0, 0), (30, 0), (30, 30), (0, 30)], [[(9, 9), (9, 20), (20, 20), (20, 9)]])
    alone = gpd.GeoDataFrame(geometry=[lake], crs="EPSG:3035")
    assert not notes(muchiqen.simplify(alone, 1, program=command))


def test_a_ring_that_crosses_itself_is_held(command: Command) -> None:
    bow = Polygon([(0, 0), (10, 10), (10, 0), (0, 10)])
    thinned = muchiqen.simplify(
        gpd.GeoDataFrame(geometry=[bow], crs="EPSG:3035"), 1, program=command
    )
    (held,) = thinned.report.held
    assert held.kind == "crosses"
    assert "row 0: the polygon crosses or touches itself, as it came" in notes(thinned)
    assert thinned.frame.geometry[0].equals_exact(bow, 0)


def test_missing_empty_and_high_geometries(command: Command, two_rows: gpd.GeoDataFrame) -> None:
    high = Polygon([(30, 0, 5), (40, 0, 5), (40, 10, 5)])
    more = gpd.GeoDataFrame(
        {"name": ["n", "e", "h"], "people": [1, 2, 3]},
        geometry=[None, Polygon(), high],
        index=["none", "empty", "high"],
        crs=two_rows.crs,
    )
    thinned = muchiqen.simplify(pd.concat([two_rows, more]), 1, program=command)
    assert thinned.frame.geometry["none"] is None
    assert thinned.frame.geometry["empty"].is_empty
    assert not thinned.frame.geometry["high"].has_z
    assert "row none, empty: without a geometry" in notes(thinned)
    assert "row high: with heights" in notes(thinned)


def test_lines_among_the_rows_are_refused(command: Command, two_rows: gpd.GeoDataFrame) -> None:
    frame = two_rows.copy()
    frame.loc["e", "geometry"] = LineString([(0, 0), (1, 1)])
    with pytest.raises(errors.NotACoverage, match="row e"):
        muchiqen.simplify(frame, 1, program=command)


def test_coordinates_are_finite(command: Command) -> None:
    bad = Polygon([(0, 0), (float("nan"), 0), (1, 1)])
    with pytest.raises(errors.NotACoverage, match="not finite: row 0"):
        muchiqen.simplify(gpd.GeoDataFrame(geometry=[bad]), 1, program=command)


def test_any_index_and_any_name_of_the_geometry(
    command: Command, two_rows: gpd.GeoDataFrame
) -> None:
    frame = two_rows.rename_geometry("shape")
    frame["centre"] = frame.centroid
    frame.index = pd.Index(["same", "same"])
    thinned = muchiqen.simplify(frame, 1, program=command).frame
    assert thinned.index.tolist() == ["same", "same"]
    assert thinned.geometry.name == "shape"
    assert thinned["centre"].equals(frame["centre"])
    assert [len(row.exterior.coords) for row in thinned["shape"]] == [5, 5]


def test_no_rows_are_no_fault(command: Command, two_rows: gpd.GeoDataFrame) -> None:
    thinned = muchiqen.simplify(two_rows.iloc[:0], 1, certify=True, program=command)
    assert len(thinned.frame) == 0
    assert thinned.verdict == "yes"


@pytest.mark.parametrize("grid", [0, -1, float("nan"), "wide", 1e-12])
def test_bad_grids(command: Command, two_rows: gpd.GeoDataFrame, grid: float) -> None:
    with pytest.raises(errors.BadGrid):
        muchiqen.simplify(two_rows, 1, grid=grid, program=command)


def test_no_crs_is_told(command: Command, two_rows: gpd.GeoDataFrame) -> None:
    plain = gpd.GeoDataFrame(geometry=list(two_rows.geometry))
    assert "no CRS" in notes(muchiqen.simplify(plain, 1, program=command))


@pytest.mark.parametrize("tolerance", [-1, float("nan"), float("inf"), "1"])
def test_bad_tolerances(command: Command, two_rows: gpd.GeoDataFrame, tolerance: float) -> None:
    with pytest.raises(errors.BadTolerance):
        muchiqen.simplify(two_rows, tolerance, program=command)


def test_tolerance_zero_drops_what_is_on_the_way(command: Command) -> None:
    square = Polygon([(0, 0), (5, 0), (10, 0), (10, 10), (0, 10)])
    frame = gpd.GeoDataFrame(geometry=[square], crs="EPSG:3035")
    thinned = muchiqen.simplify(frame, 0, program=command)
    assert len(thinned.frame.geometry[0].exterior.coords) == 5
    assert "tolerance 0" in notes(thinned)


def test_small_parts_that_vanish_on_the_grid_are_told(command: Command) -> None:
    big = Polygon([(0, 0), (100, 0), (100, 100), (0, 100)])
    small = Polygon([(200, 0), (200.1, 0), (200.1, 0.1)])
    frame = gpd.GeoDataFrame(geometry=[MultiPolygon([big, small]), small], crs="EPSG:3035")
    thinned = muchiqen.simplify(frame, 5, grid=1, program=command)
    assert "2 rings have fewer than three places" in notes(thinned)
    assert "row 1: nothing is left on the grid" in notes(thinned)
    assert thinned.frame.geometry[0].equals(MultiPolygon([big]))
    assert thinned.frame.geometry[1].is_empty


def test_weights_are_at_least_the_ratio() -> None:
    assert weights_by_ratio(0.5, 16) == (1, 2)
    assert weights_by_ratio(1.0, 16) is None
    # 0.7071 lies just below 12/16 = 0.75, 5/7 = 0.714, 10/14 and 11/15 = 0.733: 5/7 is the least.
    assert weights_by_ratio(2**-0.5, 16) == (5, 7)


def test_the_bound_leaves_room_for_snapping() -> None:
    step = muchiqen.Grid((0.01, 0.01))
    assert bound_of(1.0, (0.0, 0.0), step, None, []) == 100
    assert bound_of(1.0, (0.003, 0.004), step, None, []) == 99
    assert bound_of(1.0, (0.0, 0.0), step, (3, 4), []) == 400
    assert bound_of(1e9, (0.0, 0.0), step, None, []) == 2**30


def test_degrees_get_weights(command: Command) -> None:
    """At 60 degrees north a degree across is half a degree up, so a bend across counts half."""
    bend = [(10.0, 59.0), (10.1, 60.0), (10.0, 61.0)]
    west = Polygon([(8, 59), *bend, (8, 61)])
    east = Polygon([*reversed(bend), (12, 59), (12, 61)])
    frame = gpd.GeoDataFrame(geometry=[west, east], crs="EPSG:4326")
    thinned = muchiqen.simplify(frame, 0.06, program=command)
    assert thinned.report.weights == (1, 2)
    assert thinned.frame.geometry[0].equals(Polygon([(8, 59), (10, 59), (10, 61), (8, 61)]))
    plain = muchiqen.simplify(frame, 0.06, weights=(1, 1), program=command)
    assert plain.report.weights is None
    assert plain.frame.geometry[0].equals(west)


def test_no_gap_and_no_overlap_on_the_grid(command: Command) -> None:
    """Of a made map: the rows' areas add up to that of their union, and each pair only touches."""
    frame = frame_of(read(command.make(6, 6, 7)), "cells", "EPSG:3035")
    thinned = muchiqen.simplify(frame, 5, grid=1, program=command)
    rows = list(thinned.frame.geometry)
    assert thinned.report.positions_after < thinned.report.positions_before
    assert all(row.is_valid for row in rows)
    assert sum(row.area for row in rows) == unary_union(rows).area
    for number, row in enumerate(rows):
        assert all(row.intersection(other).area == 0 for other in rows[number + 1 :])


def test_the_tolerance_holds_by_shapely(command: Command) -> None:
    frame = frame_of(read(command.make(5, 5, 3)), "cells", "EPSG:3035")
    frame.geometry = frame.geometry.scale(0.317, 0.317, origin=(0, 0))
    thinned = muchiqen.simplify(frame, 1.7, program=command)
    assert thinned.report.largest_move > 0
    for old, new in zip(frame.geometry, thinned.frame.geometry, strict=True):
        far = max(new.exterior.distance(Point(p)) for p in old.exterior.coords)
        assert far <= 1.7


def test_topologies_by_name_and_bytes(command: Command, tmp_path: Path) -> None:
    text = command.make(2, 2, 7)
    path = tmp_path / "map.json"
    path.write_bytes(text)
    by_name = muchiqen.simplify(path, 3, program=command)
    by_bytes = muchiqen.simplify(text, 3, program=command)
    assert by_name.text == by_bytes.text == command.simplify(text, 3)
    assert len(by_name.frame) == 4
    assert by_name.report.built_by == "file"
    with pytest.raises(errors.NotRead):
        muchiqen.simplify(tmp_path / "none.json", 3, program=command)
    made = muchiqen.simplify_topology(text, 3, certify=True, program=command)
    assert (made.text, made.verdict) == (by_name.text, "yes")


def test_both_ways_to_a_topology_agree(command: Command, two_rows: gpd.GeoDataFrame) -> None:
    if not command.has_build():
        pytest.skip("the program has no form build")
    snapped = coverage.snapped(coverage.rings_of(two_rows), muchiqen.Grid(), ["w", "e"])
    by_command = read(command.build(coverage.geojson(snapped)))
    own = build.build(snapped.places, snapped.starts)
    assert np.array_equal(by_command.places, own.places)
    assert np.array_equal(by_command.starts, own.starts)
