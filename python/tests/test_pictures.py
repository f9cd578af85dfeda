"""Pictures: what is measured for them, and that they are written."""

from pathlib import Path

import geopandas as gpd
import numpy as np
import pytest

import muchiqen
from muchiqen import errors
from muchiqen.command import Command
from muchiqen.topology import read

pytest.importorskip("matplotlib")
from muchiqen import pictures  # noqa: E402


def test_distances_are_from_the_edge_that_skips() -> None:
    line = np.array([[0.0, 0.0], [2.0, 3.0], [4.0, 0.0], [6.0, 1.0], [8.0, 0.0]])
    found = pictures.change(line, line[[0, 2, 4]])
    assert found.dropped.tolist() == [[2, 3], [6, 1]]
    assert found.distances.tolist() == [3, 1]
    # With a unit up twice as long as one across the slope counts half across.
    steep = np.array([[0.0, 0.0], [2.0, 1.0], [0.0, 2.0]])
    assert pictures.change(steep, steep[[0, 2]], 2.0).distances.tolist() == [1]


def test_lines_that_are_no_sublist_are_measured_from_the_nearest_edge() -> None:
    found = pictures.change(np.array([[0.0, 0.0], [5.0, 2.0]]), np.array([[0.0, 0.0], [9.0, 0.0]]))
    assert found.dropped.tolist() == [[5, 2]]
    assert found.distances.tolist() == [2]


@pytest.mark.parametrize("ending", ["png", "svg"])
def test_a_picture_is_written(
    command: Command, two_rows: gpd.GeoDataFrame, tmp_path: Path, ending: str
) -> None:
    towns = gpd.GeoDataFrame(geometry=two_rows.representative_point(), crs=two_rows.crs)
    thinned = muchiqen.simplify(two_rows, 1, towns, program=command)
    path = tmp_path / f"map.{ending}"
    figure = muchiqen.picture_of(thinned, path)
    assert path.read_bytes().startswith(b"\x89PNG" if ending == "png" else b"<?xml")
    shown = {text.get_text() for text in figure.axes[0].get_legend().get_texts()}
    # The border loses (10, 5), (11, 10) and (10, 15).
    assert shown == {"before", "after", "3 dropped vertices", "2 towns"}
    assert figure.axes[1].get_title() == "largest change: 1"


def test_frames_are_drawn_ring_by_ring(command: Command, two_rows: gpd.GeoDataFrame) -> None:
    thinned = muchiqen.simplify(two_rows, 1, program=command)
    figure = muchiqen.picture(two_rows, thinned.frame, title="Two")
    shown = {text.get_text() for text in figure.axes[0].get_legend().get_texts()}
    assert shown == {"before", "after", "6 dropped vertices"}
    assert figure.axes[0].get_title() == "Two"


def test_held_arcs_have_their_own_colour() -> None:
    topology = read(b'{"type":"Topology","objects":{},"arcs":[[[0,0],[4,4]],[[0,4],[4,0]]]}')
    figure = muchiqen.picture(topology, topology, held=[0, 1])
    shown = {text.get_text() for text in figure.axes[0].get_legend().get_texts()}
    assert "held" in shown


def test_other_endings_are_refused(two_rows: gpd.GeoDataFrame, tmp_path: Path) -> None:
    with pytest.raises(errors.NotWritten):
        muchiqen.picture(two_rows, two_rows, file=tmp_path / "map.doc")
