"""Files: whole or not at all."""

import resource
import signal
from collections.abc import Iterator
from contextlib import contextmanager
from pathlib import Path

import geopandas as gpd
import pytest

from muchiqen import errors, files


@contextmanager
def small_disk() -> Iterator[None]:
    """Let no file grow past 1,000 bytes, as on a disk that is full."""
    before = resource.getrlimit(resource.RLIMIT_FSIZE)
    handler = signal.signal(signal.SIGXFSZ, signal.SIG_IGN)
    resource.setrlimit(resource.RLIMIT_FSIZE, (1000, before[1]))
    try:
        yield
    finally:
        resource.setrlimit(resource.RLIMIT_FSIZE, before)
        signal.signal(signal.SIGXFSZ, handler)


def test_a_full_disk_leaves_what_was_there(tmp_path: Path) -> None:
    goal = tmp_path / "map.json"
    files.write_bytes(goal, b"before")
    with small_disk(), pytest.raises(errors.NotWritten):
        files.write_bytes(goal, b"x" * 5000)
    assert goal.read_bytes() == b"before"
    assert [path.name for path in tmp_path.iterdir()] == ["map.json"]


@pytest.mark.parametrize("ending", ["gpkg", "geojson", "shp"])
def test_a_full_disk_leaves_no_half_of_a_map(
    tmp_path: Path, two_rows: gpd.GeoDataFrame, ending: str
) -> None:
    many = two_rows.loc[["w"] * 200].reset_index(drop=True)
    with small_disk(), pytest.raises(errors.NotWritten):
        files.write_frame(many, tmp_path / f"map.{ending}")
    assert list(tmp_path.iterdir()) == []


def test_a_folder_that_is_not_there_and_an_ending_without_format(
    tmp_path: Path, two_rows: gpd.GeoDataFrame
) -> None:
    with pytest.raises(errors.NotWritten):
        files.write_bytes(tmp_path / "none" / "map.json", b"")
    with pytest.raises(errors.NotWritten, match=r"\.doc"):
        files.write_frame(two_rows, tmp_path / "map.doc")
    with pytest.raises(errors.NotRead, match="no such file"):
        files.read_frame(tmp_path / "none.shp")
    (tmp_path / "bad.shp").write_bytes(b"no shapefile")
    with pytest.raises(errors.NotRead):
        files.read_frame(tmp_path / "bad.shp")


def test_all_files_of_a_shapefile_take_their_names(
    tmp_path: Path, two_rows: gpd.GeoDataFrame
) -> None:
    files.write_frame(two_rows, tmp_path / "map.shp")
    endings = {path.suffix for path in tmp_path.iterdir()}
    assert {".shp", ".shx", ".dbf", ".prj"} <= endings
    again = files.read_frame(tmp_path / "map.shp")
    assert again["name"].tolist() == ["West", "East"]


def test_topologies_are_told_by_their_text(tmp_path: Path) -> None:
    (tmp_path / "a.json").write_text('{"arcs":[],"objects":{},"type":"Topology"}')
    (tmp_path / "b.json").write_text('{"type":"FeatureCollection","features":[]}')
    assert files.is_topology(tmp_path / "a.json")
    assert not files.is_topology(tmp_path / "b.json")
    assert not files.is_topology(tmp_path / "c.json")
