"""GDAL reads what the command and the package write, with as many features as went in."""

import re
import shutil
import subprocess
from pathlib import Path

import geopandas as gpd
import pytest

import muchiqen
from muchiqen import coverage, files
from muchiqen.command import Command
from muchiqen.frames import frame_of
from muchiqen.topology import read

EXAMPLE = Path(__file__).resolve().parents[2] / "examples" / "lakeland.json"
OGRINFO = shutil.which("ogrinfo")

pytestmark = pytest.mark.skipif(OGRINFO is None, reason="no ogrinfo (package gdal-bin)")


def features(path: Path) -> list[int]:
    """Give how many features each layer of a file has, by ogrinfo."""
    assert OGRINFO is not None
    done = subprocess.run([OGRINFO, "-al", "-so", path], capture_output=True, text=True, check=True)
    return [int(count) for count in re.findall(r"^Feature Count: (\d+)$", done.stdout, re.M)]


@pytest.fixture()
def lakeland() -> gpd.GeoDataFrame:
    """The rows of the example, in degrees."""
    return frame_of(read(EXAMPLE.read_bytes()), crs="EPSG:4326")


def test_what_build_writes(command: Command, tmp_path: Path, lakeland: gpd.GeoDataFrame) -> None:
    if not command.has_build():
        pytest.skip("the program has no form build")
    rings = coverage.snapped(coverage.rings_of(lakeland), muchiqen.Grid((0.001, 0.001)), [])
    before, after = tmp_path / "before.geojson", tmp_path / "after.topojson"
    before.write_bytes(coverage.geojson(rings))
    after.write_bytes(command.build(before.read_bytes()))
    assert features(before) == features(after) == [len(lakeland)]


def test_what_simplify_writes(command: Command, tmp_path: Path) -> None:
    text = EXAMPLE.read_bytes()
    before, after = tmp_path / "before.topojson", tmp_path / "after.topojson"
    before.write_bytes(text)
    after.write_bytes(command.simplify(text, 100))
    assert features(before) == features(after)
    assert sum(features(after)) > 0


@pytest.mark.parametrize("ending", ["shp", "gpkg", "geojson", "fgb"])
def test_what_the_package_writes(
    command: Command, tmp_path: Path, lakeland: gpd.GeoDataFrame, ending: str
) -> None:
    thinned = muchiqen.simplify(lakeland, 0.1, program=command)
    goal = tmp_path / f"thin.{ending}"
    files.write_frame(thinned.frame, goal)
    assert features(goal) == [len(lakeland)]
