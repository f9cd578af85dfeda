"""What the tests share: the command, and small maps."""

import sys
from collections.abc import Callable
from pathlib import Path

import geopandas as gpd
import pytest
from shapely.geometry import Point, Polygon

sys.path.insert(0, str(Path(__file__).resolve().parents[1]))

from muchiqen.command import Command  # noqa: E402
from muchiqen.errors import ProgramNotFound  # noqa: E402

TOP = Path(__file__).resolve().parents[2]


@pytest.fixture(scope="session")
def command() -> Command:
    """The command, as ``find`` finds it; tests that want it are skipped where it is not there."""
    try:
        return Command.at()
    except ProgramNotFound as error:
        pytest.skip(str(error))


@pytest.fixture()
def program(tmp_path: Path) -> Callable[[str], Path]:
    """Make a program of a few lines of shell."""

    def make(lines: str) -> Path:
        path = tmp_path / "program.sh"
        path.write_text("#!/bin/sh\n" + lines + "\n")
        path.chmod(0o755)
        return path

    return make


@pytest.fixture()
def two_rows() -> gpd.GeoDataFrame:
    """Two rows with one border of five positions; the middle one is 1 off the straight way."""
    border = [(10, 0), (10, 5), (11, 10), (10, 15), (10, 20)]
    west = Polygon([(0, 0), *border, (0, 20)])
    east = Polygon([*reversed(border), (20, 0), (20, 20)])
    names = {"name": ["West", "East"], "people": [7, 8]}
    return gpd.GeoDataFrame(names, geometry=[west, east], index=["w", "e"], crs="EPSG:3035")


@pytest.fixture()
def two_towns() -> gpd.GeoDataFrame:
    """A town in each of the two rows, both away from the border."""
    return gpd.GeoDataFrame(
        geometry=[Point(5, 10), Point(15, 10)], index=["a", "b"], crs="EPSG:3035"
    )
