"""The command line, from files to files."""

import json
from pathlib import Path

import geopandas as gpd
import pytest
from conftest import TOP
from shapely.geometry import Polygon

from muchiqen import files
from muchiqen.cli import main
from muchiqen.command import Command
from muchiqen.topology import read

LAKELAND = TOP / "examples" / "lakeland.json"


@pytest.fixture()
def options(command: Command) -> list[str]:
    """Options that name the program."""
    return ["--program", str(command.program), "--quiet"]


@pytest.mark.parametrize("ending", ["shp", "gpkg", "geojson"])
def test_from_format_to_format(
    options: list[str], two_rows: gpd.GeoDataFrame, tmp_path: Path, ending: str
) -> None:
    source, goal = tmp_path / f"map.{ending}", tmp_path / f"thin.{ending}"
    files.write_frame(two_rows.to_crs("EPSG:4326") if ending == "geojson" else two_rows, source)
    tolerance = "1e-5" if ending == "geojson" else "1"
    assert main(["simplify", str(source), str(goal), "--tolerance", tolerance, *options]) == 0
    before, after = files.read_frame(source), files.read_frame(goal)
    assert after.drop(columns="geometry").equals(before.drop(columns="geometry"))
    assert after.crs == before.crs
    positions = [len(row.exterior.coords) for row in after.geometry]
    assert positions == [5, 5]
    assert after.geometry[0].intersection(after.geometry[1]).area == 0


def test_a_topology_stays_one(command: Command, options: list[str], tmp_path: Path) -> None:
    goal = tmp_path / "thin.json"
    words = ["--tolerance", "0.078", "--weights", "1", "1"]
    assert main(["simplify", str(LAKELAND), str(goal), *words, *options]) == 0
    # A step up is 0.00052, so 0.078 are 150 steps.
    assert goal.read_bytes() == command.simplify(LAKELAND.read_bytes(), 150)


def test_a_topology_that_is_not_quantized_is_read_by_gdal(
    options: list[str], tmp_path: Path
) -> None:
    source, goal = tmp_path / "map.json", tmp_path / "thin.geojson"
    source.write_text(
        '{"type":"Topology","objects":{"a":{"type":"GeometryCollection","geometries":['
        '{"type":"Polygon","properties":{"n":1},"arcs":[[0]]}]}},'
        '"arcs":[[[0.5,0],[4.5,0.1],[8.5,0],[4.5,5.5],[0.5,0]]]}'
    )
    words = ["simplify", str(source), str(goal), "--tolerance", "0.2", "--weights", "1", "1"]
    assert main([*words, *options]) == 0
    thin = files.read_frame(goal).geometry[0]
    assert thin.equals(Polygon([(0.5, 0), (8.5, 0), (4.5, 5.5)]))


def test_everything_at_once(options: list[str], tmp_path: Path) -> None:
    pytest.importorskip("matplotlib")
    names = {kind: tmp_path / kind for kind in ("out.gpkg", "c.json", "p.png", "v.html")}
    words = ["simplify", str(LAKELAND), str(names["out.gpkg"]), "--tolerance", "0.1"]
    words += ["--certificate", str(names["c.json"]), "--picture", str(names["p.png"])]
    words += ["--view", str(names["v.html"]), "--crs", "EPSG:4326", *options]
    assert main(words) == 0
    assert sorted(path.name for path in tmp_path.iterdir()) == sorted(names)
    rows = files.read_frame(names["out.gpkg"])
    assert rows["name"].tolist() == ["Westmark", "Eastmark", "Southmark", "Mere"]
    assert json.loads(names["c.json"].read_text())["version"] == 3


def test_tiles_by_workers_and_attributes_in_the_text(
    options: list[str], two_rows: gpd.GeoDataFrame, tmp_path: Path
) -> None:
    source, goal = tmp_path / "map.gpkg", tmp_path / "thin.topojson"
    files.write_frame(two_rows.reset_index(drop=True), source)
    words = ["simplify", str(source), str(goal), "--tolerance", "1", "--workers", "2", *options]
    assert main(words) == 0
    after = read(goal.read_bytes())
    properties = [row["properties"] for row in after.objects["rows"]["geometries"]]
    assert properties == [{"name": "West", "people": 7}, {"name": "East", "people": 8}]
    assert len(after.places) == 10


def test_the_page_by_its_own_form(command: Command, tmp_path: Path) -> None:
    text = LAKELAND.read_bytes()
    (tmp_path / "out.json").write_bytes(command.simplify(text, 150))
    (tmp_path / "cert.json").write_bytes(command.layers(text, 150))
    page = tmp_path / "view.html"
    words = [str(LAKELAND), str(tmp_path / "out.json"), str(tmp_path / "cert.json")]
    assert main(["view", *words, "-o", str(page)]) == 0
    assert "<title>" in page.read_text()
    assert main(["view", *words[:2], str(tmp_path / "none"), "-o", str(page)]) == 1


def test_refusals_are_one_line_and_nothing_is_written(
    options: list[str], tmp_path: Path, capsys: pytest.CaptureFixture[str]
) -> None:
    goal = tmp_path / "thin.gpkg"
    assert main(["simplify", str(LAKELAND), str(goal), "--tolerance", "nan", *options]) == 1
    assert capsys.readouterr().err == "muchiqen: BadTolerance: no tolerance: nan\n"
    assert main(["simplify", "none.shp", str(goal), "--tolerance", "1", *options]) == 1
    assert capsys.readouterr().err.startswith("muchiqen: NotRead: cannot read none.shp")
    bow = gpd.GeoDataFrame(geometry=[Polygon([(0, 0), (9, 9), (9, 0), (0, 9)])], crs="EPSG:3035")
    files.write_frame(bow, tmp_path / "bow.gpkg")
    words = ["simplify", str(tmp_path / "bow.gpkg"), str(goal), "--tolerance", "1", "--no-hold"]
    assert main([*words, *options]) == 1
    assert capsys.readouterr().err.startswith("muchiqen: ArcsMeet: arc 0 edge ")
    assert not goal.exists()
