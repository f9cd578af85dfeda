"""``build``: its refusals, and that both ways to a topology come to the same."""

from pathlib import Path

import geopandas as gpd
import pytest

import muchiqen
from muchiqen import errors
from muchiqen.command import Command
from muchiqen.frames import frame_of
from muchiqen.topology import read

EXAMPLE = Path(__file__).resolve().parents[2] / "examples" / "lakeland.json"


class WithoutBuild(Command):
    """The same command, taken for one that has no form ``build``."""

    def has_build(self) -> bool:
        """Say no."""
        return False


@pytest.fixture()
def builder(command: Command) -> Command:
    """The command, where it has the form ``build``."""
    if not command.has_build():
        pytest.skip("the program has no form build")
    return command


def polygon(*rings: str) -> bytes:
    """Give a polygon of rings that are spelled as in JSON."""
    return b'{"type":"Polygon","coordinates":[' + ",".join(rings).encode() + b"]}"


REFUSALS = [
    (b"\xff", errors.NotUtf8(0)),
    (b"{", errors.NotJson(1)),
    (b"[]", errors.NotGeoJson("not an object", 0)),
    (b"{}", errors.NotGeoJson("missing member", 0)),
    (b'{"type":"Point","type":"Point"}', errors.NotGeoJson("member twice", 16)),
    (b'{"type":"Polygon","coordinates":7}', errors.NotGeoJson("wrong type", 32)),
    (b'{"type":"LineString","coordinates":[]}', errors.NotGeoJson("unknown type", 8)),
    (polygon("[[0,0],[4,0],[0,0]]"), errors.NotGeoJson("short ring", 33)),
    (polygon("[[0,0],[4,0],[2,3],[1,1]]"), errors.NotGeoJson("open ring", 33)),
    (b'{"type":"Point","coordinates":[0.5,0]}', errors.OutsideProfile("not whole", 31)),
    (b'{"type":"Point","coordinates":[0,0,0]}', errors.OutsideProfile("extra number", 35)),
    (b'{"type":"Point","coordinates":[0,536870913]}', errors.OutsideProfile("off the grid", 33)),
]


@pytest.mark.parametrize(("text", "wanted"), REFUSALS)
def test_what_build_refuses(builder: Command, text: bytes, wanted: errors.CommandError) -> None:
    with pytest.raises(type(wanted)) as caught:
        builder.build(text)
    assert (vars(caught.value), caught.value.status) == (vars(wanted), wanted.status)


def test_a_program_without_build_is_told_by_its_status(tmp_path: Path) -> None:
    path = tmp_path / "old.sh"
    path.write_text("#!/bin/sh\necho 'usage: simplify E FILE' >&2\nexit 2\n")
    path.chmod(0o755)
    old = Command.at(path)
    assert not old.has_build()
    with pytest.raises(errors.Usage, match="simplify E FILE"):
        old.build(b"{}")
    # Once the file is another one, it is asked again.
    path.write_text("#!/bin/sh\necho 'not GeoJSON: missing member at 0' >&2\nexit 15\n")
    assert old.has_build()


def same(one: muchiqen.Thinned, other: muchiqen.Thinned) -> bool:
    """Tell whether two runs have the same text, rows and report."""
    rows = [[shape.wkb for shape in thinned.frame.geometry] for thinned in (one, other)]
    texts = (one.source, one.text) == (other.source, other.text)
    return texts and rows[0] == rows[1] and one.report.lines() == other.report.lines()


@pytest.mark.parametrize("name", ["lakeland", "made", "two rows"])
def test_both_ways_give_the_same_frame(
    builder: Command, name: str, two_rows: gpd.GeoDataFrame, two_towns: gpd.GeoDataFrame
) -> None:
    frame, tolerance, towns = two_rows, 1.0, two_towns
    if name == "lakeland":
        frame, tolerance, towns = frame_of(read(EXAMPLE.read_bytes()), crs="EPSG:4326"), 0.1, None
    elif name == "made":
        made = read(builder.make(3, 4, 7))
        frame, tolerance = frame_of(made, "cells", "EPSG:3035"), 5.0
        towns = frame_of(made, "towns", "EPSG:3035").explode(index_parts=False, ignore_index=True)
    by_build = muchiqen.simplify(frame, tolerance, towns, program=builder)
    by_package = muchiqen.simplify(frame, tolerance, towns, program=WithoutBuild(builder.program))
    assert (by_build.report.built_by, by_package.report.built_by) == ("build", "muchiqen")
    assert same(by_build, by_package)
