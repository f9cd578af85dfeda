"""The command: how it is found, what it answers, and each status as an exception."""

import pickle
from collections.abc import Callable
from pathlib import Path

import pytest

from muchiqen import errors
from muchiqen.command import Command, find, run

ONE_ARC = b'{"type":"Topology","objects":{},"arcs":[[[0,0],[1,0],[2,0],[3,0]]]}'
CROSS = b'{"type":"Topology","objects":{},"arcs":[[[0,0],[4,4]],[[0,4],[4,0]]]}'
TOWN_ON_ARC = (
    b'{"type":"Topology","objects":{"t":{"type":"Point","coordinates":[2,0]}},'
    b'"arcs":[[[0,0],[4,0]]]}'
)


def test_find_takes_argument_then_variable_then_path(
    monkeypatch: pytest.MonkeyPatch, tmp_path: Path
) -> None:
    for name in ("one", "two", "simplify_cli"):
        (tmp_path / name).write_text("#!/bin/sh\n")
        (tmp_path / name).chmod(0o755)
    monkeypatch.setenv("PATH", str(tmp_path))
    monkeypatch.setenv("MUCHIQEN", str(tmp_path / "two"))
    assert find(tmp_path / "one").name == "one"
    assert find().name == "two"
    monkeypatch.delenv("MUCHIQEN")
    assert find().name == "simplify_cli"


def test_a_missing_program_is_named(monkeypatch: pytest.MonkeyPatch, tmp_path: Path) -> None:
    with pytest.raises(errors.ProgramNotFound, match="no_such_program"):
        find("no_such_program")
    monkeypatch.setenv("MUCHIQEN", str(tmp_path / "gone"))
    with pytest.raises(errors.ProgramNotFound, match="gone"):
        Command.at()
    with pytest.raises(errors.ProgramNotFound):
        run(tmp_path / "gone", ["faces", "-"])


MESSAGES = [
    (2, "usage: simplify ..", errors.Usage("simplify ..")),
    (3, "text is not UTF-8 at 5", errors.NotUtf8(5)),
    (3, "text is not JSON at 0", errors.NotJson(0)),
    (4, "not a topology: bad arc index at 77", errors.NotATopology("bad arc index", 77)),
    (5, "outside the profile: off the grid at 9", errors.OutsideProfile("off the grid", 9)),
    (6, "too large: depth at 64", errors.TooLarge("depth", 64)),
    (6, "too large: FILE", errors.TooLarge("FILE")),
    (7, "arc 1 edge 2 meets arc 3 edge 4", errors.ArcsMeet(1, 2, 3, 4)),
    (7, "point 5 lies on arc 6 edge 7", errors.PointOnArc(5, 6, 7)),
    (8, "reading failed", errors.ReadingFailed()),
    (9, "writing failed", errors.WritingFailed()),
    (10, "no memory", errors.NoMemory()),
    (13, "weights take arc 2 position 3 off the grid", errors.WeightsOffGrid(2, 3)),
    (14, "no polygon 1", errors.NoPolygon(1)),
    (15, "not GeoJSON: open ring at 33", errors.NotGeoJson("open ring", 33)),
    (16, "", errors.NoWords()),
    (11, "what", errors.UnknownStatus(11, "what")),
    (7, "what", errors.UnknownStatus(7, "what")),
]


@pytest.mark.parametrize(("status", "note", "wanted"), MESSAGES)
def test_each_message_is_its_exception(status: int, note: str, wanted: errors.CommandError) -> None:
    found = errors.of_status(status, note + "\n")
    assert (type(found), vars(found)) == (type(wanted), vars(wanted))
    again = pickle.loads(pickle.dumps(found))
    assert (type(again), str(again)) == (type(found), str(found))
    if status not in (11, 16) and note != "what":
        assert (found.status, str(found)) == (status, note)


def test_no_of_the_checker_has_its_reason() -> None:
    found = errors.of_status(1, "", "no: chain 3 may not step 0 4\n")
    assert isinstance(found, errors.CheckSaysNo)
    assert found.reason == "chain 3 may not step 0 4"


@pytest.mark.parametrize("status", [8, 9, 10])
def test_a_status_of_a_program_is_raised(program: Callable[[str], Path], status: int) -> None:
    note = {8: "reading failed", 9: "writing failed", 10: "no memory"}[status]
    path = program(f"cat > /dev/null; echo '{note}' >&2; exit {status}")
    with pytest.raises(errors.CommandError) as caught:
        Command.at(path).simplify(ONE_ARC, 1)
    assert caught.value.status == status


def test_a_killed_program_is_named(program: Callable[[str], Path]) -> None:
    with pytest.raises(errors.ProgramKilled, match="SIGKILL"):
        Command.at(program("kill -9 $$")).simplify(ONE_ARC, 1)


def test_simplify_takes_the_straight_way(command: Command) -> None:
    wanted = b'{"type":"Topology","objects":{},"arcs":[[[0,0],[3,0]]]}'
    assert command.simplify(ONE_ARC, 1) == wanted
    certificate = command.layers(ONE_ARC, 1)
    assert certificate == (
        b'{"bound":1,"chains":[{"arc":0,"from":0,"kept":[0,3],"layers":[1,1,1,0]}],"version":1}'
    )
    assert command.check(ONE_ARC, wanted, certificate, 1) == "yes"
    with pytest.raises(errors.CheckSaysNo, match="no: bound"):
        command.check(ONE_ARC, wanted, certificate, 2)
    with pytest.raises(errors.CheckSaysNo, match="text differs at 48"):
        command.check(ONE_ARC, ONE_ARC, certificate, 1)


def test_faces_give_numbers(command: Command) -> None:
    text = (
        b'{"type":"Topology","objects":{"a":{"type":"Polygon","arcs":[[0]]},'
        b'"t":{"type":"MultiPoint","coordinates":[[1,1],[9,9]]}},'
        b'"arcs":[[[0,0],[4,0],[4,4],[0,4],[0,0]]]}'
    )
    assert command.faces(text) == [[0], []]


def refusals() -> list[tuple[bytes, errors.CommandError]]:
    """Texts and what the command has to say of them, by the README's table."""
    deep = b"[" * 65 + b"]" * 65
    return [
        (b'{"a":"\xff"}', errors.NotUtf8(6)),
        (b'{"type":"Topology",}', errors.NotJson(19)),
        (b'{"type":"Topology","arcs":[]}', errors.NotATopology("missing member", 0)),
        (
            b'{"type":"Topology","objects":{},"arcs":[[[0,0],[1.5,0]]]}',
            errors.OutsideProfile("not whole", 48),
        ),
        (deep, errors.TooLarge("depth", 64)),
        (CROSS, errors.ArcsMeet(0, 0, 1, 0)),
        (TOWN_ON_ARC, errors.PointOnArc(0, 0, 0)),
    ]


@pytest.mark.parametrize(("text", "wanted"), refusals())
def test_refusals_have_their_parts(
    command: Command, text: bytes, wanted: errors.CommandError
) -> None:
    with pytest.raises(type(wanted)) as caught:
        command.simplify(text, 1)
    assert vars(caught.value) == vars(wanted)


def test_hold_takes_what_meets(command: Command) -> None:
    assert command.simplify(CROSS, 1, hold=True) == CROSS
    assert command.simplify(TOWN_ON_ARC, 1, hold=True) == TOWN_ON_ARC


def test_weights_off_the_grid(command: Command) -> None:
    text = b'{"type":"Topology","objects":{},"arcs":[[[0,0],[536870912,0]]]}'
    with pytest.raises(errors.WeightsOffGrid) as caught:
        command.simplify(text, 1, weights=(2, 1))
    assert vars(caught.value) == {"arc": 0, "position": 1}


def test_reading_fails_and_words_are_no_form(command: Command) -> None:
    with pytest.raises(errors.ReadingFailed):
        run(command.program, ["faces", "/no/such/file"])
    with pytest.raises(errors.Usage):
        run(command.program, ["simplify", "-1", "-"])


@pytest.mark.parametrize("bound", [-1, 2**30 + 1, 1.5, True])
def test_bounds_are_whole_and_on_the_grid(command: Command, bound: int) -> None:
    with pytest.raises(errors.BadTolerance):
        command.simplify(ONE_ARC, bound)


@pytest.mark.parametrize("weights", [(0, 1), (1, 65537), (1.5, 1), (1,), 3])
def test_weights_are_two_whole_numbers(command: Command, weights: tuple[int, int]) -> None:
    with pytest.raises(errors.BadWeights):
        command.simplify(ONE_ARC, 1, weights=weights)


def test_build_where_it_is_there(command: Command) -> None:
    if not command.has_build():
        pytest.skip("the program has no form build")
    triangle = b'{"type":"Polygon","coordinates":[[[0,0],[4,0],[2,3],[0,0]]]}'
    assert b'"arcs":[[[0,0],[4,0],[2,3],[0,0]]]' in command.build(triangle)
    with pytest.raises(errors.NotGeoJson) as caught:
        command.build(b'{"type":"Polygon","coordinates":[[[0,0],[4,0],[2,3],[1,1]]]}')
    assert vars(caught.value) == {"kind": "open ring", "at": 33}
