"""The page: what it holds, and what a browser shows."""

import re
from collections.abc import Iterator
from pathlib import Path

import browser
import pytest
from conftest import TOP

from muchiqen import errors
from muchiqen.command import Command
from muchiqen.viewer import names, view_page

BOUND = 150


@pytest.fixture(scope="module")
def texts(command: Command) -> tuple[bytes, bytes, bytes]:
    """The map of the examples before and after, with the certificate."""
    text = (TOP / "examples" / "lakeland.json").read_bytes()
    return text, command.simplify(text, BOUND), command.layers(text, BOUND)


def test_the_page_names_no_other_host(texts: tuple[bytes, bytes, bytes]) -> None:
    page = view_page(*texts)
    assert not re.search(r"https?://|src=|href=|@import|url\(", page)
    assert '"bound":150' in page


def test_names_of_polygons() -> None:
    objects = {
        "a": {
            "type": "GeometryCollection",
            "geometries": [
                {"type": "Polygon", "properties": {"name": "North"}, "arcs": []},
                {"type": "Polygon", "id": 7, "arcs": []},
                {"type": "Point", "coordinates": [0, 0]},
                {"type": "MultiPolygon", "arcs": []},
            ],
        }
    }
    assert names(objects) == ["North", "7", "2"]


def test_a_name_cannot_end_the_script(command: Command) -> None:
    text = (
        b'{"type":"Topology","objects":{"a":{"type":"Polygon","properties":'
        b'{"name":"</script><b>"},"arcs":[[0]]}},"arcs":[[[0,0],[4,0],[2,3],[0,0]]]}'
    )
    assert view_page(text, command.simplify(text, 0)).count("</script>") == 1


def test_texts_that_do_not_belong_together_are_refused(texts: tuple[bytes, bytes, bytes]) -> None:
    text, out, _ = texts
    with pytest.raises(errors.NotConfirmed):
        view_page(out, text)
    with pytest.raises(errors.NotConfirmed):
        view_page(text, b'{"type":"Topology","objects":{},"arcs":[]}')


@pytest.fixture(scope="module")
def page(
    texts: tuple[bytes, bytes, bytes], tmp_path_factory: pytest.TempPathFactory
) -> Iterator[browser.Page]:
    """The page in a headless browser; skipped where there is none."""
    program = browser.find()
    if program is None:
        pytest.skip("no chromium")
    path: Path = tmp_path_factory.mktemp("view") / "view.html"
    path.write_text(view_page(*texts, title="Lakeland"), encoding="utf-8")
    try:
        shown = browser.Page(program, path.as_uri())
    except RuntimeError as error:
        pytest.skip(f"chromium does not start here: {error}")
    yield shown
    shown.close()


SLIDE = """(value => {
  const slider = document.getElementById("slider");
  slider.value = value;
  slider.dispatchEvent(new Event("input"));
})"""


def test_the_slider_changes_the_counts(page: browser.Page) -> None:
    # 212 positions before and 39 after, as the worked session of the examples says.
    counts = "document.getElementById('counts').textContent"
    assert page.value("document.title") == "Lakeland"
    assert page.value(counts).startswith("39 of 212 vertices, 12 arcs, 0 held, 4 polygons, 7 towns")
    page.value(f"{SLIDE}(0)")
    assert page.value(counts).startswith("212 of 212 vertices")
    page.value(f"{SLIDE}(1)")
    assert page.value(counts).startswith("39 of 212 vertices")


def test_the_chain_under_the_pointer_is_shown(page: browser.Page) -> None:
    # The first arc is a chain of 17 vertices, of which 0, 6 and 16 are kept.
    x, y = page.value("toScreen(...position(arcs[0], 6, 1))")
    page.move(x, y + 2)
    shown = page.value("document.getElementById('chain').textContent")
    assert shown.splitlines() == [
        "arc 0: Westmark",
        "chain 0 from vertex 0, 17 vertices",
        "kept 0 6 16",
        "layers 2 2 2 2 2 2 1 1 1 1 1 1 1 1 1 1 0",
    ]
    page.move(*page.value("toScreen(...data.points[0])"))
    assert page.value("document.getElementById('chain').textContent") == "Point at a border."


def test_pan_and_zoom(page: browser.Page) -> None:
    before = page.value("[view.x, view.y, view.zoom]")
    page.drag((700, 500), (600, 450))
    after = page.value("[view.x, view.y, view.zoom]")
    ratio = page.value("ratio")
    assert after[0] - before[0] == pytest.approx(100 / (before[2] * ratio))
    assert after[1] - before[1] == pytest.approx(-50 / before[2])
    page.wheel(500, 400, -500)
    page.value("0")
    assert page.value("view.zoom") == pytest.approx(before[2] * 2.718281828, rel=1e-6)


def test_nothing_failed_and_nothing_was_asked_of_a_host(page: browser.Page) -> None:
    assert page.faults == []
    assert [name for name in page.requests if not name.startswith("file:")] == []
