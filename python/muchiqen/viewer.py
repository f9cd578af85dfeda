"""One HTML page with a map before and after, and nothing from another host."""

import json
from importlib import resources
from typing import Any

from .errors import NotConfirmed
from .pictures import change
from .topology import Topology, polygons, read
from .workers import kept_positions

_MARK = "/*DATA*/null"


def view_page(
    text: bytes, out: bytes, certificate: bytes | None = None, title: str = "Muchiqen"
) -> str:
    """Give the page for a text, what ``simplify`` made of it, and the certificate.

    Raises NotConfirmed where ``out`` has not the arcs of ``text`` with positions left out.
    """
    before, after = read(text).without_repeats(), read(out).without_repeats()
    if before.arc_count != after.arc_count:
        raise NotConfirmed(f"{after.arc_count} arcs where {before.arc_count} were")
    kept = kept_positions(before.places, before.starts, after.places, after.starts)
    data = {
        "title": title,
        "scale": before.grid.scale,
        "translate": before.grid.translate,
        "arcs": _split(before.places.ravel().tolist(), (2 * before.starts).tolist()),
        "kept": _split(kept.astype(int).tolist(), before.starts.tolist()),
        "polygons": list(polygons(before.objects)),
        "names": names(before.objects),
        "points": before.points().tolist(),
        "certificate": None if certificate is None else json.loads(certificate),
        "largest": _largest(before, after),
    }
    page = resources.files(__package__).joinpath("view.html").read_text(encoding="utf-8")
    shown = json.dumps(data, separators=(",", ":"), ensure_ascii=False).replace("</", "<\\/")
    return page.replace(_MARK, shown, 1)


def _split(values: list[Any], starts: list[int]) -> list[list[Any]]:
    return [values[a:b] for a, b in zip(starts, starts[1:], strict=False)]


def names(objects: dict[str, Any]) -> list[str]:
    """Give a name for each polygon: its ``name``, else its ``id``, else its number."""
    found: list[str] = []
    stack = list(reversed(objects.values()))
    while stack:
        geometry = stack.pop()
        if geometry["type"] == "GeometryCollection":
            stack.extend(reversed(geometry["geometries"]))
        elif geometry["type"] in ("Polygon", "MultiPolygon"):
            properties = geometry.get("properties") or {}
            name = properties.get("name", geometry.get("id", len(found)))
            found.append(str(name))
    return found


def _largest(before: Topology, after: Topology) -> float:
    """Give the largest distance of a dropped vertex from the edge that skips it, in grid steps."""
    most = 0.0
    for arc in range(before.arc_count):
        found = change(before.arc(arc).astype(float), after.arc(arc).astype(float)).distances
        most = max(most, float(found.max())) if len(found) else most
    return most
