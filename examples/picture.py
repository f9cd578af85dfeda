#!/usr/bin/env python3
"""Draws a map before and after it is thinned, side by side, as one SVG.

    python3 examples/picture.py BEFORE AFTER > PICTURE.svg

BEFORE and AFTER are topologies (TopoJSON 1.0) on one grid, as `simplify` reads and writes them. Each
polygon is filled, each position of an arc is a dot, each feature point is a ring with its name. On the
right the borders of BEFORE stand in grey under those of AFTER.
"""

from __future__ import annotations

import html
import json
import pathlib
import sys
from typing import Any, NamedTuple

Position = tuple[int, int]

PANEL = 430
GAP = 24
HEAD = 34
MARGIN = 14
FILLS = ("#f3dfc1", "#d9e7cb", "#ead3dc", "#bcd9ec", "#e6e0f0", "#f0ead0")
INK, GREY, TOWN = "#3b3a36", "#a9a49a", "#a33b2e"


class Town(NamedTuple):
    """A feature point and its name, which may be empty."""

    at: Position
    name: str


class Shape(NamedTuple):
    """A polygon by its rings, each a list of arc references."""

    rings: list[list[int]]


class Topology(NamedTuple):
    """What is drawn of a text."""

    arcs: list[list[Position]]
    shapes: list[Shape]
    towns: list[Town]


class View(NamedTuple):
    """How grid units become units of the picture: y runs up on the grid and down on the picture."""

    west: int
    north: int
    scale: float
    left: float

    def place(self, at: Position) -> str:
        """The position as `x,y` of the picture."""
        x, y = self.spot(at)
        return f"{x:.1f},{y:.1f}"

    def spot(self, at: Position) -> tuple[float, float]:
        """The position in units of the picture."""
        x = self.left + MARGIN + (at[0] - self.west) * self.scale
        y = HEAD + MARGIN + (self.north - at[1]) * self.scale
        return x, y


def absolute(arc: list[list[int]], coded: bool) -> list[Position]:
    """The positions of an arc, which are differences after the first where the map has a transform."""
    positions: list[Position] = []
    for x, y in arc:
        if coded and positions:
            x, y = x + positions[-1][0], y + positions[-1][1]
        positions.append((x, y))
    return positions


def gather(geometry: dict[str, Any], shapes: list[Shape], towns: list[Town]) -> None:
    """Adds the polygons and points of a geometry, and of those that it holds."""
    name = str((geometry.get("properties") or {}).get("name", ""))
    match geometry["type"]:
        case "GeometryCollection":
            for inner in geometry["geometries"]:
                gather(inner, shapes, towns)
        case "Polygon":
            shapes.append(Shape(geometry["arcs"]))
        case "MultiPolygon":
            shapes.append(Shape([ring for rings in geometry["arcs"] for ring in rings]))
        case "Point":
            x, y = geometry["coordinates"]
            towns.append(Town((x, y), name))
        case "MultiPoint":
            towns.extend(Town((x, y), "") for x, y in geometry["coordinates"])


def read(path: str) -> Topology:
    """The topology of a text."""
    text = json.loads(pathlib.Path(path).read_text(encoding="utf-8"))
    coded = text.get("transform") is not None
    shapes: list[Shape] = []
    towns: list[Town] = []
    for geometry in text["objects"].values():
        gather(geometry, shapes, towns)
    return Topology([absolute(arc, coded) for arc in text["arcs"]], shapes, towns)


def line(arc: list[Position], view: View) -> str:
    """An arc as the points of a polyline."""
    return " ".join(view.place(at) for at in arc)


def ring_path(ring: list[int], topology: Topology, view: View) -> str:
    """A ring as a closed path."""
    places: list[str] = []
    for index in ring:
        arc = topology.arcs[index] if index >= 0 else topology.arcs[~index][::-1]
        places.extend(view.place(at) for at in arc[1 if places else 0 :])
    return "M" + " L".join(places) + " Z"


def fills(topology: Topology, view: View) -> list[str]:
    """The polygons, each in its colour."""
    drawn = []
    for number, shape in enumerate(topology.shapes):
        path = " ".join(ring_path(ring, topology, view) for ring in shape.rings)
        colour = FILLS[number % len(FILLS)]
        drawn.append(f'<path d="{path}" fill="{colour}" fill-rule="evenodd"/>')
    return drawn


def borders(topology: Topology, view: View, colour: str, width: float) -> list[str]:
    """The arcs as lines."""
    style = f'fill="none" stroke="{colour}" stroke-width="{width}" stroke-linejoin="round"'
    return [f'<polyline points="{line(arc, view)}" {style}/>' for arc in topology.arcs]


def dots(topology: Topology, view: View) -> list[str]:
    """The positions of the arcs, each place once."""
    drawn = []
    for at in sorted({at for arc in topology.arcs for at in arc}):
        x, y = view.spot(at)
        drawn.append(f'<circle cx="{x:.1f}" cy="{y:.1f}" r="1.7" fill="{INK}"/>')
    return drawn


def towns(topology: Topology, view: View) -> list[str]:
    """The feature points with their names."""
    drawn = []
    for town in topology.towns:
        x, y = view.spot(town.at)
        drawn.append(
            f'<circle cx="{x:.1f}" cy="{y:.1f}" r="3" fill="#fff" stroke="{TOWN}" '
            'stroke-width="1.6"/>'
        )
        if town.name:
            drawn.append(
                f'<text x="{x:.1f}" y="{y - 6:.1f}" font-size="10" '
                f'text-anchor="middle">{html.escape(town.name)}</text>'
            )
    return drawn


def caption(topology: Topology, what: str, left: float) -> str:
    """The line above a panel."""
    count = sum(len(arc) for arc in topology.arcs)
    text = f"{what}: {count} positions"
    return f'<text x="{left + MARGIN}" y="{HEAD - 8}" font-size="14">{text}</text>'


def picture(before: Topology, after: Topology) -> str:
    """Both maps side by side."""
    places = [at for arc in before.arcs for at in arc]
    xs, ys = [x for x, _ in places], [y for _, y in places]
    scale = (PANEL - 2 * MARGIN) / (max(xs) - min(xs))
    width = 2 * PANEL + GAP
    height = HEAD + 2 * MARGIN + round((max(ys) - min(ys)) * scale)
    first = View(min(xs), max(ys), scale, 0)
    second = View(min(xs), max(ys), scale, PANEL + GAP)
    return "\n".join(
        [
            f'<svg xmlns="http://www.w3.org/2000/svg" viewBox="0 0 {width} {height}" '
            f'width="{width}" height="{height}" font-family="sans-serif" fill="{INK}">',
            "<title>A map before and after it is thinned</title>",
            f'<rect width="{width}" height="{height}" fill="#fffdf8"/>',
            caption(before, "before", first.left),
            *fills(before, first),
            *borders(before, first, INK, 1),
            *dots(before, first),
            *towns(before, first),
            caption(after, "after", second.left),
            *fills(after, second),
            *borders(before, second, GREY, 0.8),
            *borders(after, second, INK, 1.2),
            *dots(after, second),
            *towns(after, second),
            "</svg>",
        ]
    )


def main(words: list[str]) -> None:
    """Draws the two maps that the words name."""
    if len(words) != 2:
        sys.exit(__doc__)
    print(picture(read(words[0]), read(words[1])))


if __name__ == "__main__":
    main(sys.argv[1:])
