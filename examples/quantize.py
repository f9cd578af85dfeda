#!/usr/bin/env python3
"""Takes a map from degrees to a grid of whole numbers, and back.

    python3 examples/quantize.py MAP.geojson > WHOLE.geojson         # GeoJSON in degrees
    python3 examples/quantize.py --step 0.001 MAP.geojson > WHOLE.geojson
    python3 examples/quantize.py --back 0.001 FILE > DEGREES         # GeoJSON or TopoJSON

The number (i, j) stands for i and j steps of degrees. Without `--step` the step is the greatest power
of ten of which 10,000 go into the longer side of the map. Standard error says which it is and how far
a position moved at most. Heights and `bbox` are left out; all else of the text stays.
"""

from __future__ import annotations

import argparse
import json
import math
import sys
from collections.abc import Callable, Iterator
from fractions import Fraction
from typing import Any

Position = list[float]

STEPS = 10_000
MOST = 2**29


def each_position(value: Any, change: Callable[[Position], Position]) -> Any:
    """The nested list of positions with each of them changed."""
    if value and isinstance(value[0], (int, float)):
        return change(value)
    return [each_position(entry, change) for entry in value]


def changed(value: Any, change: Callable[[Position], Position]) -> Any:
    """The GeoJSON or TopoJSON value with each position of its geometries and arcs changed."""
    if isinstance(value, list):
        return [changed(entry, change) for entry in value]
    if not isinstance(value, dict):
        return value
    places = {"coordinates"} | ({"arcs"} if value.get("type") == "Topology" else set())
    return {
        name: each_position(entry, change)
        if name in places
        else entry
        if name == "properties"
        else changed(entry, change)
        for name, entry in value.items()
        if name != "bbox"
    }


def positions(value: Any) -> Iterator[Position]:
    """Each position of the value."""
    found: list[Position] = []

    def keep(position: Position) -> Position:
        found.append(position)
        return position

    changed(value, keep)
    yield from found


def chosen_step(places: list[Position]) -> Fraction:
    """The greatest power of ten that goes often enough into the longer side."""
    axes = ([place[axis] for place in places] for axis in (0, 1))
    side = max(max(numbers) - min(numbers) for numbers in axes)
    return Fraction(10) ** math.floor(math.log10(side / STEPS)) if side > 0 else Fraction(1)


def to_grid(value: Any, step: Fraction | None) -> tuple[Any, Fraction, float]:
    """The value in whole steps, the step, and how far a position moved at most, in degrees."""
    places = list(positions(value))
    if not places:
        return value, step or Fraction(1), 0.0
    step = step or chosen_step(places)
    if max(abs(number) for place in places for number in place[:2]) / step > MOST:
        sys.exit(f"the map reaches past {MOST} steps of {float(step):g}: take a greater step")
    moved = max(
        abs(float(round(Fraction(number) / step) * step) - number)
        for place in places
        for number in place[:2]
    )
    whole = changed(value, lambda place: [round(Fraction(number) / step) for number in place[:2]])
    return whole, step, moved


def to_degrees(value: Any, step: Fraction) -> Any:
    """The value with each whole number as so many steps."""
    return changed(value, lambda place: [float(number * step) for number in place])


def main() -> None:
    """Reads the file that the words name, and writes it on the grid or in degrees."""
    words = argparse.ArgumentParser(description=__doc__.splitlines()[0])
    words.add_argument("file")
    way = words.add_mutually_exclusive_group()
    way.add_argument("--step", type=Fraction, help="the step in degrees")
    way.add_argument("--back", type=Fraction, metavar="STEP", help="from whole steps to degrees")
    options = words.parse_args()
    with open(options.file, encoding="utf-8") as source:
        value = json.load(source)
    if options.back:
        written = to_degrees(value, options.back)
    else:
        written, step, moved = to_grid(value, options.step)
        print(f"step {float(step):g}, positions moved by {moved:.2g} at most", file=sys.stderr)
    json.dump(written, sys.stdout, ensure_ascii=False, separators=(",", ":"))
    print()


if __name__ == "__main__":
    main()
