#!/usr/bin/env python3
"""Writes a large made map to standard output, always the same for one name.

    python3 bench/inputs.py NAME > MAP.json

lattice       1.04 million positions in 28 MB: 240 by 240 cells whose borders wiggle
named         the same with names in each cell and 1.05 million points, 63 MB
points        one arc of 1,024 positions with 600,000 points beside it
diagonals     300,000 long edges side by side
long          1,000 chains of 1,023 edges that wiggle by 40 either way
slant         50 chains of 1,023 edges at 45 degrees that wiggle by 20 on each axis
nested-N      N rings of 200 positions round one middle, as contours are (500, 1000, 2000)
zigzag-N      one arc of N positions to and fro (250000, 1000000)
hub-N         N arcs of one edge that meet in one place (5000, 20000)
hub-bent      5,000 arcs of 19 edges that meet in one place
lines-N       N long wiggling lines, slightly aslant, with towns between them (200, 800)
scattered     a lattice of 120 by 120 cells, each polygon some 24 cells from all over it
"""

from __future__ import annotations

import functools
import math
import random
import sys
from collections.abc import Callable, Iterator

Position = tuple[int, int]
Arc = list[Position]

# The cells of the lattice across and up, the vertices of a side, and how far apart.
CELLS, SIDE, STEP, WIGGLE = 240, 8, 500_000, 480_000
CELL = SIDE * STEP
LOW = -(CELLS * CELL // 2)


def spelled(position: Position) -> str:
    """The position as JSON."""
    return f"[{position[0]},{position[1]}]"


def listed(positions: list[Position]) -> str:
    """The positions as a JSON list."""
    return "[" + ",".join(map(spelled, positions)) + "]"


def topology(objects: str, arcs: Iterator[Arc] | list[Arc]) -> str:
    """A topology of these objects and arcs, without a transform."""
    lines = ",".join(listed(arc) for arc in arcs)
    return f'{{"type":"Topology","objects":{{{objects}}},"arcs":[{lines}]}}'


def multi_point(positions: list[Position]) -> str:
    """The object `towns`."""
    return f'"towns":{{"type":"MultiPoint","coordinates":{listed(positions)}}}'


def shifts() -> Iterator[int]:
    """How far the vertices of the lattice stand from their line, one after the other."""
    state = 7
    while True:
        state = (state * 1103515245 + 12345) % 2**31
        yield (state >> 8) % (2 * WIGGLE + 1) - WIGGLE


def lattice_arcs() -> tuple[list[Arc], list[Position]]:
    """The sides of all cells, first those across, and a point close to each of these."""
    shift = shifts()
    arcs: list[Arc] = []
    towns: list[Position] = []
    for row in range(CELLS + 1):
        for column in range(CELLS):
            x, y = LOW + CELL * column, LOW + CELL * row
            inner = [(x + STEP * k, y + next(shift)) for k in range(1, SIDE)]
            towns.append((inner[3][0], inner[3][1] + 1))
            arcs.append([(x, y), *inner, (x + CELL, y)])
    for row in range(CELLS):
        for column in range(CELLS + 1):
            x, y = LOW + CELL * column, LOW + CELL * row
            inner = [(x + next(shift), y + STEP * k) for k in range(1, SIDE)]
            arcs.append([(x, y), *inner, (x, y + CELL)])
    return arcs, towns


def cell(row: int, column: int, pad: int) -> str:
    """The polygon of a cell, with a name of so many letters where that is not 0."""
    across = row * CELLS + column
    up = (CELLS + 1) * CELLS + row * (CELLS + 1) + column
    ring = f"[{across},{up + 1},{-(across + CELLS) - 1},{-up - 1}]"
    name = f"cell \\u00e9 [{row},{column}] ".ljust(pad, "x")
    properties = f'"properties":{{"name":"{name}"}},' if pad else ""
    return f'{{"type":"Polygon",{properties}"arcs":[{ring}]}}'


def cells(pad: int) -> str:
    """The object `cells`."""
    drawn = (cell(row, column, pad) for row in range(CELLS) for column in range(CELLS))
    return f'"cells":{{"type":"GeometryCollection","geometries":[{",".join(drawn)}]}}'


def spread(count: int) -> Iterator[Position]:
    """Points all over the lattice, none so close to a side that it could be on it."""
    state = 12345

    def off_side(at: int, offset: int) -> int:
        near = WIGGLE + 1
        if near < at % CELL < CELL - near:
            return at
        return at - at % CELL + CELL // 2 + offset % STEP

    for _ in range(count):
        state = (state * 6364136223846793005 + 1442695040888963407) % 2**64
        x = (state >> 33) % (CELLS * CELL)
        state = (state * 6364136223846793005 + 1442695040888963407) % 2**64
        y = (state >> 33) % (CELLS * CELL)
        yield LOW + off_side(x, state >> 20), LOW + off_side(y, state >> 25)


def lattice(extra: int = 0, pad: int = 0) -> str:
    """The lattice with so many points more, and names of so many letters."""
    arcs, towns = lattice_arcs()
    towns.extend(spread(extra))
    return topology(f"{cells(pad)},{multi_point(towns)}", arcs)


def named() -> str:
    """The lattice with names and over a million points."""
    return lattice(990_000, 200)


def points() -> str:
    """One straight arc, and points in rows above it."""
    towns = [(1 + t % 1022, 1 + t // 1022) for t in range(600_000)]
    return topology(multi_point(towns), [[(k, 0) for k in range(1024)]])


def diagonals() -> str:
    """Arcs of one edge each, side by side and each shorter than the one before."""
    count = 300_000
    return topology("", ([(0, k), (2 * count - k, k)] for k in range(count)))


def long() -> str:
    """Long chains one above the other."""

    def arcs() -> Iterator[Arc]:
        state = 5
        for k in range(1000):
            arc: Arc = []
            for i in range(1024):
                state = (state * 1103515245 + 12345) % 2**31
                arc.append((i * 16, k * 82 + (state >> 8) % 81))
            yield arc

    return topology("", arcs())


def slant() -> str:
    """Long chains at 45 degrees, one beside the other."""
    rolls = random.Random(5)

    def wiggle() -> int:
        return rolls.randint(-20, 20)

    def arc(k: int) -> Arc:
        return [(i * 60 + wiggle() - k * 400, i * 60 + wiggle() + k * 400) for i in range(1024)]

    return topology("", (arc(k) for k in range(50)))


def on_circle(part: float, radius: float) -> Position:
    """The place on a circle after so large a part of its turn."""
    turn = part * 2 * math.pi
    return int(radius * math.cos(turn)), int(radius * math.sin(turn))


def nested(count: int) -> str:
    """Closed arcs one round the other, far apart beside a bound of 100."""
    turns = [*range(199), 0]
    rings = ([on_circle(at / 199, 20_000 * (ring + 1)) for at in turns] for ring in range(count))
    return topology("", rings)


def zigzag(count: int) -> str:
    """One arc to and fro between two lines, which are 10 apart."""
    return topology("", [[(at, at % 2 * 10) for at in range(count)]])


def hub(count: int) -> str:
    """Arcs of one edge from one place to all sides."""
    return topology("", ([(0, 0), on_circle(at / count, 1e8)] for at in range(count)))


def hub_bent() -> str:
    """Arcs of twenty positions from one place to all sides."""
    count, steps = 5000, range(2, 21)
    arcs = ([(0, 0), *(on_circle(at / count, 1e7 * k) for k in steps)] for at in range(count))
    return topology("", arcs)


def lines(count: int) -> str:
    """Long lines one above the other, a town over each tenth vertex."""
    rolls = random.Random(4)

    def line(k: int) -> Arc:
        return [(at * 500, k * 5000 + rolls.randint(-30, 30) + at * 7) for at in range(1000)]

    above = [
        (at * 500 + 3, k * 5000 + 60 + at * 7) for k in range(count) for at in range(0, 1000, 10)
    ]
    return topology(multi_point(above), (line(k) for k in range(count)))


def scattered() -> str:
    """A lattice whose polygons are cells from all over it, with a town in each cell."""
    size, step, group = 120, 1000, 24

    def side(x: int, y: int, across: int) -> Arc:
        start = (x * step, y * step)
        return [start, (start[0] + across * step, start[1] + (1 - across) * step)]

    arcs = [side(x, y, 1) for y in range(size + 1) for x in range(size)]
    arcs += [side(x, y, 0) for y in range(size) for x in range(size + 1)]
    places = [(row, column) for row in range(size) for column in range(size)]
    random.Random(8).shuffle(places)

    def ring(row: int, column: int) -> str:
        across = row * size + column
        up = (size + 1) * size + row * (size + 1) + column
        return f"[[{across},{up + 1},{-(across + size) - 1},{-up - 1}]]"

    groups = [places[at : at + group] for at in range(0, len(places), group)]
    parts = (",".join(ring(*place) for place in members) for members in groups)
    drawn = ",".join(f'{{"type":"MultiPolygon","arcs":[{part}]}}' for part in parts)
    third = step // 3
    towns = [(x * step + third, y * step + third) for y in range(size) for x in range(size)]
    grouped = f'"groups":{{"type":"GeometryCollection","geometries":[{drawn}]}}'
    return topology(f"{grouped},{multi_point(towns)}", arcs)


INPUTS: dict[str, Callable[[], str]] = {
    "lattice": lattice,
    "named": named,
    "points": points,
    "diagonals": diagonals,
    "long": long,
    "slant": slant,
    "hub-bent": hub_bent,
    "scattered": scattered,
    **{f"nested-{n}": functools.partial(nested, n) for n in (500, 1000, 2000)},
    **{f"zigzag-{n}": functools.partial(zigzag, n) for n in (250_000, 1_000_000)},
    **{f"hub-{n}": functools.partial(hub, n) for n in (5000, 20_000)},
    **{f"lines-{n}": functools.partial(lines, n) for n in (200, 800)},
}


def main(words: list[str]) -> None:
    """Writes the map that the word names."""
    if len(words) != 1 or words[0] not in INPUTS:
        sys.exit(__doc__)
    sys.stdout.write(INPUTS[words[0]]())


if __name__ == "__main__":
    main(sys.argv[1:])
