#!/usr/bin/env python3
"""Times the command on made maps, alone or beside other programs with the same words.

    python3 bench/measure.py PROGRAM.. [--only WORD] [--repeat N] [--keep FOLDER]
                             [--map FILE BOUND]..

Each PROGRAM is a built command. Each map is simplified, certified, checked and asked for its
faces by each program, one program after the other. A line has for each program its processor
seconds (the least of N runs) and its peak memory (memory below that of this script shows as
that). The maps are those of `make` at four sizes, those of `bench/inputs.py` (with `--only
WORD` the maps whose name has the word), and each FILE that is given.

Answers that must agree are compared: what the programs write has to be the same bytes, the
certificate has to check `yes`, and the faces before and after have to be equal."""

from __future__ import annotations

import argparse
import os
import pathlib
import subprocess
import sys
import tempfile
from typing import NamedTuple

import inputs

SIZES = (12, 40, 70, 100)
SEED = "7"
MADE_BOUND = "3"
INPUT_BOUNDS = {
    "lattice": ("187500",),
    "named": ("187500",),
    "points": ("0",),
    "diagonals": ("0",),
    "long": ("0", "40", "200"),
    "slant": ("20", "40", "60", "100"),
    "nested-500": ("100",),
    "nested-1000": ("100",),
    "nested-2000": ("100",),
    "zigzag-250000": ("20",),
    "zigzag-1000000": ("20",),
    "hub-5000": ("1",),
    "hub-20000": ("1",),
    "hub-bent": ("1000",),
    "lines-200": ("50",),
    "lines-800": ("50",),
    "scattered": ("0",),
}


class Ended(NamedTuple):
    """How a run ended: its status, processor seconds and peak memory in MB."""

    status: int
    seconds: float
    memory: float


class Case(NamedTuple):
    """A map and the bound to thin it with."""

    name: str
    path: pathlib.Path
    bound: str


def run(words: list[str], out: pathlib.Path) -> Ended:
    """Runs the command into the file."""
    with out.open("wb") as target:
        child = subprocess.Popen(words, stdout=target)
        _, status, usage = os.wait4(child.pid, 0)
    seconds = usage.ru_utime + usage.ru_stime
    return Ended(os.waitstatus_to_exitcode(status), seconds, usage.ru_maxrss / 1024)


def best(words: list[str], out: pathlib.Path, repeat: int) -> Ended:
    """The least seconds and the most memory of some runs, each of which has to end well."""
    runs = [run(words, out) for _ in range(repeat)]
    for ended in runs:
        if ended.status != 0:
            sys.exit(f"{' '.join(words)} ended with {ended.status}")
    return Ended(0, min(r.seconds for r in runs), max(r.memory for r in runs))


def forms(case: Case, folder: pathlib.Path) -> list[tuple[str, list[str]]]:
    """The words of each form over the map, and the name of what it writes."""
    path, thin, certificate = str(case.path), folder / "thin", folder / "certificate"
    return [
        ("thin", ["simplify", case.bound, path]),
        ("certificate", ["layers", case.bound, path]),
        ("verdict", ["check", case.bound, path, str(thin), str(certificate)]),
        ("faces", ["faces", path]),
        ("faces_after", ["faces", str(thin)]),
    ]


def measure(programs: list[str], case: Case, repeat: int, folder: pathlib.Path) -> None:
    """Runs all forms of a map by each program, prints a line for each, and compares."""
    for name, words in forms(case, folder):
        cells = []
        for number, program in enumerate(programs):
            out = folder / (name if number == 0 else "other")
            ended = best([program, *words], out, repeat)
            cells.append(f"{ended.seconds:.3f} s {ended.memory:.0f} MB")
            if out.read_bytes() != (folder / name).read_bytes():
                sys.exit(f"{case.name}: {program} writes other bytes for {words[0]}")
        line = " / ".join(cells)
        print(f"{case.name}, bound {case.bound}: {words[0]} {line}", flush=True)
    if (folder / "verdict").read_bytes() != b"yes\n":
        sys.exit(f"{case.name}: the certificate is not accepted")
    if (folder / "faces").read_bytes() != (folder / "faces_after").read_bytes():
        sys.exit(f"{case.name}: a point changed its polygons")


def cases(program: str, only: str, maps: list[list[str]], folder: pathlib.Path) -> list[Case]:
    """The maps whose name has the word, each written to the folder, and those given."""
    found = []
    for size in SIZES:
        name = f"made-{size}"
        if only in name:
            path = folder / f"{name}.json"
            best([program, "make", str(size), str(size), SEED], path, 1)
            found.append(Case(name, path, MADE_BOUND))
    for name, bounds in INPUT_BOUNDS.items():
        if only in name:
            path = folder / f"{name}.json"
            path.write_text(inputs.INPUTS[name](), encoding="utf-8")
            found.extend(Case(name, path, bound) for bound in bounds)
    for given, bound in maps:
        found.append(Case(pathlib.Path(given).name, pathlib.Path(given), bound))
    return found


def main() -> None:
    """Times the programs that the words name."""
    words = argparse.ArgumentParser(description=__doc__.splitlines()[0])
    words.add_argument("programs", nargs="+", metavar="PROGRAM")
    words.add_argument("--only", default="made", help="maps whose name has this word")
    words.add_argument("--repeat", type=int, default=3, help="runs of each form")
    words.add_argument("--map", nargs=2, action="append", default=[])
    words.add_argument("--keep", help="a folder for what is written")
    options = words.parse_args()
    programs = [str(pathlib.Path(program).resolve()) for program in options.programs]
    with tempfile.TemporaryDirectory() as made:
        folder = pathlib.Path(options.keep or made).resolve()
        folder.mkdir(parents=True, exist_ok=True)
        for case in cases(programs[0], options.only, options.map, folder):
            measure(programs, case, options.repeat, folder)


if __name__ == "__main__":
    main()
