#!/usr/bin/env python3
"""Times the Python package beside the command that it drives.

    /usr/bin/python3 bench/measure_package.py frames MAP TOLERANCE [MAP TOLERANCE]..
    /usr/bin/python3 bench/measure_package.py large CELLS [--by processes|dask] [--workers N..]

`frames` reads each TopoJSON MAP, makes it a GeoDataFrame in degrees (with its points as towns) and
calls `muchiqen.simplify`. A line has the processor seconds, user and system, of the command's
`simplify` alone, of all runs of the command in the call, and of the call besides, each the least
of some calls, and what the whole call takes beside all runs of the command, and beside `simplify`.

`large` makes a map of CELLS by CELLS cells, as `make` does (820 gives 12,117,960 positions), and
thins it by `muchiqen.simplify_large` with each number of workers, each time in a process of its
own. A line has the wall seconds, the processor seconds of the calling process and of the workers
with their commands, and the peak memory of a worker, of a command and of the calling process. What
is written has to be the same bytes each time.

The command is looked for as the package does: MUCHIQEN, PATH, this repository."""

from __future__ import annotations

import argparse
import hashlib
import json
import pathlib
import resource
import subprocess
import sys
import time
import warnings

import numpy as np

sys.path.insert(0, str(pathlib.Path(__file__).resolve().parents[1] / "python"))

import geopandas as gpd

import muchiqen
from muchiqen.command import Command
from muchiqen.frames import frame_of
from muchiqen.topology import PositionList, Topology, read, starts_of

CELL, INNER, SEED = 64, 7, 7


def used(who: int) -> float:
    """Processor seconds of this process or of its children that have ended."""
    usage = resource.getrusage(who)
    return usage.ru_utime + usage.ru_stime


def peak(who: int) -> int:
    """The most memory of this process or of a child that has ended, in MB."""
    return resource.getrusage(who).ru_maxrss // 1024


# Frames.


def towns_of(topology: Topology) -> gpd.GeoDataFrame | None:
    """The points of a map, None where it has none."""
    places = topology.grid.unsnap(topology.points())
    if not len(places):
        return None
    points = gpd.points_from_xy(places[:, 0], places[:, 1])
    return gpd.GeoDataFrame(geometry=points, crs="EPSG:4326")


def measure_frame(path: pathlib.Path, tolerance: float, repeat: int) -> None:
    """Prints the line of one map."""
    topology, command = read(path.read_bytes()), Command.at()
    frame, towns = frame_of(topology, crs="EPSG:4326"), towns_of(topology)
    own, runs, alone = [], [], []
    for _ in range(repeat + 1):
        thinned = None  # what the call before gave is freed before the clock starts
        before = used(resource.RUSAGE_SELF), used(resource.RUSAGE_CHILDREN)
        thinned = muchiqen.simplify(frame, tolerance, towns, program=command)
        own.append(used(resource.RUSAGE_SELF) - before[0])
        runs.append(used(resource.RUSAGE_CHILDREN) - before[1])
        start = used(resource.RUSAGE_CHILDREN)
        report = thinned.report
        hold = bool(report.held)
        command.simplify(thinned.source, report.bound, hold=hold, weights=report.weights)
        alone.append(used(resource.RUSAGE_CHILDREN) - start)
    best = [min(seconds[1:]) for seconds in (alone, runs, own)]
    print(
        f"{path.name}: {len(frame)} rows, {report.positions_before} positions, "
        f"{0 if towns is None else len(towns)} towns, arcs by {report.built_by}: "
        f"simplify alone {best[0]:.3f} s, all runs {best[1]:.3f} s, besides {best[2]:.3f} s, "
        f"the call is {(best[1] + best[2]) / best[1]:.2f} times all runs, "
        f"{(best[1] + best[2]) / best[0]:.1f} times simplify",
        flush=True,
    )


# Large maps.


def shifts(count: int) -> np.ndarray:
    """The numbers by which the inner vertices of `make` are shifted."""
    state, found = SEED, []
    for _ in range(65_536):
        state = (75 * state + 74) % 65_537
        found.append(state % 15 - 7)
    return np.resize(np.array(found, dtype=np.int64), count)


def made(cells: int) -> Topology:
    """The map of `make CELLS CELLS 7`, of any size."""
    across = (cells + 1) * cells
    order = np.arange(across)
    corners = [np.column_stack((order % cells, order // cells)) * CELL]
    corners.append(np.column_stack((order % (cells + 1), order // (cells + 1))) * CELL)
    steps = np.arange(INNER + 2) * (CELL // (INNER + 1))
    shift = np.zeros((2 * across, INNER + 2), dtype=np.int64)
    shift[:, 1:-1] = shifts(2 * across * INNER).reshape(-1, INNER)
    places = np.empty((2 * across, INNER + 2, 2), dtype=np.int64)
    for half, axis in ((slice(0, across), 0), (slice(across, None), 1)):
        places[half, :, axis] = corners[axis][:, axis, None] + steps
        places[half, :, 1 - axis] = corners[axis][:, 1 - axis, None] + shift[half]
    towns = corners[0] + np.column_stack((np.full(across, CELL // 2), shift[:across, 4] + 1))
    members = {"type": "Topology", "objects": {"cells": cells_of(cells), "towns": points(towns)}}
    flat = places.reshape(-1, 2)
    return Topology(flat, starts_of(np.full(2 * across, INNER + 2)), members)


def cells_of(cells: int) -> dict[str, object]:
    """The polygons of the cells, by rows."""
    up, geometries = (cells + 1) * cells, []
    for row in range(cells):
        for column in range(cells):
            low, left = row * cells + column, up + row * (cells + 1) + column
            ring = [low, left + 1, -(low + cells) - 1, -left - 1]
            geometries.append({"type": "Polygon", "arcs": [ring]})
    return {"type": "GeometryCollection", "geometries": geometries}


def points(towns: np.ndarray) -> dict[str, object]:
    """The towns."""
    return {"type": "MultiPoint", "coordinates": PositionList(towns)}


def one_run(cells: int, by: str, workers: int, bound: int) -> None:
    """Thins the map and prints what it took, as JSON."""
    topology = made(cells)
    before, start = used(resource.RUSAGE_SELF), time.monotonic()
    client = "processes" if by == "processes" else None
    thinned = muchiqen.simplify_large(topology, bound, client, workers=workers)
    report = thinned.report
    took = {
        "wall": time.monotonic() - start,
        "own": used(resource.RUSAGE_SELF) - before,
        "workers": report.processor,
        "worker_memory": max(own for own, _ in report.memory.values()) // 2**20,
        "command_memory": max(command for _, command in report.memory.values()) // 2**20,
        "own_memory": peak(resource.RUSAGE_SELF),
        "left": report.positions_after,
        "tiles": report.tiles,
        "rounds": report.rounds,
        "confirmed": report.confirmed,
    }
    took["bytes"] = hashlib.sha256(thinned.after.text()).hexdigest()
    print(json.dumps(took))


def measure_large(cells: int, by: str, workers: list[int], bound: int) -> None:
    """Prints a line for each number of workers."""
    positions = 2 * (cells + 1) * cells * (INNER + 2)
    print(f"{positions:,} positions, bound {bound}, by {by}", flush=True)
    seen = set()
    for count in workers:
        words = [sys.executable, __file__, "one", str(cells), by, str(count), str(bound)]
        done = subprocess.run(words, capture_output=True, text=True, check=False)
        if done.returncode != 0:
            sys.exit(f"with {count} workers: {done.stderr[-2000:]}")
        took = json.loads(done.stdout.splitlines()[-1])
        seen.add(took["bytes"])
        print(
            f"{count} workers: wall {took['wall']:.1f} s; processor {took['own']:.1f} s here, "
            f"{took['workers']:.1f} s by workers; memory {took['own_memory']} MB here, "
            f"{took['worker_memory']} MB a worker, {took['command_memory']} MB a command; "
            f"{took['left']:,} left, {took['confirmed']} of {took['tiles']} tiles confirmed, "
            f"{took['rounds']} rounds",
            flush=True,
        )
    if len(seen) > 1:
        sys.exit("other bytes with other numbers of workers")


def main() -> None:
    """Times what the words name."""
    warnings.filterwarnings("ignore")
    words = argparse.ArgumentParser(description=__doc__.splitlines()[0])
    forms = words.add_subparsers(dest="form", required=True)
    frames = forms.add_parser("frames", help="simplify on frames in degrees")
    frames.add_argument("maps", nargs="+", metavar="MAP TOLERANCE")
    frames.add_argument("--repeat", type=int, default=3, help="calls of which the best counts")
    large = forms.add_parser("large", help="simplify_large on a made map")
    large.add_argument("cells", type=int)
    large.add_argument("--by", choices=("processes", "dask"), default="processes")
    large.add_argument("--workers", type=int, nargs="+", default=[1, 2, 4])
    large.add_argument("--bound", type=int, default=5)
    one = forms.add_parser("one", help="one run of large, as JSON")
    for name, kind in (("cells", int), ("by", str), ("workers", int), ("bound", int)):
        one.add_argument(name, type=kind)
    options = words.parse_args()
    if options.form == "frames":
        pairs = zip(options.maps[::2], options.maps[1::2], strict=True)
        for path, tolerance in pairs:
            measure_frame(pathlib.Path(path), float(tolerance), options.repeat)
    elif options.form == "large":
        measure_large(options.cells, options.by, options.workers, options.bound)
    else:
        one_run(options.cells, options.by, options.workers, options.bound)


if __name__ == "__main__":
    main()
