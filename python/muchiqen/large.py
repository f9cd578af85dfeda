"""``simplify_large``: maps past the limits of one run, in tiles and rounds."""

from collections.abc import Callable
from dataclasses import dataclass, field
from typing import Any

import geopandas as gpd
import numpy as np

from . import grid as grids
from .command import MOST_POSITIONS, Command, Weights
from .errors import NotConfirmed
from .grid import Grid
from .report import Measures
from .thin import Program, Source, Work, prepare
from .tiles import CutOut, Snapshot, Task, Tile, Tiling, take_round, towns_in
from .topology import Topology
from .workers import Answer, Pool, pool_for

_MOST_IN_TILE = int(MOST_POSITIONS * 0.95)

Progress = Callable[[int, int], object]
"""Is told the positions that are done and all of them."""


@dataclass
class LargeReport(Measures):
    """What ``simplify_large`` did.

    ``confirmed`` is the number of tiles to which the checker said yes. ``held`` are numbers of
    arcs, of cut arcs where a part is held; they are known where tiles are certified. ``memory`` is
    for each worker the most bytes that it and its largest program had, ``processor`` is seconds.
    """

    tiles: int = 0
    rounds: int = 0
    cuts: int = 0
    confirmed: int = 0
    held: list[int] = field(default_factory=list)
    notes: list[str] = field(default_factory=list)
    processor: float = 0.0
    memory: dict[int, tuple[int, int]] = field(default_factory=dict)

    def lines(self) -> list[str]:
        """Give the report as lines."""
        lines = [
            *self.measured(),
            f"{self.tiles} tiles in {self.rounds} rounds, {self.cuts} cuts of long arcs, "
            f"{self.confirmed} tiles confirmed by the checker",
            f"{len(self.held)} arcs held",
        ]
        return lines + [f"note: {note}" for note in self.notes]

    def __str__(self) -> str:
        return "\n".join(self.lines())


@dataclass
class ThinnedLarge:
    """A thinned map: its topology before and after, its rows, and what was done.

    ``frame`` is made where it is first asked.
    """

    before: Topology
    after: Topology
    report: LargeReport
    work: Work
    _frame: gpd.GeoDataFrame | None = None

    @property
    def frame(self) -> gpd.GeoDataFrame:
        """The rows with their attributes, in the CRS of the map that came."""
        if self._frame is None:
            self._frame = self.work.rows_of(self.after)
        return self._frame


def simplify_large(
    coverage: Source,
    tolerance: float,
    client: Any = None,
    *,
    towns: gpd.GeoDataFrame | gpd.GeoSeries | None = None,
    grid: float | Grid | None = None,
    weights: Weights | None = None,
    certify: bool = True,
    workers: int | None = None,
    tile_positions: int = 100_000,
    crs: Any = None,
    program: Program = None,
    progress: Progress | None = None,
) -> ThinnedLarge:
    """Thin a map of any size in tiles.

    ``coverage``, ``tolerance``, ``towns``, ``grid``, ``weights`` and ``crs`` are those of
    ``simplify``; arcs that meet wrongly are held. ``client`` is a Dask ``Client``, or None for a
    local cluster of ``workers``, or ``"processes"`` for a pool of processes without Dask; scripts
    that start either need the usual ``if __name__ == "__main__":``. A tile owns some
    ``tile_positions`` positions. With ``certify`` each tile is certified and the checker has to
    say yes. The result is the same for any number of workers.

    Raises what ``simplify`` raises, and WorkerLost where a tile's worker dies each time.
    """
    tolerance = grids.checked_tolerance(tolerance)
    command = Command.at(program)
    work = prepare(coverage, tolerance, towns, grid=grid, weights=weights, crs=crs, command=command)
    plain = work.topology.without_repeats()
    report = LargeReport(
        arcs=plain.arc_count,
        positions_before=len(work.topology.places),
        positions_after=0,
        bound=work.bound,
        step=plain.grid.step,
        weights=work.weights,
        largest_move=max(work.moved),
        notes=list(work.notes),
    )
    run = _Run(Tiling(plain, tile_positions), work, str(command.program), certify, report)
    with pool_for(client, workers) as pool:
        run.all_rounds(pool, progress)
    places, starts = run.tiling.result()
    report.positions_after = len(places)
    report.cuts = run.tiling.cut_arcs
    report.held = sorted(set(report.held))
    return ThinnedLarge(work.topology, work.topology.with_arcs(places, starts), report, work)


class _Run:
    """The rounds of one call."""

    def __init__(
        self, tiling: Tiling, work: Work, program: str, certify: bool, report: LargeReport
    ) -> None:
        self.tiling = tiling
        self._work, self._program, self._certify = work, program, certify
        self._report = report
        self._done = 0

    def all_rounds(self, pool: Pool, progress: Progress | None) -> None:
        waiting = self.tiling.tiles
        while waiting:
            snapshot = self.tiling.snapshot()
            taken, waiting = take_round(waiting)
            tasks, cuts, more = self._tasks(snapshot, taken)
            waiting = waiting + more
            for answer in pool.run(tasks):
                self._take(answer, snapshot, cuts[answer.tile])
                if progress is not None:
                    progress(self._done, len(self.tiling.places))
            self._report.rounds += 1

    def _tasks(
        self, snapshot: Snapshot, tiles: list[Tile]
    ) -> tuple[list[Task], dict[int, CutOut], list[Tile]]:
        tasks, cuts, more = [], {}, []
        for tile in tiles:
            cut = snapshot.cut_out(tile)
            points = len(cut.fixed()) + len(towns_in(self.tiling.towns, tile.box))
            if max(len(cut.at), points) > _MOST_IN_TILE:
                more += self.tiling.parts_of(tile)
                continue
            number = self._report.tiles
            self._report.tiles += 1
            cuts[number] = cut
            tasks.append(self._task(number, snapshot, tile, cut))
        return tasks, cuts, more

    def _task(self, number: int, snapshot: Snapshot, tile: Tile, cut: CutOut) -> Task:
        towns = towns_in(self.tiling.towns, tile.box)
        points = np.concatenate((towns, snapshot.places[cut.fixed()]))
        return Task(
            tile=number,
            owned=cut.owned,
            places=snapshot.places[cut.at].astype(np.int32),
            starts=cut.starts,
            points=points.astype(np.int32),
            bound=self._work.bound,
            weights=self._work.weights,
            certify=self._certify,
            program=self._program,
        )

    def _take(self, answer: Answer, snapshot: Snapshot, cut: CutOut) -> None:
        own = snapshot.alive[cut.own_at()]
        if len(own) != len(answer.kept):
            raise NotConfirmed(f"tile {answer.tile} came back with other arcs")
        self.tiling.drop(own[~answer.kept])
        self._done += len(own)
        report = self._report
        report.confirmed += answer.verdict == "yes"
        report.held += [self.tiling.arc_of_range(int(cut.ranges[arc])) for arc in answer.held]
        report.processor += answer.processor
        seen = report.memory.get(answer.worker, (0, 0))
        report.memory[answer.worker] = (
            max(seen[0], answer.memory[0]),
            max(seen[1], answer.memory[1]),
        )
