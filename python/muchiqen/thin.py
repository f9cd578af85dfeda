"""``simplify`` and ``simplify_topology``: one run of the command, and what it did."""

import json
import math
import os
from dataclasses import dataclass, field
from decimal import ROUND_FLOOR, Decimal
from functools import cached_property
from pathlib import Path
from typing import Any

import geopandas as gpd
import numpy as np
from geopandas.array import GeometryArray
from shapely.geometry import Polygon

from . import build as own_build
from . import coverage as cover
from . import grid as grids
from .answer import Made, read_answer
from .command import (
    MOST_BOUND,
    MOST_BYTES,
    MOST_POSITIONS,
    MOST_RING_POSITIONS,
    Command,
    Weights,
    checked_weights,
)
from .errors import ArcsMeet, BadGrid, NotACoverage, NotConfirmed, NotRead, PointOnArc
from .frames import Shapes, frame_of, polygon_object, polygons_of, rows_of
from .grid import Coordinates, Grid, Places
from .meetings import why_held
from .notes import after_notes, fault_notes, town_notes, with_causes
from .report import Report
from .shapes import Flags, Layout, Objects
from .topology import Integers, Named, PositionList, Topology, read, read_thinned, starts_of
from .towns import towns_of

Program = str | os.PathLike[str] | Command | None
Source = Any
"""A GeoDataFrame, a Topology, or the bytes or the name of a TopoJSON file."""

_MOST_AUTOMATIC_WEIGHT = 64


@dataclass
class ThinnedText:
    """A thinned TopoJSON text, and where it was asked its certificate and the checker's word."""

    text: bytes
    certificate: bytes | None = None
    verdict: str | None = None


@dataclass
class Thinned:
    """A thinned coverage.

    ``frame`` has the rows, the index, the attributes and the CRS of the coverage. ``source`` is
    the TopoJSON text that was thinned and ``text`` what the command made of it; ``before`` and
    ``after`` are the same, read. ``work`` is the coverage as it was made ready, ``certificate`` is
    that of the run, ``words`` are the options and the bound as the command takes them.
    """

    frame: gpd.GeoDataFrame
    report: Report
    source: bytes
    text: bytes
    before: Topology
    after: Topology
    work: "Work"
    certificate: bytes | None = None
    words: list[str] = field(default_factory=list)

    @cached_property
    def towns(self) -> gpd.GeoDataFrame | None:
        """The towns on the grid, None where there are none."""
        return self.work.town_frame()

    @property
    def verdict(self) -> str | None:
        """The checker's word, ``yes``, where it was asked."""
        return self.report.verdict


def simplify_topology(
    text: bytes | str,
    bound: int,
    *,
    hold: bool = False,
    weights: Weights | None = None,
    certify: bool = False,
    program: Program = None,
) -> ThinnedText:
    """Thin a TopoJSON text with whole coordinates.

    ``bound`` is in grid units, 0 to 2^30. With ``certify`` the certificate is made and the checker
    is asked. Raises the CommandError of each refusal.
    """
    command = Command.at(program)
    raw = text.encode() if isinstance(text, str) else text
    out = command.simplify(raw, bound, hold=hold, weights=weights)
    if not certify:
        return ThinnedText(out)
    certificate = command.layers(raw, bound, hold=hold, weights=weights)
    verdict = command.check(raw, out, certificate, bound, hold=hold, weights=weights)
    return ThinnedText(out, certificate, verdict)


def simplify(
    coverage: Source,
    tolerance: float,
    towns: gpd.GeoDataFrame | gpd.GeoSeries | None = None,
    *,
    grid: float | Grid | None = None,
    hold: bool = True,
    weights: Weights | None = None,
    certify: bool = False,
    crs: Any = None,
    program: Program = None,
) -> Thinned:
    """Thin the borders of a coverage within ``tolerance``.

    ``coverage`` is a GeoDataFrame of polygons in any CRS, or a TopoJSON topology: a ``Topology``,
    its bytes, or the name of its file (then ``crs`` is that of its coordinates). ``tolerance`` is
    in the units of the CRS, measured up where across and up count differently: no position of
    the coverage is further from the border that takes its place, its snapping to the grid
    included. ``towns`` (points) stay in their polygons. ``grid`` is a grid step in the CRS's units
    or a Grid. With ``hold`` borders that meet wrongly are left as they are, and the report says
    which and why; without it they are refused. ``weights`` are what lengths across and lengths up
    count; in a geographic CRS they are by default the ratio of a degree across to a degree up at
    the middle latitude. With ``certify`` the certificate is made and the checker is asked.

    Raises BadTolerance, BadGrid, BadWeights, NotACoverage, NotRead, ProgramNotFound,
    ProgramKilled, NotConfirmed and the CommandErrors.
    """
    tolerance = grids.checked_tolerance(tolerance)
    command = Command.at(program)
    work = prepare(coverage, tolerance, towns, grid=grid, weights=weights, crs=crs, command=command)
    parts = work.text_parts()
    source = b"".join(parts)
    out, certificate, held, verdict = _run(command, source, work, hold=hold, certify=certify)
    after = read_thinned(work.topology, parts, out)
    frame = work.rows_of(after)
    meetings = with_causes(why_held(work.topology, held), work) if held else []
    report = Report(
        arcs=work.topology.arc_count,
        positions_before=len(work.topology.places),
        positions_after=len(after.places),
        bound=work.bound,
        step=work.topology.grid.step,
        weights=work.weights,
        largest_move=max(work.moved),
        built_by=work.built_by,
        held=meetings,
        notes=[
            *work.notes,
            *fault_notes(work, tolerance, arranged=not held),
            *after_notes(work, frame),
            *town_notes(work, after),
        ],
        verdict=verdict,
    )
    words = (["--hold"] if hold else []) + (
        [] if work.weights is None else ["--weights", *map(str, work.weights)]
    )
    return Thinned(
        frame,
        report,
        source,
        out,
        work.topology,
        after,
        work=work,
        certificate=certificate,
        words=[*words, str(work.bound)],
    )


def _run(
    command: Command, source: bytes, work: "Work", *, hold: bool, certify: bool
) -> tuple[bytes, bytes | None, list[int], str | None]:
    """Run the command. Held arcs stand in the certificate, which is made only where it is wanted.

    Where nothing meets wrongly the forms with and without ``--hold`` write the same, so the form
    without it is tried first.
    """
    bound, weights = work.bound, work.weights
    if not certify:
        try:
            return command.simplify(source, bound, weights=weights), None, [], None
        except (ArcsMeet, PointOnArc):
            if not hold:
                raise
    out = command.simplify(source, bound, hold=hold, weights=weights)
    certificate = command.layers(source, bound, hold=hold, weights=weights)
    held = json.loads(certificate).get("held", [])
    if not certify:
        return out, None, held, None
    verdict = command.check(source, out, certificate, bound, hold=hold, weights=weights)
    return out, certificate, held, verdict


@dataclass
class Work:
    """A coverage made ready: its topology on the grid, the bound, and what was seen on the way."""

    topology: Topology
    frame: gpd.GeoDataFrame | None
    raw: bytes | None
    crs: Any
    weights: Weights | None
    bound: int
    moved: tuple[float, float]
    built_by: str
    notes: list[str]
    town_labels: list[Any]
    town_coordinates: Coordinates
    rings: cover.Rings | None = None
    layout: Layout | None = None

    def text_parts(self) -> tuple[bytes, bytes, bytes]:
        """Give the text that goes to the command, as ``Topology.text_parts`` does.

        The bytes that came in, where they did, stand in one piece.
        """
        return self.topology.text_parts() if self.raw is None else (self.raw, b"", b"")

    def rows_of(self, topology: Topology) -> gpd.GeoDataFrame:
        """Give the rows of the coverage with their geometry in this topology."""
        if self.frame is None:
            return frame_of(topology, polygon_object(topology), self.crs)
        frame = self.frame.copy()
        made = GeometryArray(self.shapes_of(topology), crs=self.crs)
        frame[frame.geometry.name] = made
        return frame

    def shapes_of(self, topology: Topology, rows: Integers | None = None) -> Objects:
        """Give the geometries of the rows, or of some, in this topology.

        A row that had none has what it had; one of which nothing is left has an empty polygon.
        """
        if self.frame is None or self.layout is None or self.rings is None:
            geometries = rows_of(topology.objects[polygon_object(topology)])
            at = range(len(geometries)) if rows is None else rows.tolist()
            return Shapes(topology).all_of([geometries[row] for row in at])
        at = np.arange(self.layout.row_count) if rows is None else rows
        there = self.on_grid[at]
        number = starts_of(self.on_grid)[at[there]]
        named = topology.named if rows is None else topology.named.some(number)
        made = np.empty(len(at), dtype=object)
        made[there] = polygons_of(topology, named, self.layout.multi[at[there]])
        for row in np.flatnonzero(~there).tolist():
            made[row] = Polygon()
        for row in np.flatnonzero(self.rings.missing[at]).tolist():
            made[row] = self.frame.geometry.iloc[at[row]]
        return made

    @property
    def on_grid(self) -> Flags:
        """The rows of the frame of which there is something on the grid."""
        assert self.layout is not None
        return np.asarray(np.diff(self.layout.parts) > 0)

    @property
    def lost_rings(self) -> bool:
        """Whether a ring of the frame is not on the grid."""
        assert self.layout is not None and self.rings is not None
        return len(self.rings.starts) - 1 != self.layout.rings[-1]

    def town_frame(self) -> gpd.GeoDataFrame | None:
        """Give the towns on the grid; None where there are none."""
        if not len(self.town_coordinates):
            return None
        found = self.topology.grid.unsnap(self.topology.points()[-len(self.town_coordinates) :])
        geometry = gpd.points_from_xy(found[:, 0], found[:, 1])
        return gpd.GeoDataFrame({}, geometry=geometry, index=self.town_labels, crs=self.crs)


def prepare(
    coverage: Source,
    tolerance: float,
    towns: gpd.GeoDataFrame | gpd.GeoSeries | None,
    *,
    grid: float | Grid | None,
    weights: Weights | None,
    crs: Any,
    command: Command,
) -> Work:
    """Make a coverage ready for the command: on the grid, with its topology and its bound."""
    if isinstance(coverage, gpd.GeoDataFrame):
        return _prepare_frame(coverage, tolerance, towns, grid, weights, command)
    raw = _bytes_of(coverage)
    topology = read(raw) if raw is not None else coverage
    assert isinstance(topology, Topology)
    notes = [] if crs is not None else ["no CRS: lengths are those of the coordinates"]
    labels, coordinates = towns_of(towns, crs, notes)
    if towns is not None:
        topology, raw = _with_towns(topology, topology.grid.snap(coordinates)), None
    moved = _moved(topology.grid, coordinates)
    used = _weights_for(topology, weights, crs)
    bound = bound_of(tolerance, moved, topology.grid, used, notes)
    coordinates = coordinates if towns is not None else topology.grid.unsnap(topology.points())
    labels = labels if towns is not None else list(range(len(coordinates)))
    return Work(topology, None, raw, crs, used, bound, moved, "file", notes, labels, coordinates)


def _bytes_of(coverage: Any) -> bytes | None:
    if isinstance(coverage, bytes):
        return coverage
    if isinstance(coverage, (str, os.PathLike)):
        try:
            return Path(coverage).read_bytes()
        except OSError as error:
            raise NotRead(os.fspath(coverage), str(error.strerror)) from error
    if isinstance(coverage, Topology):
        return None
    raise NotACoverage(f"no coverage but a {type(coverage).__name__}", ["-"])


def _moved(grid: Grid, coordinates: Coordinates) -> tuple[float, float]:
    if not len(coordinates):
        return 0.0, 0.0
    moves = grids.extent(grid.moves(coordinates, grid.snap(coordinates)))[1]
    return float(moves[0]), float(moves[1])


def _with_towns(topology: Topology, towns: Places) -> Topology:
    name = "towns"
    while name in topology.objects:
        name += "_"
    objects = {**topology.objects, name: {"type": "MultiPoint", "coordinates": PositionList(towns)}}
    members = {**topology.members, "objects": objects}
    return Topology(topology.places, topology.starts, members, topology.place_of_arcs)


def _prepare_frame(
    frame: gpd.GeoDataFrame,
    tolerance: float,
    towns: gpd.GeoDataFrame | gpd.GeoSeries | None,
    grid: float | Grid | None,
    weights: Weights | None,
    command: Command,
) -> Work:
    rings = cover.rings_of(frame)
    notes = list(rings.notes)
    if frame.crs is None:
        notes.append("no CRS: lengths are those of the coordinates")
    labels, coordinates = towns_of(towns, frame.crs, notes)
    everything = np.concatenate((rings.coordinates, coordinates))
    used = _weights_of_frame(frame, everything, weights)
    chosen = grid_of(grid, everything, tolerance, used)
    snapped = cover.snapped(rings, chosen, list(frame.index))
    notes += snapped.notes
    town_moves = _moved(chosen, coordinates)
    moved = max(snapped.moved[0], town_moves[0]), max(snapped.moved[1], town_moves[1])
    places = chosen.snap(coordinates) if towns is not None else None
    topology, built_by = make_topology(snapped, places, chosen, command)
    bound = bound_of(tolerance, snapped.moved, chosen, used, notes)
    return Work(
        topology,
        frame,
        None,
        frame.crs,
        used,
        bound,
        moved,
        built_by,
        notes,
        labels,
        coordinates,
        rings,
        snapped.layout,
    )


def grid_of(
    grid: float | Grid | None, coordinates: Coordinates, tolerance: float, weights: Weights | None
) -> Grid:
    """Give the grid that was given, the grid of the step that was given, or a chosen one."""
    if isinstance(grid, Grid):
        return grid
    if grid is not None:
        try:
            return Grid((float(grid), float(grid)))
        except (TypeError, ValueError) as error:
            raise BadGrid(f"step {grid!r} is no number above zero") from error
    return grids.choose(coordinates, tolerance, max(weights or (1, 1)))


def make_topology(
    snapped: cover.Snapped, towns: Places | None, grid: Grid, command: Command
) -> tuple[Topology, str]:
    """Make the topology by the command's ``build``, where it has it and the map fits.

    Otherwise the package's own way makes it. Either way the rings are put together again and
    compared: NotConfirmed where one differs.
    """
    made, built_by = _by_command(snapped, command), "build"
    if made is None:
        made, built_by = _by_package(snapped), "muchiqen"
    topology, named, geometries = made
    own_build.confirm(topology, named.references, named.starts, snapped)
    if not np.array_equal(named.rings, snapped.layout.rings):
        raise NotConfirmed("the topology has its rings in other parts")
    objects: dict[str, Any] = {"rows": {"type": "GeometryCollection", "geometries": geometries}}
    points = np.empty((0, 2), dtype=np.int64) if towns is None else towns
    if towns is not None:
        objects["towns"] = {"type": "MultiPoint", "coordinates": PositionList(towns)}
    transform = {"scale": list(grid.scale), "translate": list(grid.translate)}
    members = {"type": "Topology", "transform": transform, "objects": objects}
    whole = Topology(topology.places, topology.starts, members)
    return whole.knowing(named, points), built_by


def _by_command(snapped: cover.Snapped, command: Command) -> Made | None:
    """Towns do not go along: points have no part in what ``build`` makes of rings."""
    fits = len(snapped.places) + len(snapped.starts) <= MOST_RING_POSITIONS
    fits = fits and snapped.layout.row_count < MOST_POSITIONS
    if not fits or not command.has_build():
        return None
    text = cover.geojson(snapped)
    if len(text) > MOST_BYTES:
        return None
    return read_answer(command.build(text), snapped.layout)


def _by_package(snapped: cover.Snapped) -> Made:
    built = own_build.build(snapped.places, snapped.starts)
    layout = snapped.layout
    there = np.append(np.diff(layout.parts) > 0, True)
    named = Named(built.references, built.ring_starts, layout.rings, layout.parts[there])
    rings, ends = built.rings, layout.rings.tolist()
    parts = [rings[a:b] for a, b in zip(ends, ends[1:], strict=False)]
    cuts = layout.parts.tolist()
    geometries = [
        _geometry(parts[a:b], multi)
        for a, b, multi in zip(cuts, cuts[1:], layout.multi.tolist(), strict=False)
    ]
    return Topology(built.places, built.starts), named, geometries


def _geometry(parts: list[list[list[int]]], multi: bool) -> dict[str, Any]:
    if not parts:
        return {"type": None}
    if multi:
        return {"type": "MultiPolygon", "arcs": parts}
    return {"type": "Polygon", "arcs": parts[0]}


def _weights_of_frame(
    frame: gpd.GeoDataFrame, coordinates: Coordinates, weights: Weights | None
) -> Weights | None:
    if weights is not None:
        return _unless_equal(checked_weights(weights))
    if frame.crs is None or not frame.crs.is_geographic or not len(coordinates):
        return None
    middle = (coordinates[:, 1].min() + coordinates[:, 1].max()) / 2
    return weights_by_ratio(degree_ratio(float(middle)), _MOST_AUTOMATIC_WEIGHT)


def _weights_for(topology: Topology, weights: Weights | None, crs: Any) -> Weights | None:
    if weights is not None:
        return _unless_equal(checked_weights(weights))
    if not len(topology.places):
        return None
    grid = topology.grid
    ratio = grid.scale[0] / grid.scale[1]
    if crs is not None and gpd.GeoSeries([], crs=crs).crs.is_geographic:
        ends = np.array([topology.places.min(axis=0), topology.places.max(axis=0)])
        ratio *= degree_ratio(float(grid.unsnap(ends)[:, 1].mean()))
    furthest = max(1, int(np.abs(topology.places).max()))
    return weights_by_ratio(ratio, max(1, min(_MOST_AUTOMATIC_WEIGHT, grids.EDGE // furthest)))


def _unless_equal(weights: Weights) -> Weights | None:
    return None if weights == (1, 1) else weights


def degree_ratio(latitude: float) -> float:
    """Give how much shorter a degree across is than a degree up on a sphere."""
    return max(math.cos(math.radians(latitude)), 1e-3)


def weights_by_ratio(ratio: float, most: int) -> Weights | None:
    """Give the weights up to ``most`` with the least ratio that is at least this one.

    Lengths across then count no less than they are. None stands for equal weights.
    """
    found = [(math.ceil(ratio * up - 1e-9), up) for up in range(1, most + 1)]
    fitting = [pair for pair in found if 1 <= pair[0] <= most]
    if not fitting:
        return None
    across, up = min(fitting, key=lambda pair: (pair[0] / pair[1], pair[1]))
    return _unless_equal((across, up))


def bound_of(
    tolerance: float,
    moved: tuple[float, float],
    grid: Grid,
    weights: Weights | None,
    notes: list[str],
) -> int:
    """Give the bound in grid steps (times the weight up): the tolerance less the largest move."""
    across, up = weights or (1, 1)
    shift = math.hypot(moved[0] * across / up, moved[1])
    room = Decimal(repr(tolerance)) - Decimal(repr(shift)) * Decimal("1.000001")
    steps = (room / Decimal(repr(grid.step)) * up).to_integral_value(rounding=ROUND_FLOOR)
    if steps < 0:
        notes.append(
            f"snapping moves by up to {shift:g}, more than the tolerance: take a finer grid"
        )
        return 0
    if tolerance == 0:
        notes.append("tolerance 0: only positions on the straight way go")
    elif steps < 10:
        notes.append(f"the tolerance is only {steps} grid steps")
    if steps > MOST_BOUND:
        notes.append("the tolerance is wider than the grid")
    return min(int(steps), MOST_BOUND)
