"""The command line: ``python -m muchiqen simplify ..`` and ``python -m muchiqen view ..``."""

import argparse
import json
import sys
from collections.abc import Sequence
from pathlib import Path
from typing import Any

import geopandas as gpd

from .errors import MuchiqenError, NotATopology, NotRead
from .files import is_topology, read_frame, write_bytes, write_frame
from .large import ThinnedLarge, simplify_large
from .thin import Source, Thinned, simplify
from .topology import Topology
from .viewer import view_page

_LARGE = 500_000


def main(arguments: Sequence[str] | None = None) -> int:
    """Run the command line; give 0, or 1 where a MuchiqenError was printed."""
    options = _parser().parse_args(arguments)
    try:
        options.call(options)
    except MuchiqenError as error:
        print(f"muchiqen: {type(error).__name__}: {error}", file=sys.stderr)
        return 1
    return 0


def _parser() -> argparse.ArgumentParser:
    parser = argparse.ArgumentParser(prog="muchiqen", description=__doc__)
    forms = parser.add_subparsers(required=True, metavar="FORM")
    thin = forms.add_parser("simplify", help="thin the borders of a map that GDAL reads")
    thin.set_defaults(call=_simplify)
    thin.add_argument("input", help="shapefile, GeoPackage, GeoJSON, TopoJSON ..")
    thin.add_argument("output", help="the format is that of its ending")
    thin.add_argument("--tolerance", type=float, required=True, help="in the units of the CRS")
    thin.add_argument("--layer", help="the layer of INPUT to read")
    thin.add_argument("--crs", help="the CRS of a TopoJSON text, such as EPSG:4326")
    thin.add_argument("--towns", help="a file of points that stay in their polygons")
    thin.add_argument("--grid", type=float, help="the grid step in the units of the CRS")
    thin.add_argument("--weights", type=int, nargs=2, metavar=("WX", "WY"))
    thin.add_argument("--no-hold", action="store_true", help="refuse borders that meet wrongly")
    thin.add_argument("--certificate", help="write the certificate, after the checker said yes")
    thin.add_argument("--picture", help="write a picture, PNG or SVG")
    thin.add_argument("--view", help="write a page to look at before and after")
    thin.add_argument("--workers", type=int, help="thin in tiles with so many processes")
    thin.add_argument("--program", help="the program simplify_cli")
    thin.add_argument("--quiet", action="store_true", help="no report and no progress bar")
    view = forms.add_parser("view", help="make a page of a TopoJSON text before and after")
    view.set_defaults(call=_view)
    view.add_argument("file", help="the TopoJSON text before")
    view.add_argument("out", help="what simplify made of it")
    view.add_argument("certificate", nargs="?", help="the certificate of the run")
    view.add_argument("-o", "--output", required=True, help="the page")
    return parser


def _simplify(options: argparse.Namespace) -> None:
    bar = _Bar(options.quiet)
    source = _source(options)
    towns = read_frame(options.towns) if options.towns else None
    bar.step("read")
    try:
        thinned = _thin(options, source, towns, bar)
    except NotATopology as error:
        if error.kind != "not whole":
            raise
        # A TopoJSON text that is not quantized is read by GDAL, and snapped as any other map.
        thinned = _thin(options, read_frame(options.input, options.layer), towns, bar)
    bar.step("thinned")
    _write(thinned, options)
    bar.close()
    if not options.quiet:
        print(thinned.report)


def _source(options: argparse.Namespace) -> Source:
    if is_topology(options.input):
        return Path(options.input)
    return read_frame(options.input, options.layer)


def _thin(
    options: argparse.Namespace, source: Source, towns: Any, bar: "_Bar"
) -> Thinned | ThinnedLarge:
    shared = {
        "towns": towns,
        "grid": options.grid,
        "weights": tuple(options.weights) if options.weights else None,
        "crs": options.crs,
        "program": options.program,
    }
    wants_one_run = options.certificate or options.picture or options.view or options.no_hold
    if options.workers and not wants_one_run or _is_large(source):
        workers = options.workers or 1
        return simplify_large(
            source, options.tolerance, "processes", workers=workers, progress=bar.tell, **shared
        )
    certify = bool(options.certificate or options.view)
    return simplify(source, options.tolerance, hold=not options.no_hold, certify=certify, **shared)


def _is_large(source: Source) -> bool:
    if isinstance(source, gpd.GeoDataFrame):
        rings = (ring for geometry in source.geometry for ring in _lines(geometry))
        return sum(len(ring.coords) for ring in rings) > _LARGE
    return isinstance(source, Path) and source.stat().st_size > 2**26


def _lines(geometry: Any) -> list[Any]:
    parts = getattr(geometry, "geoms", [geometry]) if geometry is not None else []
    polygons = [part for part in parts if part.geom_type == "Polygon" and not part.is_empty]
    return [ring for part in polygons for ring in (part.exterior, *part.interiors)]


def _write(thinned: Thinned | ThinnedLarge, options: argparse.Namespace) -> None:
    if isinstance(thinned, Thinned):
        if options.certificate:
            write_bytes(options.certificate, thinned.certificate or b"")
        if options.picture:
            from .pictures import picture_of

            picture_of(thinned, options.picture)
        if options.view:
            page = view_page(
                thinned.source, thinned.text, thinned.certificate, Path(options.input).stem
            )
            write_bytes(options.view, page.encode())
    elif options.certificate or options.picture or options.view:
        thinned.report.notes.append("no certificate, picture or page of a map thinned in tiles")
    if _is_topology_name(options.output, options.input):
        write_bytes(options.output, _text_of(thinned))
    else:
        write_frame(thinned.frame, options.output)


def _is_topology_name(output: str, source: str) -> bool:
    ending = Path(output).suffix.lower()
    return ending == ".topojson" or (ending == ".json" and is_topology(source))


def _text_of(thinned: Thinned | ThinnedLarge) -> bytes:
    if isinstance(thinned, ThinnedLarge):
        return with_attributes(thinned.after, thinned.work.frame).text()
    if thinned.report.built_by == "file":
        return thinned.text
    return with_attributes(thinned.after, thinned.frame).text()


def with_attributes(topology: Topology, frame: gpd.GeoDataFrame | None) -> Topology:
    """Give the topology with the attributes of the rows as ``properties``."""
    if frame is None:
        return topology
    columns = frame.drop(columns=frame.geometry.name)
    rows = json.loads(columns.to_json(orient="records", date_format="iso", default_handler=str))
    geometries = [
        {"type": geometry["type"], "properties": row, **geometry}
        for geometry, row in zip(topology.objects["rows"]["geometries"], rows, strict=True)
    ]
    objects = {**topology.objects, "rows": {"type": "GeometryCollection", "geometries": geometries}}
    return Topology(topology.places, topology.starts, {**topology.members, "objects": objects})


def _view(options: argparse.Namespace) -> None:
    files = [options.file, options.out] + ([options.certificate] if options.certificate else [])
    texts = []
    for name in files:
        try:
            texts.append(Path(name).read_bytes())
        except OSError as error:
            raise NotRead(name, str(error.strerror)) from error
    page = view_page(
        texts[0], texts[1], texts[2] if len(texts) > 2 else None, Path(options.file).stem
    )
    write_bytes(options.output, page.encode())


class _Bar:
    """A progress bar, where tqdm is there and somebody looks."""

    def __init__(self, quiet: bool) -> None:
        self._bar: Any = None
        if quiet or not sys.stderr.isatty():
            return
        try:
            from tqdm import tqdm
        except ImportError:
            return
        self._bar = tqdm(total=100, unit="%", bar_format="{desc:12}|{bar}| {n:.0f} %")

    def step(self, what: str) -> None:
        if self._bar is not None:
            self._bar.set_description(what)
            self._bar.n = {"read": 10, "thinned": 90}.get(what, self._bar.n)
            self._bar.refresh()

    def tell(self, done: int, total: int) -> None:
        if self._bar is not None and total:
            self._bar.n = 10 + 80 * done / total
            self._bar.refresh()

    def close(self) -> None:
        if self._bar is not None:
            self._bar.n = 100
            self._bar.refresh()
            self._bar.close()


__all__ = ["main", "with_attributes"]
