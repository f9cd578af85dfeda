"""From a topology back to GeoDataFrames."""

from typing import Any

import geopandas as gpd
import numpy as np
from geopandas.array import GeometryArray
from shapely.geometry import LineString, MultiLineString, MultiPoint, Point

from .build import ring_positions
from .grid import Coordinates
from .shapes import Flags, Layout, Objects, put_together
from .topology import (
    Integers,
    Named,
    References,
    Topology,
    closed,
    columns_at,
    starts_of,
    walk,
)


def polygons_of(topology: Topology, named: Named, multi: Flags) -> Objects:
    """Give the polygons that name arcs, in the CRS's units; ``multi`` says which have many parts.

    Rings of fewer than four positions, and parts whose outer ring has fewer, are left out.
    """
    at, starts = ring_positions(topology, named.references, named.starts)
    sizes = np.diff(starts)
    layout = Layout(named.parts, named.rings, multi)
    if (sizes < 3).any():
        at, starts, layout = _without_short(at, starts, layout)
        sizes = np.diff(starts)
    coordinates = topology.grid.unsnap(columns_at(topology.places, at[closed(starts)]))
    return put_together(coordinates, starts + np.arange(len(starts)), layout)


def _without_short(
    at: Integers, starts: Integers, layout: Layout
) -> tuple[Integers, Integers, Layout]:
    sizes = np.diff(starts)
    gone = layout.with_holes(sizes < 3)
    return at[np.repeat(~gone, sizes)], starts_of(sizes[~gone]), layout.without(gone)


class Shapes:
    """Makes shapely geometries of the geometries of one topology, in the CRS's units."""

    def __init__(self, topology: Topology) -> None:
        self._topology = topology
        self._grid = topology.grid

    def _line(self, references: References) -> Coordinates:
        numbers = np.array(references, dtype=np.int64)
        ends = np.array([0, len(numbers)])
        at, _ = ring_positions(self._topology, numbers, ends)
        last = [self._topology.arc(number)[-1:] for number in references[-1:]]
        places = np.concatenate([self._topology.places[at], *last])
        return self._grid.unsnap(places)

    def all_of(self, geometries: list[dict[str, Any]]) -> Objects:
        """Give the shapely geometries, None for one of type null or a collection."""
        shapes = [parts_of(geometry) for geometry in geometries]
        named = Named.of([parts or [] for parts in shapes])
        multi = np.array([g["type"] == "MultiPolygon" for g in geometries], dtype=bool)
        made = polygons_of(self._topology, named, multi)
        for row, parts in enumerate(shapes):
            if parts is None:
                made[row] = self._other(geometries[row])
        return made

    def _other(self, geometry: dict[str, Any]) -> Any:
        kind = geometry["type"]
        if kind == "LineString":
            return LineString(self._line(geometry["arcs"]))
        if kind == "MultiLineString":
            return MultiLineString([self._line(line) for line in geometry["arcs"]])
        if kind in ("Point", "MultiPoint"):
            rows = np.array(geometry["coordinates"], dtype=np.int64).reshape(-1, 2)
            found = self._grid.unsnap(rows)
            return Point(found[0]) if kind == "Point" else MultiPoint(found)
        return None


def parts_of(geometry: dict[str, Any]) -> list[list[References]] | None:
    """Give the parts of a polygon or multipolygon, None for another geometry."""
    if geometry["type"] == "Polygon":
        return [geometry["arcs"]]
    if geometry["type"] == "MultiPolygon":
        arcs: list[list[References]] = geometry["arcs"]
        return arcs
    return None


def frame_of(topology: Topology, name: str | None = None, crs: Any = None) -> gpd.GeoDataFrame:
    """Give one object as a GeoDataFrame: a row a geometry, its properties as columns.

    Without a name it is the first object that holds a polygon, else the first.
    """
    chosen = name if name is not None else polygon_object(topology)
    geometries = rows_of(topology.objects[chosen])
    columns: dict[str, list[Any]] = {}
    for at, geometry in enumerate(geometries):
        named = dict(geometry.get("properties") or {})
        if "id" in geometry:
            named.setdefault("id", geometry["id"])
        for key, value in named.items():
            columns.setdefault(key, [None] * len(geometries))[at] = value
    columns.pop("geometry", None)
    made = GeometryArray(Shapes(topology).all_of(geometries), crs=crs)
    return gpd.GeoDataFrame(columns, geometry=gpd.GeoSeries(made), crs=crs)


def rows_of(geometry: dict[str, Any]) -> list[dict[str, Any]]:
    """Give the entries of an object: those of a collection, else the geometry alone."""
    if geometry["type"] == "GeometryCollection":
        entries: list[dict[str, Any]] = geometry["geometries"]
        return entries
    return [geometry]


def polygon_object(topology: Topology) -> str:
    """Give the name of the first object that holds a polygon, else of the first object."""
    for name, geometry in topology.objects.items():
        if any(g["type"] in ("Polygon", "MultiPolygon") for g in walk({name: geometry})):
            return name
    return next(iter(topology.objects))


__all__ = ["Shapes", "frame_of", "parts_of", "polygon_object", "polygons_of", "rows_of"]
