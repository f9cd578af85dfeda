"""Takes shapely's polygons apart and makes them, all at once, by one WKB text.

Shapely 1.8 has no calls over arrays. A collection of geometries is one geometry, so that one call
writes, reads or judges thousands; headers are taken ring by ring, positions never.
"""

from collections.abc import Iterator, Sequence
from ctypes import c_void_p
from dataclasses import dataclass
from itertools import repeat
from operator import attrgetter
from struct import Struct
from typing import Any

import numpy as np
import numpy.typing as npt
import shapely
from shapely import wkb
from shapely.geometry import MultiPolygon, Polygon

from .grid import Coordinates
from .topology import Integers, starts_of

Flags = npt.NDArray[np.bool_]
Objects = npt.NDArray[np.object_]

_VECTORS = int(shapely.__version__.split(".")[0]) >= 2
_POLYGON, _MULTI, _COLLECTION = 3, 6, 7

if not _VECTORS:
    from shapely.geometry.base import geom_factory
    from shapely.geos import lgeos

    _is_valid_by_geos = lgeos.GEOSisValid


@dataclass(frozen=True)
class Layout:
    """Which rings are of which row.

    Row r has the parts ``parts[r]`` to ``parts[r + 1]``, part p the rings ``rings[p]`` to
    ``rings[p + 1]``, the outer one first. ``multi`` says which rows are multipolygons.
    """

    parts: Integers
    rings: Integers
    multi: Flags

    @property
    def row_count(self) -> int:
        """The number of rows."""
        return len(self.parts) - 1

    @property
    def ring_starts(self) -> Integers:
        """For each row the number of its first ring, and at last the number of all rings."""
        return self.rings[self.parts]

    @property
    def row_of_rings(self) -> Integers:
        """For each ring the number of its row."""
        return np.repeat(np.arange(self.row_count), np.diff(self.ring_starts))

    @property
    def is_outer(self) -> Flags:
        """For each ring, whether it is the first of its part."""
        outer = np.zeros(int(self.rings[-1]), dtype=bool)
        outer[self.rings[:-1][np.diff(self.rings) > 0]] = True
        return outer

    def with_holes(self, gone: Flags) -> Flags:
        """Add to some rings all rings of the parts whose outer ring is among them."""
        count = len(self.rings) - 1
        part = np.repeat(np.arange(count), np.diff(self.rings))
        whole = np.bincount(part[gone & self.is_outer], minlength=count) > 0
        return np.asarray(gone | whole[part])

    def without(self, gone: Flags) -> "Layout":
        """Give the layout without some rings, and without each part whose outer ring goes.

        All rings of such a part have to be among ``gone``.
        """
        left = np.diff(starts_of(~gone)[self.rings])
        stays = left > 0
        parts = starts_of(stays)[self.parts]
        return Layout(parts, starts_of(left[stays]), self.multi)


@dataclass(frozen=True)
class Parted:
    """Rings of polygons: ring r has the positions ``starts[r]`` to ``starts[r + 1]``, closed."""

    coordinates: Coordinates
    starts: Integers
    layout: Layout
    has_height: Flags


def take_apart(geometries: Sequence[Any]) -> Parted:
    """Give the rings of polygons and multipolygons; None has no part. Heights are dropped."""
    there = np.array([geometry is not None for geometry in geometries], dtype=bool)
    if not there.any():
        return _none_of(len(there))
    scan = _Scan(_written([g for g in geometries if g is not None]))
    parts = np.zeros(len(there), dtype=np.int64)
    parts[there] = scan.parts
    multi, high = np.zeros((2, len(there)), dtype=bool)
    multi[there], high[there] = scan.multi, scan.high
    layout = Layout(starts_of(parts), starts_of(scan.rings), multi)
    return Parted(np.asfortranarray(scan.coordinates()), starts_of(scan.sizes), layout, high)


def _none_of(count: int) -> Parted:
    none = np.zeros(1, dtype=np.int64)
    no = np.zeros(count, dtype=bool)
    layout = Layout(np.zeros(count + 1, dtype=np.int64), none, no)
    return Parted(np.empty((0, 2)), none, layout, no)


_TWO, _ONE = Struct("<II").unpack_from, Struct("<I").unpack_from
_HEADER, _SIZE = Struct("<BII").pack, Struct("<I").pack


class _Scan:
    """Reads the headers of a collection of polygons and multipolygons."""

    def __init__(self, text: bytes) -> None:
        self._text = text
        self._firsts: list[int] = []
        self.rings: list[int] = []
        self.sizes: list[int] = []
        heads = self._heads()
        self.multi = heads[:, 0] & 0xFF == _MULTI
        self.high = heads[:, 0] > 0xFF
        self.parts = np.where(self.multi, heads[:, 1], heads[:, 1] > 0)

    def _heads(self) -> Integers:
        """Go through the text; give the kind of each geometry, and how many members it has."""
        text, found, at = self._text, [], 9
        for _ in range(_ONE(text, 5)[0]):
            head = _TWO(text, at + 1)
            found.append(head)
            if head[0] & 0xFF == _MULTI:
                at = self._take_parts(at + 9, head[1])
            else:
                at = self._take_parts(at, 1) if head[1] else at + 9
        return np.array(found, dtype=np.int64)

    def _take_parts(self, at: int, count: int) -> int:
        text, firsts, sizes, rings = self._text, self._firsts, self.sizes, self.rings
        for _ in range(count):
            code, inner = _TWO(text, at + 1)
            stride = 24 if code > 0xFF else 16
            rings.append(inner)
            at += 9
            for _ in range(inner):
                (size,) = _ONE(text, at)
                firsts.append(at + 4)
                sizes.append(size)
                at += 4 + stride * size
        return at

    def coordinates(self) -> Coordinates:
        """Give all positions of all rings."""
        text, ends = self._text, zip(self._firsts, self.sizes, strict=True)
        if self.high.any():
            return self._without_heights()
        rows = b"".join([text[at : at + 16 * size] for at, size in ends])
        return np.frombuffer(rows, dtype="<f8").reshape(-1, 2)

    def _without_heights(self) -> Coordinates:
        high = np.repeat(self.high, self.parts)
        strides = np.repeat(np.where(high, 24, 16), self.rings).tolist()
        spans = zip(self._firsts, self.sizes, strides, strict=True)
        pieces = [_flat(self._text[at : at + size * stride], stride) for at, size, stride in spans]
        return np.concatenate(pieces) if pieces else np.empty((0, 2))


def _flat(rows: bytes, stride: int) -> Coordinates:
    return np.frombuffer(rows, dtype="<f8").reshape(-1, stride // 8)[:, :2]


def put_together(coordinates: Coordinates, starts: Integers, layout: Layout) -> Objects:
    """Give the polygons of closed rings, one a row; a row without a part is an empty one.

    Rings have four positions or more.
    """
    rows = np.empty(layout.row_count, dtype=object)
    parts = _part_bodies(coordinates, starts, layout)
    cuts = layout.parts.tolist()
    empty = np.diff(layout.parts) == 0
    single = np.flatnonzero(~layout.multi & ~empty)
    multi = np.flatnonzero(layout.multi & ~empty)
    if len(single):
        rows[single] = _read(_MULTI, [parts[cuts[row]] for row in single.tolist()])
    if len(multi):
        rows[multi] = _read(_COLLECTION, [_multi(parts, cuts, row) for row in multi.tolist()])
    for row in np.flatnonzero(empty).tolist():
        rows[row] = MultiPolygon() if layout.multi[row] else Polygon()
    return rows


def _multi(parts: list[bytes], cuts: list[int], row: int) -> bytes:
    """Give the WKB of a multipolygon."""
    low, high = cuts[row], cuts[row + 1]
    return _header(_MULTI, high - low) + b"".join(parts[low:high])


def _part_bodies(coordinates: Coordinates, starts: Integers, layout: Layout) -> list[bytes]:
    """Give the WKB of each part."""
    text = np.ascontiguousarray(coordinates, dtype="<f8").tobytes()
    cuts, ends = starts.tolist(), layout.rings.tolist()
    rings = [
        _SIZE(b - a) + text[16 * a : 16 * b] for a, b in zip(cuts, cuts[1:], strict=False)
    ]
    return [
        _header(_POLYGON, b - a) + (rings[a] if b - a == 1 else b"".join(rings[a:b]))
        for a, b in zip(ends, ends[1:], strict=False)
    ]


def are_valid(geometries: Objects) -> Flags:
    """Tell which geometries shapely finds valid; None and empty ones are."""
    if _VECTORS:
        return np.asarray(shapely.is_valid(geometries) | shapely.is_missing(geometries))
    handles = [None if geometry is None else geometry.__geom__ for geometry in geometries]
    there = np.array([handle is not None for handle in handles], dtype=bool)
    valid = np.ones(len(geometries), dtype=bool)
    valid[there] = [bool(_is_valid_by_geos(handle)) for handle in handles if handle is not None]
    return valid


def _header(kind: int, count: int) -> bytes:
    return _HEADER(1, kind, count)


def points_of(points: Sequence[Any]) -> Coordinates | None:
    """Give the coordinates of points; None where one is empty or has a height."""
    if not len(points):
        return np.empty((0, 2))
    text = _written(points)
    if len(text) != 9 + 21 * len(points):
        return None
    rows = np.frombuffer(text, dtype=np.uint8, offset=9).reshape(-1, 21)[:, 5:]
    return np.ascontiguousarray(rows).view("<f8").reshape(-1, 2)


def _read(kind: int, bodies: list[bytes]) -> Objects:
    """Give the members of a collection."""
    whole = wkb.loads(_header(kind, len(bodies)) + b"".join(bodies))
    if _VECTORS:
        return np.asarray(shapely.get_parts(whole), dtype=object)
    made = _members(whole, Polygon if kind == _MULTI else MultiPolygon, len(bodies))
    return np.fromiter(made, dtype=object, count=len(bodies))


def _members(whole: Any, kind: Any, count: int) -> Iterator[Any]:
    """Give the members of a collection, all of one kind, none empty, as ``whole.geoms`` does.

    Shapely 1.8 sets each attribute of each member by a call; here they are set at once.
    """
    common = {"__p__": whole.geoms, "_other_owned": True, "_is_empty": False, "_ndim": 2}
    handle, new = whole._geom, kind.__new__
    for member in map(lgeos.GEOSGetGeometryN, repeat(handle), range(count)):
        made = new(kind)
        made.__dict__.update(common, __geom__=member)
        yield made


def _written(geometries: Sequence[Any]) -> bytes:
    """Give the WKB of a collection of these geometries, little end first."""
    if _VECTORS:
        whole = shapely.geometrycollections(geometries)
        text: bytes = shapely.to_wkb(whole, byte_order=1, output_dimension=3)
        return text
    return bytes(wkb.dumps(_collection(geometries), output_dimension=3, big_endian=False))


def _collection(geometries: Sequence[Any]) -> Any:
    """Give a collection of copies. GEOS copies; shapely's own constructor takes twice as long."""
    copies = list(map(lgeos.GEOSGeom_clone, map(attrgetter("__geom__"), geometries)))
    handles = (c_void_p * len(copies))(*copies)
    return geom_factory(lgeos.GEOSGeom_createCollection(_COLLECTION, handles, len(copies)))
