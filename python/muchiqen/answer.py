"""Reads what the command's ``build`` answers: arcs, and the rows by the arcs that they name."""

import re
from collections.abc import Sequence
from typing import Any

import numpy as np

from .coverage import row_texts
from .frames import parts_of, rows_of
from .shapes import Layout
from .topology import LongList, Named, Topology, read, read_arcs, starts_of, whole_numbers

Made = tuple[Topology, Named, Sequence[dict[str, Any]]]
"""The arcs, what the rows that have parts name, and all rows as geometries of TopoJSON."""

_HEAD = b'{"type":"Topology","objects":{"features":{"type":"GeometryCollection","geometries":['
_ARCS = b']}},"arcs":'
_RING = re.compile(rb"\[-?\d+(?:,-?\d+)*\]")


def read_answer(text: bytes, layout: Layout) -> Made:
    """Read the answer for rows of this layout.

    Raises NotUtf8, NotJson or NotATopology.
    """
    return _read_as_laid(text, layout) or _read_as_json(text)


def _read_as_laid(text: bytes, layout: Layout) -> Made | None:
    """Read it without making its rows one by one.

    None where they are not spelled as ``row_texts`` spells rows of this layout, byte for byte.
    """
    end = text.find(_ARCS)
    rows, arcs = text[len(_HEAD) : end], text[end + len(_ARCS) : -1]
    if end < 0 or not text.startswith(_HEAD) or not text.endswith(b"]}") or b'"' in arcs:
        return None
    rings = _RING.findall(rows)
    if len(rings) != layout.rings[-1] or _spelled(rings, layout) != rows:
        return None
    ring_starts = starts_of([ring.count(b",") + 1 for ring in rings])
    there = np.append(np.diff(layout.parts) > 0, True)
    named = Named(whole_numbers(b",".join(rings)), ring_starts, layout.rings, layout.parts[there])
    places, starts = read_arcs(arcs, end + len(_ARCS))
    return Topology(places, starts), named, LongList(b"[" + rows + b"]")


def _spelled(rings: list[bytes], layout: Layout) -> bytes:
    return b",".join(row_texts(rings, layout, b"arcs", b'{"type":null}'))


def _read_as_json(text: bytes) -> Made:
    topology = read(text)
    geometries = rows_of(topology.objects["features"])
    shapes = (parts_of(geometry) for geometry in geometries)
    return topology, Named.of([parts for parts in shapes if parts is not None]), geometries
