"""A topology in memory: its arcs as flat arrays of places, its objects as they stand in a text."""

import json
import re
import warnings
from collections.abc import Iterator, Sequence
from dataclasses import dataclass, field
from functools import cached_property
from itertools import chain, groupby
from typing import Any

import numpy as np
import numpy.typing as npt

from .errors import NotATopology, NotJson, NotUtf8
from .grid import Grid, Places

Integers = npt.NDArray[np.int64]
References = list[int]
"""Arc numbers; ``-i - 1`` is arc i walked backwards."""


@dataclass(frozen=True)
class Named:
    """The arcs that polygons name, in the order of the text, flat.

    Polygon n has the parts ``parts[n]`` to ``parts[n + 1]``, part p the rings ``rings[p]`` to
    ``rings[p + 1]``, ring r the references ``starts[r]`` to ``starts[r + 1]``.
    """

    references: Integers
    starts: Integers
    rings: Integers
    parts: Integers

    @classmethod
    def of(cls, shapes: list[list[list[References]]]) -> "Named":
        """Take the references of polygons, each a list of parts, each a list of rings."""
        parts = list(chain.from_iterable(shapes))
        rings = list(chain.from_iterable(parts))
        references = np.array(list(chain.from_iterable(rings)), dtype=np.int64)
        counts = (starts_of([len(one) for one in many]) for many in (rings, parts, shapes))
        return cls(references, *counts)

    @property
    def count(self) -> int:
        """The number of polygons."""
        return len(self.parts) - 1

    def some(self, polygons: Integers) -> "Named":
        """Give what some of the polygons name."""
        part_counts = np.diff(self.parts)[polygons]
        parts = counted_from(self.parts[polygons], part_counts)
        ring_counts = np.diff(self.rings)[parts]
        rings = counted_from(self.rings[parts], ring_counts)
        counts = np.diff(self.starts)[rings]
        references = self.references[counted_from(self.starts[rings], counts)]
        return Named(references, *map(starts_of, (counts, ring_counts, part_counts)))

    @property
    def arcs(self) -> Integers:
        """The arcs of the references."""
        return np.asarray(np.where(self.references < 0, -self.references - 1, self.references))

    @property
    def part_of_rings(self) -> Integers:
        """For each ring its part."""
        return np.repeat(np.arange(len(self.rings) - 1), np.diff(self.rings))

    @property
    def polygon_of_rings(self) -> Integers:
        """For each ring its polygon."""
        return np.repeat(np.arange(self.count), np.diff(self.rings[self.parts]))

    @property
    def ring_of_references(self) -> Integers:
        """For each reference its ring."""
        return np.repeat(np.arange(len(self.starts) - 1), np.diff(self.starts))


class LongList(Sequence[Any]):
    """A list of a text that is kept as its JSON text, and read only where it is looked into."""

    def __init__(self, text: bytes) -> None:
        self.text = text

    @cached_property
    def _entries(self) -> list[Any]:
        entries: list[Any] = json.loads(self.text)
        return entries

    def __getitem__(self, at: Any) -> Any:
        return self._entries[at]

    def __len__(self) -> int:
        return len(self._entries)

    def __eq__(self, other: object) -> bool:
        return isinstance(other, Sequence) and self._entries == list(other)

    __hash__ = None  # type: ignore[assignment]


class PositionList(LongList):
    """A list of positions that is kept as an array."""

    def __init__(self, places: Places) -> None:
        super().__init__(positions_text(places))
        self.places = places


@dataclass
class Topology:
    """Arcs, objects and grid of a TopoJSON text.

    Arc i has the places ``places[starts[i]:starts[i + 1]]``. ``members`` are all members of the
    text but ``arcs``, in their order, ``place_of_arcs`` says where among them ``arcs`` stood.
    """

    places: Places
    starts: Integers
    members: dict[str, Any] = field(default_factory=lambda: {"type": "Topology", "objects": {}})
    place_of_arcs: int | None = None

    @property
    def arc_count(self) -> int:
        """The number of arcs."""
        return len(self.starts) - 1

    @property
    def is_coded(self) -> bool:
        """Whether positions are written as differences (a transform is there)."""
        return self.members.get("transform") is not None

    @property
    def grid(self) -> Grid:
        """The grid of the text's transform; without one the plain grid of step 1."""
        transform = self.members.get("transform")
        if transform is None:
            return Grid()
        (sx, sy), (tx, ty) = transform["scale"], transform["translate"]
        return Grid((float(sx), float(sy)), (float(tx), float(ty)))

    @property
    def objects(self) -> dict[str, Any]:
        """The geometry objects by name."""
        objects: dict[str, Any] = self.members["objects"]
        return objects

    @cached_property
    def named(self) -> Named:
        """The arcs that the polygons name."""
        return Named.of(list(polygons(self.objects)))

    def arc(self, number: int) -> Places:
        """Give the places of an arc; a number below 0 gives it backwards, as references do."""
        forward = number if number >= 0 else -number - 1
        places = self.places[self.starts[forward] : self.starts[forward + 1]]
        return places if number >= 0 else places[::-1]

    def points(self) -> Places:
        """Give the places of all points and multipoints, in the order of the text."""
        return self._points

    @cached_property
    def _points(self) -> Places:
        pieces = [np.empty((0, 2), dtype=np.int64)]
        for kind, found in groupby(walk(self.objects), key=lambda geometry: geometry["type"]):
            if kind in ("Point", "MultiPoint"):
                rows = [geometry["coordinates"] for geometry in found]
                pieces += [_places_of(rows)] if kind == "Point" else map(_places_of, rows)
        return np.concatenate(pieces)

    def with_arcs(self, places: Places, starts: Integers) -> "Topology":
        """Give the same topology with other arcs."""
        made = Topology(places, starts, self.members, self.place_of_arcs)
        return made.knowing(self.named, self.points())

    def knowing(self, named: Named, points: Places) -> "Topology":
        """Give this topology, told what its polygons name and its points, not to look them up."""
        self.__dict__.update(named=named, _points=points)
        return self

    def without_repeats(self) -> "Topology":
        """Give the same topology with consecutive equal positions of an arc taken once."""
        fresh = np.ones(len(self.places), dtype=bool)
        fresh[1:] = (self.places[1:] != self.places[:-1]).any(axis=1)
        fresh[self.starts[:-1]] = True
        if fresh.all():
            return self
        return self.with_arcs(self.places[fresh], starts_of(fresh)[self.starts])

    def text(self) -> bytes:
        """Give the compact TopoJSON text."""
        return b"".join(self.text_parts())

    def text_parts(self) -> tuple[bytes, bytes, bytes]:
        """Give the text in three: before the value of ``arcs``, that value, and behind it."""
        parts = [_compact(key) + b":" + _member(key, value) for key, value in self.members.items()]
        place = len(parts) if self.place_of_arcs is None else self.place_of_arcs
        before = b"{" + b"".join(part + b"," for part in parts[:place]) + b'"arcs":'
        behind = b"".join(b"," + part for part in parts[place:]) + b"}"
        return before, arcs_text(self.places, self.starts, coded=self.is_coded), behind


def _compact(value: object) -> bytes:
    return json.dumps(value, ensure_ascii=False, separators=(",", ":"), default=list).encode()


def _member(key: str, value: Any) -> bytes:
    if key != "objects":
        return _compact(value)
    return _braced({name: _object(shape) for name, shape in value.items()})


def _object(shape: Any) -> bytes:
    """Give the text of an object; a long list has its own."""
    if not any(isinstance(value, LongList) for value in shape.values()):
        return _compact(shape)
    values = shape.items()
    return _braced({k: v.text if isinstance(v, LongList) else _compact(v) for k, v in values})


def _braced(members: dict[str, bytes]) -> bytes:
    return b"{" + b",".join(_compact(key) + b":" + text for key, text in members.items()) + b"}"


def _places_of(rows: list[list[int]]) -> Places:
    if isinstance(rows, PositionList):
        return rows.places
    return np.array(rows, dtype=np.int64).reshape(-1, 2)


def walk(objects: dict[str, Any]) -> Iterator[dict[str, Any]]:
    """Give each geometry that is no collection, in the order of the text."""
    stack = list(reversed(objects.values()))
    while stack:
        geometry = stack.pop()
        if geometry["type"] == "GeometryCollection":
            stack.extend(reversed(geometry["geometries"]))
        else:
            yield geometry


def polygons(objects: dict[str, Any]) -> Iterator[list[list[References]]]:
    """Give each polygon or multipolygon, in the order of the text, as parts of rings."""
    for geometry in walk(objects):
        if geometry["type"] == "Polygon":
            yield [geometry["arcs"]]
        elif geometry["type"] == "MultiPolygon":
            yield geometry["arcs"]


def starts_of(counts: Any) -> Integers:
    """Give the starts that belong to counts of positions."""
    starts = np.zeros(len(counts) + 1, dtype=np.int64)
    np.cumsum(np.asarray(counts, dtype=np.int64), out=starts[1:])
    return starts


def columns_at(rows: Any, at: Any) -> Any:
    """Give some rows of an array of two columns, each column in one piece."""
    return np.stack((rows[:, 0][at], rows[:, 1][at])).T


def closed(starts: Integers) -> Integers:
    """Give the numbers of the positions of rings, each with its first one again at its end."""
    return np.insert(np.arange(starts[-1]), starts[1:], starts[:-1])


def alike(keys: Integers) -> Integers:
    """Give for each key where one that equals it stands: for equal keys the same one.

    Keys are put into a table by their hash. Those over which another was put go again, by another
    hash.
    """
    bits = 1 + len(keys).bit_length()
    table, found = np.empty(1 << bits, dtype=np.int64), np.empty(len(keys), dtype=np.int64)
    left, rest, factor = np.arange(len(keys)), keys, _FACTOR
    while len(left):
        hashes = rest.view(np.uint64) * np.uint64(factor)
        slots = (hashes >> np.uint64(64 - bits)).view(np.int64)
        table[slots] = left
        there = table[slots]
        found[left] = there
        other = np.flatnonzero(keys[there] != rest)
        left, rest, factor = left[other], rest[other], factor * _FACTOR % 2**64
    return found


def within(counts: Integers) -> Integers:
    """Give 0, 1, .. up to each count, one after the other."""
    return counted_from(0, counts)


def counted_from(firsts: Any, counts: Integers) -> Integers:
    """Give each first number and those that follow it, as many as its count says."""
    ends = np.cumsum(counts)
    total = int(ends[-1]) if len(ends) else 0
    return np.asarray(np.arange(total) + np.repeat(firsts - ends + counts, counts))


def arcs_text(places: Places, starts: Integers, *, coded: bool = False) -> bytes:
    """Give the value of ``arcs``: absolute positions, or differences where ``coded``.

    An arc of one position is written with that position twice.
    """
    places, starts = _lone_twice(places, starts)
    rows = places
    if coded and len(places):
        rows = np.array(places, order="F")
        rows[1:] -= places[:-1]
        firsts = starts[:-1][starts[:-1] < starts[1:]]
        rows[firsts] = places[firsts]
    return lists_text(rows, starts)


def lists_text(rows: Places, starts: Integers) -> bytes:
    """Give lists of positions as a JSON list of lists; list i ends before ``starts[i + 1]``."""
    full = np.flatnonzero(np.diff(starts) > 0)
    if len(full) < len(starts) - 1:
        return _with_empty_lists(rows, starts)
    if not len(full):
        return b"[]"
    last = np.zeros(len(rows), dtype=bool)
    last[starts[1:] - 1] = True
    return b"[[" + _spelled(rows, last)[:-2] + b"]"


def _with_empty_lists(rows: Places, starts: Integers) -> bytes:
    cuts = starts.tolist()
    pairs = zip(cuts, cuts[1:], strict=False)
    return b"[" + b",".join(positions_text(rows[a:b]) for a, b in pairs) + b"]"


def positions_text(rows: Places) -> bytes:
    """Give positions as a JSON list."""
    return b"[" + _spelled(rows, np.zeros(len(rows), dtype=bool))[:-1] + b"]"


def _spelled(rows: Places, last: npt.NDArray[np.bool_]) -> bytes:
    """Spell positions, each with a comma behind it; where ``last``, with ``],[``, a list's end."""
    ends = range(0, len(rows), _CHUNK)
    return b"".join([_spelled_few(rows[a : a + _CHUNK], last[a : a + _CHUNK]) for a in ends])


def _spelled_few(rows: Places, last: npt.NDArray[np.bool_]) -> bytes:
    """Spell so many positions as the processor has at hand. Numbers have up to twelve digits."""
    words = []
    for axis, mark in ((0, b"["), (1, b",")):
        column = rows[:, axis]
        words += [np.where(column < 0, _word(mark + b"-"), _word(mark)), *_digits(np.abs(column))]
    ends = np.where(last, _word(b"]],["), _word(b"],"))
    spelled = np.empty((len(rows), len(words) + 1), dtype=np.uint32)
    for at, word in enumerate((*words, ends)):
        spelled[:, at] = word
    return spelled.tobytes().translate(None, b"\0")


def _word(text: bytes) -> np.uint32:
    """Give up to four bytes as a number."""
    return np.uint32(np.frombuffer(text.ljust(4, b"\0"), dtype=np.uint32)[0])


def _digits(numbers: Integers) -> list[npt.NDArray[np.uint32]]:
    """Give the ASCII digits of numbers from 0 to 10^12 by fours, with bytes 0 before them."""
    fours: list[npt.NDArray[np.uint32]] = []
    left = numbers
    for at in range((len(str(int(numbers.max()))) + 3) // 4):
        more = left // 10_000
        table = _OTHER_FOUR if at else _LOWEST_FOUR
        fours.insert(0, table[left - more * 10_000 + 10_000 * (more > 0)])
        left = more
    return fours


def _fours(zero: bytes) -> npt.NDArray[np.uint32]:
    """Give four bytes for each number below 10,000: as the first digits, then as later ones."""
    first = [zero, *(b"%d" % number for number in range(1, 10_000))]
    later = [b"%04d" % number for number in range(10_000)]
    whole = b"".join(digits.rjust(4, b"\0") for digits in first + later)
    return np.frombuffer(whole, dtype=np.uint32)


def _lone_twice(places: Places, starts: Integers) -> tuple[Places, Integers]:
    counts = np.diff(starts)
    if not (counts == 1).any():
        return places, starts
    times = np.ones(len(places), dtype=np.int64)
    times[starts[:-1][counts == 1]] = 2
    return np.repeat(places, times, axis=0), starts_of(np.where(counts == 1, 2, counts))


_CHUNK = 10_000
_FACTOR = 0x9E3779B97F4A7C15
"""An odd number of 64 bits; the first bits of products with it are scattered."""

_NUMBERS = re.compile(r"[-+\[\]0-9 \t\r\n,.eE]+")
_OPEN = ord("[")
_NO_BRACKETS = bytes(set(range(256)) - set(b"[]"))
_LOWEST_FOUR, _OTHER_FOUR = _fours(b"0"), _fours(b"")
_BLANKS = bytes.maketrans(b"[],\t\r\n", b"      ")


def read(text: bytes) -> Topology:
    """Read a TopoJSON text with whole coordinates, of any size.

    Raises NotUtf8, NotJson or NotATopology. It is no substitute for the command's own reader, which
    judges every text that is thinned: it takes out what this package wants.
    """
    members, (low, high) = _members(text)
    order = list(members)
    if "arcs" not in members:
        raise NotATopology("missing member", 0)
    del members["arcs"]
    if members.get("type") != "Topology" or not isinstance(members.get("objects"), dict):
        raise NotATopology("wrong type", 0)
    places, starts = read_arcs(text[low:high], low)
    if members.get("transform") is not None:
        places = _undo_differences(places, starts)
    return Topology(places, starts, members, order.index("arcs"))


def _undo_differences(rows: Places, starts: Integers) -> Places:
    if not len(rows):
        return rows
    sums = np.cumsum(rows, axis=0)
    firsts = np.minimum(starts[:-1], len(rows) - 1)
    before = sums[firsts] - rows[firsts]
    return np.asarray(sums - np.repeat(before, np.diff(starts), axis=0), dtype=np.int64)


def _members(text: bytes) -> tuple[dict[str, Any], tuple[int, int]]:
    """Give the value of each top member, of ``arcs`` None and its span in the text."""
    try:
        shown = text.decode()
    except UnicodeDecodeError as error:
        raise NotUtf8(error.start) from error
    members: dict[str, Any] = {}
    low = high = 0
    for key, start, end, value in _scan_members(shown):
        members[key] = value
        if key == "arcs":
            low, high = start, end
    if len(shown) != len(text):
        low, high = len(shown[:low].encode()), len(shown[:high].encode())
    return members, (low, high)


def _scan_members(shown: str) -> Iterator[tuple[str, int, int, Any]]:
    """Give the name of each top member, where its value begins and ends, and the value."""
    decoder = json.JSONDecoder()
    try:
        at = _skip(shown, 1 if shown.startswith("\ufeff") else 0)
        if shown[at : at + 1] != "{":
            json.loads(shown)
            raise NotATopology("not an object", at)
        at = _skip(shown, at + 1)
        while shown[at : at + 1] == '"':
            key, at = decoder.raw_decode(shown, at)
            at = _expect(shown, _skip(shown, at), ":")
            value = None
            if key == "arcs":
                end = _end_of_numbers(shown, at)
            else:
                value, end = decoder.raw_decode(shown, at)
            yield key, at, end, value
            at = _skip(shown, end)
            if shown[at : at + 1] == ",":
                at = _skip(shown, at + 1)
        _expect(shown, at, "}")
    except json.JSONDecodeError as error:
        raise NotJson(error.pos) from error


def _skip(shown: str, at: int) -> int:
    while shown[at : at + 1] in (" ", "\t", "\n", "\r"):
        at += 1
    return at


def _expect(shown: str, at: int, mark: str) -> int:
    if shown[at : at + 1] != mark:
        raise json.JSONDecodeError(f"{mark} expected", shown, at)
    return _skip(shown, at + 1)


def _end_of_numbers(shown: str, at: int) -> int:
    """Give the end of the value at ``at``, which has only numbers, brackets and commas."""
    match = _NUMBERS.match(shown, at)
    if match is None:
        raise json.JSONDecodeError("arcs expected", shown, at)
    return at + len(match.group().rstrip(" \t\r\n,"))


def read_thinned(before: Topology, source: tuple[bytes, bytes, bytes], text: bytes) -> Topology:
    """Read a text that differs from ``source`` (as ``text_parts`` gives it) only in its arcs.

    Where it differs elsewhere it is read as any other. Raises NotUtf8, NotJson or NotATopology.
    """
    low, high = len(source[0]), len(text) - len(source[2])
    if high < low or not (text.startswith(source[0]) and text.endswith(source[2])):
        return read(text)
    places, starts = read_arcs(text[low:high], low)
    if before.is_coded:
        places = _undo_differences(places, starts)
    return before.with_arcs(places, starts)


def read_arcs(text: bytes, at: int = 0) -> tuple[Places, Integers]:
    """Read the value of ``arcs``: the numbers as they stand, and the starts of the arcs.

    Raises NotATopology where positions are no pairs of whole numbers; ``at`` is the text's place.
    """
    if not text.startswith(b"[") or not text.endswith(b"]"):
        raise NotATopology("wrong type", at)
    opens = np.frombuffer(text.translate(None, _NO_BRACKETS), dtype=np.uint8) == _OPEN
    count = np.count_nonzero(opens)
    if count == 1:
        return np.empty((0, 2), dtype=np.int64), np.zeros(1, dtype=np.int64)
    numbers = whole_numbers(text, at)
    depth = np.cumsum(np.where(opens, 1, -1))
    firsts = np.flatnonzero(opens & (depth == 2))
    positions = count - 1 - len(firsts)
    if 2 * count != len(opens) or len(numbers) != 2 * positions:
        raise NotATopology("positions are no pairs", at)
    starts = np.cumsum(opens)[firsts] - np.arange(len(firsts)) - 2
    return numbers.reshape(-1, 2), np.append(starts, positions).astype(np.int64)


def whole_numbers(text: bytes, at: int = 0) -> Integers:
    """Read the whole numbers of a JSON list of lists.

    Raises NotATopology where there is anything else; ``at`` is the text's place.
    """
    with warnings.catch_warnings():
        warnings.simplefilter("error")
        try:
            return np.fromstring(text.translate(_BLANKS), dtype=np.int64, sep=" ")
        except (ValueError, DeprecationWarning) as error:
            raise NotATopology("not whole", at) from error
