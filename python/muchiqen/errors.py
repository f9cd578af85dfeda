"""Every way in which a call of this package fails, each as an exception of its own.

All of them are a ``MuchiqenError``. Those under ``CommandError`` are the statuses of the command,
with the parts of its message. Their arguments are their parts, so they travel between processes.
"""

import re
from collections.abc import Callable
from dataclasses import dataclass
from typing import ClassVar


class MuchiqenError(Exception):
    """Anything that this package refuses."""


@dataclass(eq=False)
class ProgramNotFound(MuchiqenError):
    """No program could be started; ``tried`` names the places that were looked at."""

    tried: str

    def __str__(self) -> str:
        return f"no program simplify_cli: tried {self.tried}"


@dataclass(eq=False)
class ProgramKilled(MuchiqenError):
    """The program was ended by a signal before it answered."""

    signal: str

    def __str__(self) -> str:
        return f"the program was ended by {self.signal}"


@dataclass(eq=False)
class FormNotThere(MuchiqenError):
    """The program that was found does not know this form yet."""

    form: str

    def __str__(self) -> str:
        return f"the program has no form {self.form}"


@dataclass(eq=False)
class BadTolerance(MuchiqenError, ValueError):
    """A tolerance is below zero, infinite or no number, or a bound is past 2^30."""

    tolerance: object

    def __str__(self) -> str:
        return f"no tolerance: {self.tolerance!r}"


@dataclass(eq=False)
class BadGrid(MuchiqenError, ValueError):
    """A grid step is not above zero, or the map does not fit on the grid with this step."""

    reason: str

    def __str__(self) -> str:
        return f"no grid: {self.reason}"


@dataclass(eq=False)
class BadWeights(MuchiqenError, ValueError):
    """Weights are two whole numbers from 1 to 65536."""

    weights: object

    def __str__(self) -> str:
        return f"no weights: {self.weights!r}"


@dataclass(eq=False)
class NotACoverage(MuchiqenError, ValueError):
    """Rows that are no polygons, or towns that are no points; ``rows`` are labels of the index."""

    reason: str
    rows: list[object]

    def __str__(self) -> str:
        some = ", ".join(str(row) for row in self.rows[:5])
        more = f" and {len(self.rows) - 5} more" if len(self.rows) > 5 else ""
        return f"{self.reason}: row {some}{more}"


@dataclass(eq=False)
class NotRead(MuchiqenError):
    """An input file could not be read."""

    path: str
    reason: str

    def __str__(self) -> str:
        return f"cannot read {self.path}: {self.reason}"


@dataclass(eq=False)
class NotWritten(MuchiqenError):
    """An output could not be written; nothing stands under its name that did not before."""

    path: str
    reason: str

    def __str__(self) -> str:
        return f"cannot write {self.path}: {self.reason}"


@dataclass(eq=False)
class WorkerLost(MuchiqenError):
    """A tile's worker died as often as it was tried."""

    tile: int
    tries: int

    def __str__(self) -> str:
        return f"the worker of tile {self.tile} died {self.tries} times"


@dataclass(eq=False)
class NotConfirmed(MuchiqenError):
    """A result failed a check that this package makes itself."""

    reason: str

    def __str__(self) -> str:
        return f"not confirmed: {self.reason}"


class CommandError(MuchiqenError):
    """A status of the command other than 0."""

    status: ClassVar[int]


@dataclass(eq=False)
class CheckSaysNo(CommandError):
    """Status 1: the checker's first reason, as it prints it behind ``no: ``."""

    status: ClassVar[int] = 1
    reason: str

    def __str__(self) -> str:
        return f"no: {self.reason}"


@dataclass(eq=False)
class Usage(CommandError):
    """Status 2: the words are no form of the command."""

    status: ClassVar[int] = 2
    forms: str

    def __str__(self) -> str:
        return f"usage: {self.forms}"


@dataclass(eq=False)
class NotUtf8(CommandError):
    """Status 3: the text is not UTF-8 from byte ``at``."""

    status: ClassVar[int] = 3
    at: int

    def __str__(self) -> str:
        return f"text is not UTF-8 at {self.at}"


@dataclass(eq=False)
class NotJson(CommandError):
    """Status 3: the text is no JSON; no JSON text begins with more than ``at`` bytes of it."""

    status: ClassVar[int] = 3
    at: int

    def __str__(self) -> str:
        return f"text is not JSON at {self.at}"


@dataclass(eq=False)
class NotATopology(CommandError):
    """Status 4: JSON and no topology, with the kind of fault and its byte."""

    status: ClassVar[int] = 4
    kind: str
    at: int

    def __str__(self) -> str:
        return f"not a topology: {self.kind} at {self.at}"


@dataclass(eq=False)
class OutsideProfile(CommandError):
    """Status 5: a coordinate is no whole number, off the grid or a third one, at byte ``at``."""

    status: ClassVar[int] = 5
    kind: str
    at: int

    def __str__(self) -> str:
        return f"outside the profile: {self.kind} at {self.at}"


@dataclass(eq=False)
class TooLarge(CommandError):
    """Status 6: what passes its limit, and at which byte where the text itself does not."""

    status: ClassVar[int] = 6
    what: str
    at: int | None = None

    def __str__(self) -> str:
        return f"too large: {self.what}" + ("" if self.at is None else f" at {self.at}")


@dataclass(eq=False)
class ArcsMeet(CommandError):
    """Status 7: edge ``e`` of arc ``a`` meets edge ``f`` of arc ``b``, all numbered from 0."""

    status: ClassVar[int] = 7
    a: int
    e: int
    b: int
    f: int

    def __str__(self) -> str:
        return f"arc {self.a} edge {self.e} meets arc {self.b} edge {self.f}"


@dataclass(eq=False)
class PointOnArc(CommandError):
    """Status 7: point ``p`` lies on edge ``e`` of arc ``a``, all numbered from 0."""

    status: ClassVar[int] = 7
    p: int
    a: int
    e: int

    def __str__(self) -> str:
        return f"point {self.p} lies on arc {self.a} edge {self.e}"


@dataclass(eq=False)
class ReadingFailed(CommandError):
    """Status 8: a file is not there, or a read failed."""

    status: ClassVar[int] = 8

    def __str__(self) -> str:
        return "reading failed"


@dataclass(eq=False)
class WritingFailed(CommandError):
    """Status 9: standard output took only a part."""

    status: ClassVar[int] = 9

    def __str__(self) -> str:
        return "writing failed"


@dataclass(eq=False)
class NoMemory(CommandError):
    """Status 10: memory was refused before anything was written."""

    status: ClassVar[int] = 10

    def __str__(self) -> str:
        return "no memory"


@dataclass(eq=False)
class WeightsOffGrid(CommandError):
    """Status 13: the weights take this position of this arc off the grid."""

    status: ClassVar[int] = 13
    arc: int
    position: int

    def __str__(self) -> str:
        return f"weights take arc {self.arc} position {self.position} off the grid"


@dataclass(eq=False)
class NoPolygon(CommandError):
    """Status 14: ``dissolve`` was asked for a polygon that is not there."""

    status: ClassVar[int] = 14
    number: int

    def __str__(self) -> str:
        return f"no polygon {self.number}"


@dataclass(eq=False)
class NotGeoJson(CommandError):
    """Status 15: ``build`` met this fault at byte ``at``."""

    status: ClassVar[int] = 15
    kind: str
    at: int

    def __str__(self) -> str:
        return f"not GeoJSON: {self.kind} at {self.at}"


@dataclass(eq=False)
class NoWords(CommandError):
    """Status 16: the system did not give the program its words."""

    status: ClassVar[int] = 16

    def __str__(self) -> str:
        return "the program was not given its words"


@dataclass(eq=False)
class UnknownStatus(CommandError):
    """A status or a message that the command does not have."""

    number: int
    message: str

    def __str__(self) -> str:
        return f"status {self.number}: {self.message}"


_MESSAGES: list[tuple[int, str, Callable[..., CommandError]]] = [
    (2, r"usage: (.*)", Usage),
    (3, r"text is not UTF-8 at (\d+)", NotUtf8),
    (3, r"text is not JSON at (\d+)", NotJson),
    (4, r"not a topology: (.+) at (\d+)", NotATopology),
    (5, r"outside the profile: (.+) at (\d+)", OutsideProfile),
    (6, r"too large: ([a-z]+) at (\d+)", TooLarge),
    (6, r"too large: (FILE|OUT|CERT)", TooLarge),
    (7, r"arc (\d+) edge (\d+) meets arc (\d+) edge (\d+)", ArcsMeet),
    (7, r"point (\d+) lies on arc (\d+) edge (\d+)", PointOnArc),
    (8, r"reading failed", ReadingFailed),
    (9, r"writing failed", WritingFailed),
    (10, r"no memory", NoMemory),
    (13, r"weights take arc (\d+) position (\d+) off the grid", WeightsOffGrid),
    (14, r"no polygon (\d+)", NoPolygon),
    (15, r"not GeoJSON: (.+) at (\d+)", NotGeoJson),
    (16, r".*", NoWords),
]


def of_status(status: int, note: str, out: str = "") -> CommandError:
    """Give the exception of a status other than 0, from the note and, for status 1, the output."""
    if status == 1 and out.startswith("no: "):
        return CheckSaysNo(out.removeprefix("no: ").rstrip("\n"))
    for number, pattern, error in _MESSAGES:
        match = re.fullmatch(pattern, note.rstrip("\n")) if number == status else None
        if match:
            return error(*(int(part) if part.isdecimal() else part for part in match.groups()))
    return UnknownStatus(status, note.rstrip("\n") or out.rstrip("\n"))
