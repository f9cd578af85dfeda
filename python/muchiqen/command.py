"""Finds the proved program and runs its forms over bytes.

Texts go in and come out by pipes. Where a form names more than one text, the others are files in
memory (``memfd``) that only the program sees. No shell is used, and nothing is put on a disk.
"""

import os
import shutil
import signal
import subprocess
from collections.abc import Sequence
from dataclasses import dataclass
from functools import lru_cache
from pathlib import Path

from .errors import (
    BadTolerance,
    BadWeights,
    NotGeoJson,
    ProgramKilled,
    ProgramNotFound,
    Usage,
    of_status,
)

Weights = tuple[int, int]
"""What lengths across and lengths up count, each from 1 to 65536."""

MOST_BOUND = 2**30
"""The greatest bound that the command takes, in grid units."""

MOST_POSITIONS = 2**20
"""The most positions, arcs, points or polygons of one text."""

MOST_RING_POSITIONS = 524_288
"""The most positions of rings that ``build`` takes."""

MOST_BYTES = 2**26
"""The most bytes of one text."""

NAME = "simplify_cli"
_OWN_BUILD = Path(__file__).resolve().parents[2] / "crates" / NAME / "out" / NAME


def find(program: str | os.PathLike[str] | None = None) -> Path:
    """Give the program: the argument, else ``MUCHIQEN``, else PATH, else the repository's build.

    Raises ProgramNotFound where the first of these that is given, or all of them, lead nowhere.
    """
    named = program if program is not None else os.environ.get("MUCHIQEN") or None
    if named is not None:
        found = shutil.which(os.fspath(named))
        if found is None:
            raise ProgramNotFound(os.fspath(named))
        return Path(found).resolve()
    found = shutil.which(NAME) or shutil.which(str(_OWN_BUILD))
    if found is None:
        raise ProgramNotFound(f"MUCHIQEN, PATH, {_OWN_BUILD}")
    return Path(found).resolve()


def _in_memory(text: bytes) -> int:
    handle = os.memfd_create("muchiqen")
    left = memoryview(text)
    while left:
        left = left[os.write(handle, left) :]
    os.lseek(handle, 0, os.SEEK_SET)
    return handle


def _whole(handle: int) -> bytes:
    size = os.lseek(handle, 0, os.SEEK_END)
    os.lseek(handle, 0, os.SEEK_SET)
    with os.fdopen(os.dup(handle), "rb") as file:
        return file.read(size)


def run(
    program: Path, words: Sequence[str], text: bytes = b"", others: Sequence[bytes] = ()
) -> bytes:
    """Run the program and give what it wrote.

    ``text`` is its standard input, and ``others`` are texts whose names are put behind ``words``.
    Raises the CommandError of its status, ProgramKilled where a signal ended it, and
    ProgramNotFound where it cannot be started.
    """
    handles: list[int] = []
    try:
        for one in (text, b"", b"", *others):
            handles.append(_in_memory(one))
        source, out, note, *more = handles
        names = [f"/dev/fd/{handle}" for handle in more]
        done = subprocess.run(
            [program, *words, *names],
            stdin=source,
            stdout=out,
            stderr=note,
            pass_fds=more,
            check=False,
        )
        written, noted = _whole(out), _whole(note)
    except OSError as error:
        raise ProgramNotFound(f"{program} ({error.strerror})") from error
    finally:
        for handle in handles:
            os.close(handle)
    if done.returncode < 0:
        raise ProgramKilled(signal.Signals(-done.returncode).name)
    if done.returncode > 0:
        said = noted.decode(errors="replace")
        raise of_status(done.returncode, said, written[:200].decode(errors="replace"))
    return written


@lru_cache(maxsize=64)
def _knows_build(program: Path, stamp: int) -> bool:
    """Tell whether a program, as it stood at its time of change, knows the form ``build``."""
    try:
        run(program, ["build", "-"], b"{}")
    except Usage:
        return False
    except NotGeoJson:
        return True
    return True


def _options(bound: int, hold: bool, weights: Weights | None) -> list[str]:
    if isinstance(bound, bool) or not isinstance(bound, int) or not 0 <= bound <= MOST_BOUND:
        raise BadTolerance(bound)
    words = ["--hold"] if hold else []
    if weights is not None:
        words += ["--weights", *(str(weight) for weight in checked_weights(weights))]
    return [*words, str(bound)]


def checked_weights(weights: Weights) -> Weights:
    """Give the same weights; BadWeights where they are not two whole numbers from 1 to 65536."""
    try:
        across, up = weights
        if all(int(w) == w and 1 <= w <= 65536 for w in (across, up)):
            return int(across), int(up)
    except (TypeError, ValueError):
        pass
    raise BadWeights(weights)


@dataclass(frozen=True)
class Command:
    """The program, with a call for each of its forms. Texts are bytes, bounds grid units."""

    program: Path

    @classmethod
    def at(cls, program: "str | os.PathLike[str] | Command | None" = None) -> "Command":
        """Give the command that ``find`` finds; a command is given back as it is."""
        return program if isinstance(program, Command) else cls(find(program))

    def simplify(
        self, text: bytes, bound: int, *, hold: bool = False, weights: Weights | None = None
    ) -> bytes:
        """Give the text with its arcs thinned."""
        return run(self.program, ["simplify", *_options(bound, hold, weights), "-"], text)

    def layers(
        self, text: bytes, bound: int, *, hold: bool = False, weights: Weights | None = None
    ) -> bytes:
        """Give the certificate of the same run."""
        return run(self.program, ["layers", *_options(bound, hold, weights), "-"], text)

    def check(
        self,
        text: bytes,
        out: bytes,
        certificate: bytes,
        bound: int,
        *,
        hold: bool = False,
        weights: Weights | None = None,
    ) -> str:
        """Give ``yes``; raises CheckSaysNo with the first reason otherwise."""
        words = ["check", *_options(bound, hold, weights), "-"]
        return run(self.program, words, text, [out, certificate]).decode().strip()

    def faces(self, text: bytes) -> list[list[int]]:
        """Give for each point the numbers of the polygons that hold it, rising."""
        lines = run(self.program, ["faces", "-"], text).decode().splitlines()
        inside = [line.partition(" in ")[2] for line in lines]
        return [[] if line == "none" else [int(word) for word in line.split()] for line in inside]

    def make(self, rows: int, columns: int, seed: int) -> bytes:
        """Give the made coverage of 1 to 100 rows and columns, with a seed from 0 to 65536."""
        return run(self.program, ["make", str(rows), str(columns), str(seed)])

    def build(self, text: bytes) -> bytes:
        """Give the topology of a GeoJSON text with whole coordinates."""
        return run(self.program, ["build", "-"], text)

    def has_build(self) -> bool:
        """Tell whether this program knows the form ``build``; it is asked once."""
        try:
            stamp = os.stat(self.program).st_mtime_ns
        except OSError as error:
            raise ProgramNotFound(f"{self.program} ({error.strerror})") from error
        return _knows_build(self.program, stamp)
