#!/usr/bin/env python3
"""Refuses each demand for memory of the command in turn, one demand a run.

    python3 bench/refuse_memory.py PROGRAM MAP BOUND

PROGRAM is the built command, MAP an arranged map with a polygon. `simplify`, `layers`, `check`,
`faces`, `dissolve` and `pyramid` of the map, `build` of two squares, `make` and `demo` are run
once with all memory, and then with the first, second, third .. demand refused, until no demand
is left. Each run has to end with status 10 and nothing on
standard output, and with no message but `no memory`. One other end is right: as with all
memory, where a list that is refused a generous growth asks again for what it needs. Wants gcc,
for the small library that refuses."""

from __future__ import annotations

import os
import pathlib
import subprocess
import sys
import tempfile
from typing import NamedTuple

REFUSER = r"""
#include <errno.h>
#include <stdlib.h>

extern void *__libc_malloc(size_t);
extern void *__libc_calloc(size_t, size_t);
extern void *__libc_realloc(void *, size_t);
extern void *__libc_memalign(size_t, size_t);

static long demands, refused;

static int is_refused(void) {
    if (!refused) refused = atol(getenv("REFUSED"));
    if (++demands != refused) return 0;
    errno = ENOMEM;
    return 1;
}

void *malloc(size_t size) { return is_refused() ? 0 : __libc_malloc(size); }
void *calloc(size_t count, size_t size) { return is_refused() ? 0 : __libc_calloc(count, size); }
void *realloc(void *from, size_t size) { return is_refused() ? 0 : __libc_realloc(from, size); }
void *aligned_alloc(size_t align, size_t size) { return is_refused() ? 0 : __libc_memalign(align, size); }
int posix_memalign(void **to, size_t align, size_t size) {
    if (is_refused()) return ENOMEM;
    *to = __libc_memalign(align, size);
    return *to ? 0 : ENOMEM;
}
"""

# Two squares with a common side, in GeoJSON.
SQUARES = """{"type":"MultiPolygon","coordinates":[
    [[[0,0],[2,0],[2,2],[0,2],[0,0]]],
    [[[2,0],[4,0],[4,2],[2,2],[2,0]]]
]}"""

# So many runs in a row with no difference, and no demand is left.
QUIET = 8


class Ended(NamedTuple):
    """How a run ended: its status and what it wrote to both outputs."""

    status: int
    out: bytes
    note: bytes


class Count(NamedTuple):
    """How many refused demands ended a run with status 10, and how many changed nothing."""

    refused: int
    unchanged: int


def run(words: list[str], refuser: pathlib.Path | None = None, number: int = 0) -> Ended:
    """Runs the words, with the demand of this number refused where a refuser is given."""
    env = dict(os.environ)
    if refuser is not None:
        env |= {"LD_PRELOAD": str(refuser), "REFUSED": str(number)}
    ended = subprocess.run(words, env=env, capture_output=True)
    return Ended(ended.returncode, ended.stdout, ended.stderr)


def built(folder: pathlib.Path) -> pathlib.Path:
    """The library that refuses, built into the folder."""
    source, library = folder / "refuser.c", folder / "refuser.so"
    source.write_text(REFUSER)
    words = ["gcc", "-O1", "-shared", "-fPIC", "-o", str(library), str(source)]
    subprocess.run(words, check=True)
    return library


def is_refusal(ended: Ended) -> bool:
    """Whether the run ended as want of memory should end it."""
    return ended.status == 10 and not ended.out and ended.note in (b"", b"no memory\n")


def refuse_each(words: list[str], refuser: pathlib.Path) -> Count:
    """Refuses each demand of the words in turn."""
    whole = run(words)
    if whole.status != 0:
        sys.exit(f"{' '.join(words)} ended with {whole.status}")
    refused, unchanged, quiet, number = 0, 0, 0, 0
    while quiet < QUIET:
        number += 1
        ended = run(words, refuser, number)
        if ended == whole:
            quiet += 1
        elif is_refusal(ended):
            refused, unchanged, quiet = refused + 1, unchanged + quiet, 0
        else:
            sys.exit(f"{' '.join(words)}, demand {number} refused: {ended}")
    return Count(refused, unchanged)


def forms(program: str, path: str, bound: str, folder: pathlib.Path) -> list[list[str]]:
    """The words of each form over the map."""
    made = {}
    for form in ("simplify", "layers"):
        made[form] = str(folder / form)
        pathlib.Path(made[form]).write_bytes(run([program, form, bound, path]).out)
    squares = folder / "squares"
    squares.write_text(SQUARES)
    return [
        ["simplify", bound, path],
        ["layers", bound, path],
        ["check", bound, path, made["simplify"], made["layers"]],
        ["faces", path],
        ["dissolve", "0", path],
        ["build", str(squares)],
        ["pyramid", f"{bound},{int(bound) + 4}", path],
        ["make", "1", "1", "7"],
        ["demo", "1", "1", "7", "100"],
    ]


def main(words: list[str]) -> None:
    """Refuses each demand of each form."""
    if len(words) != 3:
        sys.exit(__doc__)
    program, path, bound = words
    with tempfile.TemporaryDirectory() as made:
        folder = pathlib.Path(made)
        refuser = built(folder)
        for form in forms(program, path, bound, folder):
            count = refuse_each([program, *form], refuser)
            print(
                f"{form[0]}: {count.refused} demands refused: status 10; "
                f"{count.unchanged}: as with all memory"
            )


if __name__ == "__main__":
    main(sys.argv[1:])
