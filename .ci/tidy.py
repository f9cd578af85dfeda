"""Looks at the repository's own rules, beside what the gate proves.

    python3 .ci/tidy.py

Prints what it finds, one line each, and ends with status 1 where it found anything. Long
lines are counted and are no finding.
"""

from __future__ import annotations

import pathlib
import re
import sys
from collections.abc import Iterator

TOP = pathlib.Path(__file__).resolve().parent.parent
ARCHITECTURE = TOP / "docs/ARCHITECTURE.md"
CRATE_PAGES = ("docs/ARCHITECTURE.md", "docs/PROMISES.md")
WIDEST = {".rt": 100, ".antt": 140}
# A program whose edits are those of the library under it, `row_reader`.
WITHOUT_EDITS = {"worked_rows"}
OUTSIDE = re.compile(r"\.\./shared|\bprototypes?/")
LINK = re.compile(r"\[[^\]]*\]\(([^)\s]+)\)")
HEADING = re.compile(r"^#+ +(.*)$", re.MULTILINE)
SECTION = re.compile(r"^### (.*)$", re.MULTILINE)
CODE = re.compile(r"`([^`]+)`")
CLAUSES = re.compile(r"\(((?:`\w+`(?:, )?)+)\)")
WORD = re.compile(r"[A-Za-z_][A-Za-z0-9_]*")
IMPL = re.compile(r"^impl(?:<[^>]*>)? (\w+)[^{]*\{(.*?)^\}", re.MULTILINE | re.DOTALL)
TRAIT = re.compile(r"^pub trait (\w+)[^{]*\{(.*?)^\}", re.MULTILINE | re.DOTALL)
EXPORT = re.compile(r"^pub use (?:crate::)?\w+::(?:\{([^}]*)\}|(\w+));", re.MULTILINE)


def libraries() -> dict[str, set[str]]:
    """The crates that crates.txt lists, each with the libraries that it names."""
    listed = {}
    for line in (TOP / "crates.txt").read_text().splitlines():
        if line.strip() and not line.startswith("#"):
            head, _, tail = line.partition(":")
            listed[head.split()[0]] = set(tail.split())
    return listed


def crates() -> list[str]:
    """The crates that crates.txt lists."""
    return list(libraries())


def below(name: str) -> set[str]:
    """The repository's crates on which a crate stands, through others too."""
    listed = libraries()
    direct = listed[name] & listed.keys()
    return direct.union(*(below(other) for other in direct))


def files(*suffixes: str) -> Iterator[pathlib.Path]:
    """The files with one of these endings, without what a build made."""
    for path in sorted(TOP.rglob("*")):
        parts = path.relative_to(TOP).parts
        if path.is_file() and path.suffix in suffixes and "out" not in parts:
            if ".git" not in parts:
                yield path


def shown(path: pathlib.Path) -> str:
    """The path from the top of the repository."""
    return str(path.relative_to(TOP))


def handles() -> Iterator[str]:
    """The file HANDLES is its one line."""
    if (TOP / "HANDLES").read_text() != "Handles allowed: none.\n":
        yield "HANDLES is not its one line"


def pages_of_crates() -> Iterator[str]:
    """Each page on the crates speaks of every one of them."""
    for page in CRATE_PAGES:
        text = (TOP / page).read_text()
        for name in crates():
            if f"`{name}`" not in text:
                yield f"{page} does not speak of `{name}`"


def stands_on() -> Iterator[str]:
    """The table of crates says what each stands on, but for what follows from that."""
    rows = re.findall(r"^\| `(\w+)` \| ([^|]*)\|", ARCHITECTURE.read_text(), re.MULTILINE)
    for name, cell in rows:
        lower = below(name) if name in crates() else set()
        nearest = lower - set().union(*(below(other) for other in lower))
        if set(CODE.findall(cell)) != nearest:
            wanted = ", ".join(sorted(nearest))
            yield f"docs/ARCHITECTURE.md: `{name}` stands on {wanted or 'nothing'}"


def trusted() -> Iterator[str]:
    """Each page on what is trusted names the kit's crates that are used."""
    used: set[str] = set().union(*libraries().values())
    for page in ("README.md", "docs/PROMISES.md"):
        text = (TOP / page).read_text()
        for name in sorted(used - set(crates())):
            if f"`{name}`" not in text:
                yield f"{page} does not speak of the kit's crate `{name}`"


def roots() -> Iterator[str]:
    """Each crate tries the tactics."""
    for name in crates():
        for root in ("lib.rt", "main.rt"):
            path = TOP / "crates" / name / "src" / root
            if path.exists() and "#![tactic(auto)]" not in path.read_text():
                yield f"{shown(path)} has no #![tactic(auto)]"


def edits() -> Iterator[str]:
    """Each crate has three to five edits that the prover has to refuse."""
    for name in crates():
        if name in WITHOUT_EDITS:
            continue
        count = len(list((TOP / "crates" / name / "must-fail").glob("*.edit")))
        if not 3 <= count <= 5:
            yield f"crates/{name} has {count} must-fail edits, and 3 to 5 are wanted"


def outside() -> Iterator[str]:
    """Nothing cites what is not in the repository."""
    for path in files(".md", ".rt", ".antt", ".edit", ".txt"):
        if OUTSIDE.search(path.read_text()):
            yield f"{shown(path)} cites what is not in the repository"


def anchor(heading: str) -> str:
    """The anchor of a heading, as code hosts make it."""
    return re.sub(r"[^\w\- ]", "", heading.strip().lower()).replace(" ", "-")


def links() -> Iterator[str]:
    """Each relative link of a page leads to a file, and its anchor to a heading there."""
    for page in files(".md"):
        for target in LINK.findall(page.read_text()):
            if re.match(r"[a-z]+:", target):
                continue
            name, _, place = target.partition("#")
            path = page.parent / name if name else page
            if not path.exists():
                yield f"{shown(page)}: no file {target}"
            elif place and path.suffix == ".md":
                headings = HEADING.findall(path.read_text())
                if place not in {anchor(heading) for heading in headings}:
                    yield f"{shown(page)}: no heading {target}"


def code_of(name: str) -> str:
    """The code of a crate."""
    paths = sorted((TOP / "crates" / name / "src").rglob("*.rt"))
    return "\n".join(path.read_text() for path in paths)


def calls_of(code: str) -> set[str]:
    """What a crate's code declares for others: functions, types, `Type::call`, `Trait::call`."""
    found = set(re.findall(r"^pub (?:fn|struct|enum|trait) (\w+)", code, re.MULTILINE))
    for kind, body in IMPL.findall(code):
        found.update(f"{kind}::{call}" for call in re.findall(r"^    pub fn (\w+)", body, re.M))
    for kind, body in TRAIT.findall(code):
        found.update(f"{kind}::{call}" for call in re.findall(r"^    fn (\w+)", body, re.M))
    return found


def handed_out(name: str) -> list[str]:
    """The functions that a crate's root hands out, and the types that have calls."""
    root = TOP / "crates" / name / "src" / "lib.rt"
    if not root.exists():
        return []
    named = [word for pair in EXPORT.findall(root.read_text()) for word in pair]
    words = [word for part in named for word in WORD.findall(part)]
    called = {call.split("::")[0] for call in calls_of(code_of(name)) if "::" in call}
    return [word for word in words if word[0].islower() or word in called]


def in_sections(text: str) -> Iterator[tuple[list[str], str, str]]:
    """Each section on crates: the crates, the calls of its table's first cells, the whole."""
    parts = SECTION.split(text)[1:]
    for heading, body in zip(parts[::2], parts[1::2]):
        rows = [row for row in body.splitlines() if row.startswith("| `")]
        yield CODE.findall(heading), " ".join(row.split(" | ")[0] for row in rows), body


def by_promise(text: str) -> Iterator[tuple[str, str]]:
    """Each crate of the table of promises with the calls that are named there."""
    for part in re.findall(r"`(\w+)`: ([^;|]*)", text):
        yield part


def promises() -> Iterator[str]:
    """What PROMISES.md names of a crate stands in that crate, and it names each call."""
    text = (TOP / "docs/PROMISES.md").read_text()
    for names, cells, body in in_sections(text):
        code = "\n".join(code_of(name) for name in names)
        known, words = calls_of(code), set(WORD.findall(code))
        for call in CODE.findall(cells):
            if call not in known:
                yield f"docs/PROMISES.md, {names[0]}: no `{call}` in the code"
        for clauses in CLAUSES.findall(body):
            for clause in CODE.findall(clauses):
                if clause not in words:
                    yield f"docs/PROMISES.md, {names[0]}: no `{clause}` in the code"
        for name in names:
            for call in handed_out(name):
                if call not in WORD.findall(body):
                    yield f"docs/PROMISES.md, {names[0]}: nothing on `{call}`"
    table = text.partition("\n## Promise by promise")[2].partition("\n## ")[0]
    for name, cells in by_promise(table):
        known = calls_of(code_of(name)) | set(WORD.findall(code_of(name)))
        for call in CODE.findall(cells):
            if call not in known:
                yield f"docs/PROMISES.md, promise by promise: {name} has no `{call}`"


def wide() -> str:
    """How many lines are wider than they should be."""
    counts = dict.fromkeys(WIDEST, 0)
    for path in files(*WIDEST):
        lines = path.read_text().splitlines()
        counts[path.suffix] += sum(len(line) > WIDEST[path.suffix] for line in lines)
    parts = [f"{counts[end]} of {end} past {most}" for end, most in WIDEST.items()]
    return "lines too wide: " + ", ".join(parts)


def main() -> int:
    """Prints the findings; the status is 1 where there are any."""
    found = [
        finding
        for rule in (
            handles,
            pages_of_crates,
            stands_on,
            trusted,
            roots,
            edits,
            outside,
            links,
            promises,
        )
        for finding in rule()
    ]
    for finding in found:
        print("tidy:", finding)
    print("tidy:", wide())
    return 1 if found else 0


if __name__ == "__main__":
    sys.exit(main())
