#!/usr/bin/python3
"""Writes the cases of crates/plain_judge: maps with certificates that are right, and with altered ones.

Usage: judge_cases.py PROGRAM > crates/plain_judge/data/cases.txt

PROGRAM is the built command, which makes the right certificates. The seed is fixed, so the same program writes the
same cases: the worked rows of the form `check`, then small maps by chance, then made coverages. A line is a keyword and a text: `map` a topology, `demand` what is demanded of the certificates that
follow (version, bound, weight across, weight up), `certificate` a certificate for the map above.
"""

import copy
import json
import pathlib
import random
import subprocess
import sys
from collections.abc import Iterator

Point = tuple[int, int]

ROWS = pathlib.Path(__file__).resolve().parent.parent / "crates/worked_rows/data/rows.json"


def line_of_points(rng: random.Random, size: int, count: int) -> list[Point]:
    """A line of positions from left to right, with bumps."""
    xs = sorted(rng.sample(range(size), count))
    y = rng.randrange(size)
    line = []
    for x in xs:
        line.append((x, y))
        y = max(0, min(size - 1, y + rng.randint(-3, 3)))
    return line if rng.random() < 0.5 else [(b, a) for a, b in reversed(line)]


def random_map(rng: random.Random) -> str:
    """A topology of a few short arcs, some of which begin where another ends, and a few points between them."""
    size = rng.choice([8, 14, 24])
    arcs: list[list[Point]] = []
    for _ in range(rng.randint(1, 4)):
        arc = line_of_points(rng, size, rng.randint(2, 8))
        if arcs and rng.random() < 0.4:
            arc.insert(0, rng.choice(arcs)[rng.choice([0, -1])])
        arcs.append([p for k, p in enumerate(arc) if k == 0 or p != arc[k - 1]])
    points = [(rng.randrange(size), rng.randrange(size)) for _ in range(rng.randint(0, 4))]
    topology = {
        "type": "Topology",
        "objects": {"points": {"type": "MultiPoint", "coordinates": points}},
        "arcs": [arc if len(arc) > 1 else arc * 2 for arc in arcs],
    }
    return json.dumps(topology, separators=(",", ":"))


def answer(program: str, words: list[str], text: str) -> str:
    """What the program writes for these words with the text on standard input."""
    run = subprocess.run([program, *words], input=text.encode(), stdout=subprocess.PIPE, check=True)
    return run.stdout.decode()


def altered(rng: random.Random, certificate: str) -> Iterator[str]:
    """Certificates that say something else: of each kind one, where the certificate has room for it."""
    whole = json.loads(certificate)
    chains = [k for k, chain in enumerate(whole["chains"]) if len(chain["layers"]) > 2]
    if not chains:
        return
    k = rng.choice(chains)
    last = len(whole["chains"][k]["layers"]) - 1
    seen = {certificate}
    for change in range(6):
        other = copy.deepcopy(whole)
        chain = other["chains"][k]
        inner = rng.randrange(1, last)
        if change == 0:
            chain["kept"] = list(range(last + 1))
            chain["layers"][0] = last
        elif change == 1:
            chain["kept"] = [0, last]
            chain["layers"][0] = 1
        elif change == 2:
            chain["layers"][inner] += rng.choice([1, 2, 3])
        elif change == 3:
            chain["kept"] = sorted(set(chain["kept"]) ^ {inner})
            chain["layers"][0] = len(chain["kept"]) - 1
        elif change == 4:
            chain["kept"] = [0, inner] if rng.random() < 0.5 else [inner, last]
        else:
            chain["layers"] = chain["layers"][1:]
        text = json.dumps(other, separators=(",", ":"), sort_keys=True)
        if text not in seen:
            seen.add(text)
            yield text
    if rng.random() < 0.1:
        other = copy.deepcopy(whole)
        del other["chains"][k]
        yield json.dumps(other, separators=(",", ":"), sort_keys=True)


def case(program: str, rng: random.Random, text: str, held: bool) -> Iterator[str]:
    """The lines of one map: with `--hold`, and in one of three cases with weights."""
    bound = rng.choice([0, 1, 2, 3, 5, 9, 40])
    across, up = (rng.randint(1, 4), rng.randint(1, 4)) if rng.random() < 0.33 else (1, 1)
    options = ["--hold"] if held else []
    version = 2 if held else 1
    if (across, up) != (1, 1):
        options += ["--weights", str(across), str(up)]
        version = 3
    certificate = answer(program, ["layers", *options, str(bound), "-"], text)
    yield f"map {text}"
    yield f"demand {version} {bound} {across} {up}"
    yield f"certificate {certificate}"
    for other in altered(rng, certificate):
        yield f"certificate {other}"


def worked(words: list[str], texts: dict[str, object]) -> Iterator[str]:
    """The lines of a worked row of the form `check`, where its texts are written out."""
    held = "--hold" in words
    across, up = "1", "1"
    if "--weights" in words:
        across, up = words[words.index("--weights") + 1 :][:2]
    bound, file, _, cert = words[-4:]
    version = 3 if "--weights" in words else 2 if held else 1
    topology, certificate = texts[file], texts[cert]
    if isinstance(topology, str) and isinstance(certificate, str):
        yield f"map {topology}"
        yield f"demand {version} {bound} {across} {up}"
        yield f"certificate {certificate}"


def rows() -> Iterator[str]:
    """The lines of the worked rows in which a certificate is judged."""
    for row in json.loads(ROWS.read_text()):
        judged = row["status"] == 0 or row["out"].startswith("no: ")
        if row["words"][:1] == ["check"] and judged and row["out"] != "no: form\n":
            yield from worked(row["words"], row["texts"])


def lines(program: str) -> Iterator[str]:
    """All lines."""
    yield from rows()
    rng = random.Random(20261201)
    for _ in range(240):
        yield from case(program, rng, random_map(rng), held=True)
    for seed in range(8):
        yield from case(program, rng, answer(program, ["make", "1", "2", str(seed)], ""), held=False)


def main() -> None:
    """Writes the cases to standard output."""
    if len(sys.argv) != 2:
        sys.exit(__doc__)
    for line in lines(sys.argv[1]):
        print(line)


if __name__ == "__main__":
    main()
