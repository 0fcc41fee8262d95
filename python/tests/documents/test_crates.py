"""The crates as crates.txt has them, and what docs/ says of their order.

    python/tests/documents/test_crates.py            says what isn't as crates.txt has it, which bin/test does too
    python/tests/documents/test_crates.py --write    makes the tables of docs/ARCHITECTURE.md anew

Each crate stands on those above it in crates.txt alone. The table of layers is made from crates.txt; in the table of crates the
second column is the first sentence of the crate's head (lib.rt, or main.rt) without citations, and the third one has its home
in the table. The sections of docs/PROVED.md have the same order.
"""

import dataclasses
import os
import re
import sys
from collections.abc import Callable, Iterator

from tests import environment
from tests.text_files import put, text_of

ARCHITECTURE = os.path.join(environment.ROOT, "docs", "ARCHITECTURE.md")
PROVED = os.path.join(environment.ROOT, "docs", "PROVED.md")
LAYERS = re.compile(r"(?<=\| Layer \| Code \| Laws \|\n\|---\|---\|---\|\n)(?:\|.*\n)*")
CRATES = re.compile(r"(?<=\| Crate \| Does \| Contract used above \|\n\|---\|---\|---\|\n)(?:\|.*\n)*")
SOURCES = "ISO/IEC|FQL:|Holzer|Tseitin|clause learning"  # what begins a citation, which the table leaves to the head
PROGRAMS = "programs of bench/ and of the tests"  # the heading of those that are no libraries


@dataclasses.dataclass(frozen=True)
class Crate:
    """A crate's line: its name, what it uses, and the heading above it."""

    name: str
    uses: tuple[str, ...]
    heading: str

    @property
    def layer(self) -> str:
        """The layer whose heading stands above it."""
        return self.heading.partition(":")[0]

    @property
    def is_of_tests(self) -> bool:
        """Whether it has tests, or what they share."""
        return self.name.endswith("_tests") or self.name.startswith("test_")


def crates() -> list[Crate]:
    """All crates in their order."""
    found, heading = [], ""
    for line in text_of(os.path.join(environment.ROOT, "crates.txt")).split("\n\n", 1)[1].splitlines():
        if line.startswith("# "):
            heading = line[2:].strip()
        elif ":" in line:
            name, _, uses = line.partition("#")[0].partition(":")
            found.append(Crate(name.strip(), tuple(uses.split()), heading))
    return found


def out_of_order(given: list[Crate]) -> Iterator[str]:
    """A line for each crate that stands above one that it uses, or beside none of its name. What is no crate is a library."""
    names, above = {crate.name for crate in given}, set[str]()
    for crate in given:
        for used in crate.uses:
            if used in names and used not in above:
                yield f"crates.txt: {crate.name} stands above {used}, which it uses"
        above.add(crate.name)
    if len(names) != len(given):
        yield "crates.txt: a crate has two lines"
    folders = set(os.listdir(os.path.join(environment.ROOT, "crates")))
    yield from (f"crates.txt: {name} has no folder, or no line" for name in sorted(names ^ folders))


def head(name: str) -> str:
    """The first sentence of a crate's head, without its full stop."""
    source = os.path.join(environment.ROOT, "crates", name, "src")
    path = next(
        path for path in (os.path.join(source, "lib.rt"), os.path.join(source, "main.rt")) if os.path.exists(path)
    )
    words = " ".join(
        line[3:].strip() for line in text_of(path).partition("\n//!\n")[0].splitlines() if line.startswith("//!")
    )
    sentence = re.sub(r"\[(`\w+`)\]", r"\1", re.split(r"\.(?:\s|$)", words)[0])
    sentence = re.sub(rf" \((?:{SOURCES})[^()]*\)", "", sentence)
    return sentence[:1].lower() + sentence[1:] if re.match(r"[A-Z][a-z]*\b", sentence) else sentence


def layer_table(given: list[Crate]) -> str:
    """The rows of docs/ARCHITECTURE.md that say which crates are code and which laws, layer by layer."""
    rows: dict[str, tuple[list[str], list[str]]] = {}
    for crate in given:
        if not crate.is_of_tests and crate.layer != PROGRAMS:
            rows.setdefault(crate.layer, ([], []))[crate.heading != crate.layer].append(crate.name)
    return "".join(f"| {layer} | {', '.join(code)} | {', '.join(laws)} |\n" for layer, (code, laws) in rows.items())


def crate_table(given: list[Crate], before: str) -> str:
    """The rows of docs/ARCHITECTURE.md that say what each crate does; the third column is kept as it was before."""
    kept = {row[1]: row[2] for row in re.finditer(r"^\| (\w+) \|.*\| ?(.*?) ?\|$", before, re.MULTILINE)}
    rows = [(crate.name, head(crate.name), kept.get(crate.name, "")) for crate in given if not crate.is_of_tests]
    return "".join(f"| {name} | {does} | {contract} |\n".replace("|  |", "| |") for name, does, contract in rows)


def made(given: list[Crate], text: str) -> str:
    """docs/ARCHITECTURE.md with the tables that are due."""
    text = LAYERS.sub(lambda _: layer_table(given), text, count=1)
    return CRATES.sub(lambda rows: crate_table(given, rows[0]), text, count=1)


def sections(text: str) -> list[tuple[str, str]]:
    """The crates that have a section of docs/PROVED.md, with its text."""
    parts = re.split(r"^### (\w+)$", text, flags=re.MULTILINE)
    return list(zip(parts[1::2], parts[2::2]))


def wrong() -> Iterator[str]:
    """A line for each thing that isn't as crates.txt has it."""
    given = crates()
    yield from out_of_order(given)
    libraries = [crate.name for crate in given if not crate.is_of_tests and crate.layer != PROGRAMS]
    if [name for name, _ in sections(text_of(PROVED))] != libraries:
        yield "docs/PROVED.md: the sections aren't the crates of crates.txt in their order"
    if text_of(ARCHITECTURE) != made(given, text_of(ARCHITECTURE)):
        yield "docs/ARCHITECTURE.md: its tables are others; bin/test --write makes them anew"


def tried() -> tuple[int, list[str]]:
    """How many things were looked at, and a line for each that is wrong."""
    found = list(wrong())
    return max(1, len(found)), found


def parts() -> list[Callable[[], tuple[int, list[str]]]]:
    """One part, which looks at all pages."""
    return [tried]


def write() -> None:
    """Puts the tables into docs/ARCHITECTURE.md."""
    put(ARCHITECTURE, made(crates(), text_of(ARCHITECTURE)))


if __name__ == "__main__":
    if sys.argv[1:] == ["--write"]:
        write()
    found = list(wrong())
    print(*found, sep="\n", end="\n" if found else "")
    sys.exit(1 if found else 0)
