#!/usr/bin/env python3
"""Counts the definitions on which the clauses of the main theorem rest, as the table of docs/THEOREM.md tells it.

    python/fshell_tools/repository/trusted_base.py            prints the table
    python/fshell_tools/repository/trusted_base.py --write    puts it into docs/THEOREM.md
    python/fshell_tools/repository/trusted_base.py --of NAME  lists the definitions of a row, crate by crate, the lowest first

A definition is one of a crate's specs/, or a type of its src/ that contracts see. It rests on those that it names, by the names
that its file imports or defines; so each row has all that its definitions reach. Lines are those with text, without comments.
The definitions of the kit's library, and the clauses themselves, are not counted. bin/test compares the table.
"""

import argparse
import dataclasses
import functools
import glob
import os
import re
import sys
from collections.abc import Iterator

ROOT = os.path.abspath(os.path.join(os.path.dirname(__file__), "..", "..", ".."))
HOME = os.path.join(ROOT, "docs", "THEOREM.md")
TABLE = re.compile(
    r"(?<=<!-- made by python/fshell_tools/repository/trusted_base\.py -->\n\n).*?(?=\n<!-- to here -->)", re.DOTALL
)
NAME = re.compile(r"[^\s(){}\[\],;.:]+")
# what is no use of a name: a field that is read, declared or given, and a variable that is bound
BOUND = re.compile(r"(?<=\w)\.\w+|\bpub \w+(?= :)|[({](?:\w+ )+(?=:)|λ (?:\w+ )*\w+\.|\b\w+ =(?= )")
HEAD = re.compile(r"( *)(?:abbrev pub|unfoldable pub|pub record|pub data|pub codata) (\S+)")
USE = re.compile(r"use Rattle\.([\w.]+?)(?:\.\{([^}]*)\}| as (\w+))$")
TYPE = re.compile(r"pub (?:enum|struct) (\w+)")

# each row: what it is of, and the definitions in which it begins, by crate and file of specs/
ENDS = (
    "command/Outcome:Ends",
    "command/Outcome:writes",
    "command/Reads:reads",
    "command/Watched:watched",
    "command_words/Request:request_of",
)
RUN = (*ENDS, "command/Stages:OfSources")
ROWS = {
    "the whole theorem": (
        *ENDS,
        "command/Due:IsDue",
        "command/Accepted:Certifies",
        "command/Accepted:CertifiesBounds",
    ),
    "a certificate that `check` accepted": ("command/Accepted:Certifies",),
    "one that `check-bounds` accepted": ("command/Accepted:CertifiesBounds",),
    "`measure`": (*RUN, "command/Due:IsDueOfMeasure"),
    "`goals`": (*RUN, "command/Due:IsDueOfGoals"),
    "`graph`": (*RUN, "command/Due:IsDueOfGraph"),
    "`runs`": (*RUN, "command/Due:IsDueOfRuns"),
    "`trees`": (*ENDS, "command/Stages:OfTrees", "command/Due:IsDueOfTrees"),
    "`events`": (*ENDS, "command/Stages:OfTrees", "command/Due:IsDueOfEvents"),
    "`generate`": (*RUN, "command/Generate:IsDueOfGenerate"),
    "`prove`": (*RUN, "command/Prove:IsDueOfProve"),
    "`check`": (*RUN, "command/Check:IsDueOfCheck"),
    "`bounds`, `prove-bounds`": (*RUN, "command/Bounds:IsDueOfBounds"),
    "`check-bounds`": (*RUN, "command/CheckBounds:IsDueOfCheckBounds"),
    "`least`": (*RUN, "command/Least:IsDueOfLeast"),
    "`traces`": (*RUN, "command/Due:IsDueOfTraces"),
    "`replay`": (*RUN, "command/Due:IsDueOfReplay"),
    "`sample`": (*ENDS, "command/Sample:IsDueOfSample"),
    "what a run is": ("c_meaning/Runs:IsRun",),
    "what it means that a run hits a goal": ("measurer_hits/hits.Hits:Hits",),
    "which sources have which automaton": ("c_front/Automata:IsAutomatonOf",),
}


@dataclasses.dataclass(frozen=True)
class Definition:
    """A definition: its crate, its file, its name, its text without comments, and what its file calls by which name."""

    crate: str
    file: str
    name: str
    text: str

    @property
    def lines(self) -> int:
        """How many lines have text; comments are gone from it."""
        return sum(1 for line in self.text.splitlines() if line.strip())


@dataclasses.dataclass
class File:
    """A file's definitions by their names (also those of their forms), and what it imports: names, and files by another name."""

    definitions: dict[str, Definition]
    names: dict[str, tuple[str, str]]
    others: dict[str, str]


def without_comments(text: str, mark: str) -> str:
    """A text without what stands behind a comment's mark, line by line."""
    return "\n".join(re.split(rf"(?:^|\s){mark}", line)[0] for line in text.splitlines())


def imports(text: str) -> tuple[dict[str, tuple[str, str]], dict[str, str]]:
    """What a file of specs/ imports: each name with the module and the name there; and modules by the names given to them."""
    names, others = {}, {}
    for line in text.splitlines():
        found = USE.match(line.strip())
        if found and found[2] is not None:
            for part in found[2].split(","):
                there, _, here = part.strip().partition(" as ")
                names[here or there] = (found[1], there)
        elif found:
            others[found[3]] = found[1]
    return names, others


def forms(text: str) -> Iterator[str]:
    """The names that a definition gives beside its own: the constructors of a data type."""
    if re.match(r" *pub data", text):
        yield from re.findall(r"^\s+(\w[\w'-]*) :", text, re.MULTILINE)


def blocks(text: str) -> Iterator[tuple[str, str]]:
    """The definitions of a file of specs/, each with its name."""
    lines = without_comments(text, "--").splitlines()
    heads = [at for at, line in enumerate(lines) if HEAD.match(line)]
    for at, following in zip(heads, [*heads[1:], len(lines)]):
        found = HEAD.match(lines[at])
        assert found
        inner = [line for line in lines[at:following] if not re.match(r"use |module |pub mod ", line)]
        yield found[2], "\n".join(inner)


@functools.cache
def specification(crate: str, module: str) -> File | None:
    """A file of a crate's specs/."""
    path = os.path.join(ROOT, "crates", crate, "specs", *module.split(".")) + ".antt"
    if not os.path.exists(path):
        return None
    with open(path, encoding="utf-8") as file:
        text = file.read()
    definitions: dict[str, Definition] = {}
    for name, block in blocks(text):
        made = Definition(crate, module, name, block)
        definitions |= {form: made for form in [*forms(block), name]}
    return File(definitions, *imports(text))


@functools.cache
def types(crate: str) -> dict[str, tuple[Definition, str]]:
    """The types of a crate's src/ by their names, each with its file's text."""
    found = {}
    for path in sorted(glob.glob(os.path.join(ROOT, "crates", crate, "src", "**", "*.rt"), recursive=True)):
        with open(path, encoding="utf-8") as file:
            text = without_comments(file.read(), "//")
        for at in TYPE.finditer(text):
            end = re.compile(r"^\}|;$", re.MULTILINE).search(text, at.start())
            block = text[at.start() : end.end() if end else len(text)]
            found[at[1]] = Definition(crate, "src/" + os.path.basename(path), at[1], block), text
    return found


def resolved(path: str, name: str) -> Definition | None:
    """The definition that an import names, if it is one of a crate's."""
    parts = path.split(".")
    if len(parts) < 3 or parts[1] != "specs":
        return None
    crate, inner = parts[0], parts[2:]
    if inner[0] == "declared":
        known = [part for part in [*inner[1:], name] if part in types(crate)]
        return types(crate)[known[0]][0] if known else None
    found = specification(crate, ".".join(inner))
    return found.definitions.get(name) if found else None


def used(name: str, words: set[str]) -> bool:
    """Whether a text with these words uses a name; of one with gaps, each part between them stands there."""
    return all(part in words for part in name.split("◌") if part)


def of_specification(one: Definition, file: File) -> Iterator[Definition]:
    """What a definition of specs/ names."""
    words = set(NAME.findall(BOUND.sub(" ", one.text)))
    for name, other in file.definitions.items():
        if used(name, words):
            yield other
    for name, (path, there) in file.names.items():
        if used(name, words) and (found := resolved(path, there)):
            yield found
    for alias, path in file.others.items():
        for name in re.findall(rf"\b{alias}\.([^\s(){{}}\[\],;:.]+)", one.text):
            if found := resolved(path, name):
                yield found


def of_type(one: Definition) -> Iterator[Definition]:
    """What a type names: types of its own crate, and of those that its file imports."""
    text = types(one.crate)[one.name][1]
    words = set(re.findall(r"\w+", one.text))
    crates = [one.crate, *re.findall(r"^use (\w+)::", text, re.MULTILINE)]
    for name in words:
        found = next((types(crate)[name][0] for crate in crates if name in types(crate)), None)
        if found:
            yield found


def rests_on(roots: list[Definition]) -> set[Definition]:
    """All that definitions reach, with them."""
    reached, waiting = set(roots), list(roots)
    while waiting:
        one = waiting.pop()
        file = None if one.file.startswith("src/") else specification(one.crate, one.file)
        for other in of_specification(one, file) if file else of_type(one):
            if other not in reached:
                reached.add(other)
                waiting.append(other)
    return reached


def row(name: str) -> set[Definition]:
    """The definitions of a row. Raises SystemExit where no crate has one of its roots."""
    roots = []
    for root in ROWS[name]:
        crate, _, rest = root.partition("/")
        module, _, word = rest.partition(":")
        found = resolved(f"{crate}.specs.{module}", word)
        if found is None:
            raise SystemExit(f"believed: there is no {root}")
        roots.append(found)
    return rests_on(roots)


def table() -> str:
    """The table of docs/THEOREM.md, as it is due."""
    lines = ["| Of | Definitions | Lines |", "|---|---|---|"]
    for name in ROWS:
        found = row(name)
        lines.append(f"| {name} | {len(found):,} | {sum(one.lines for one in found):,} |")
    return "".join(line + "\n" for line in lines)


def wrong() -> list[str]:
    """A line where docs/THEOREM.md has another table than the one that is due."""
    with open(HOME, encoding="utf-8") as file:
        found = TABLE.search(file.read())
    is_due = found is not None and found[0] == table()
    return [] if is_due else ["docs/THEOREM.md: its counts are others; bin/test --write puts them right"]


def write() -> None:
    """Puts the table into its place, in a new file that is then moved there."""
    with open(HOME, encoding="utf-8") as file:
        text = file.read()
    with open(HOME + ".new", "w", encoding="utf-8") as file:
        file.write(TABLE.sub(lambda _: table(), text))
    os.replace(HOME + ".new", HOME)


def main() -> int:
    """Prints the table, puts it into its place, or lists a row; the status is 0."""
    parser = argparse.ArgumentParser(
        description="Counts the definitions on which the clauses of the main theorem rest."
    )
    parser.add_argument("--write", action="store_true", help="put the table into docs/THEOREM.md")
    parser.add_argument("--of", metavar="NAME", choices=list(ROWS), help="list the definitions of this row")
    given = parser.parse_args()
    if given.write:
        write()
    elif given.of:
        with open(os.path.join(ROOT, "crates.txt"), encoding="utf-8") as file:
            order = [line.partition(":")[0] for line in file]
        for one in sorted(row(given.of), key=lambda one: (order.index(one.crate), one.file, one.name)):
            print(f"{one.lines:3} {one.crate}/{one.file} {one.name}")
    else:
        print(table(), end="")
    return 0


if __name__ == "__main__":
    sys.exit(main())
