#!/usr/bin/env python3
"""Counts the clauses of crates: how many lines they take, how wide they are, and what is said again and again.

    python/fshell_tools/repository/contract_sizes.py [CRATE..]          a row for each crate, and one for all of them; with no name, for every crate
    python/fshell_tools/repository/contract_sizes.py --list [CRATE..]   the places behind the counts: wide lines, functions with many arguments, and conditions
                                        that stand more than twice

A clause is a `requires` or an `ensures` of a function of src/, from its word to its closing brace; a fact on a type is a ghost
field of a struct or enum there. A condition is the text of a `requires`, without its name, in which every run of blanks is one.
Columns count characters. Tests' crates (NAME_tests) are counted only by their names.
"""

import argparse
import collections
import dataclasses
import glob
import os
import re
import sys
from collections.abc import Iterator

ROOT = os.path.abspath(os.path.join(os.path.dirname(__file__), "..", "..", ".."))
WIDE, TOO_WIDE = 100, 120
MOST_ARGUMENTS = 6
MOST_TIMES = 2

CLAUSE = re.compile(r"^[ \t]*(requires|ensures)\b[^{\n]*\{", re.MULTILINE)
FACT = re.compile(r"^[ \t]*(?:pub )?ghost \w+: \{", re.MULTILINE)
FUNCTION = re.compile(r"\bfn (\w+)")
OPENING, CLOSING = "([{<", ")]}>"
HEADS = (
    "crate",
    "requires",
    "ensures",
    "facts",
    "lines",
    "widest",
    "over 100",
    "over 120",
    "many arguments",
    "said again",
)


class Wrong(Exception):
    """What can't be counted, as a line says it."""


@dataclasses.dataclass(frozen=True)
class Clause:
    """A clause or a fact: its kind, the text between its braces, the file, its first line, and the lines that it takes."""

    kind: str
    text: str
    path: str
    line: int
    lines: tuple[str, ...]

    @property
    def condition(self) -> str:
        """Its text, in which every run of blanks is one."""
        return " ".join(self.text.split())


@dataclasses.dataclass(frozen=True)
class Function:
    """A function, and how many arguments it has."""

    name: str
    arguments: int
    path: str
    line: int


@dataclasses.dataclass(frozen=True)
class Crate:
    """What stands in a crate's src/."""

    name: str
    clauses: tuple[Clause, ...]
    functions: tuple[Function, ...]

    def of(self, kind: str) -> list[Clause]:
        """Its clauses of a kind."""
        return [clause for clause in self.clauses if clause.kind == kind]

    def wide(self, limit: int) -> list[tuple[Clause, int, int]]:
        """The lines of clauses above so many columns: the clause, the line's number and its width."""
        return [
            (clause, clause.line + at, len(line))
            for clause in self.clauses
            for at, line in enumerate(clause.lines)
            if len(line) > limit
        ]

    def crowded(self) -> list[Function]:
        """Its functions with more arguments than there should be."""
        return [function for function in self.functions if function.arguments > MOST_ARGUMENTS]

    def repeated(self) -> dict[str, int]:
        """The conditions that stand more than twice, with how often."""
        times = collections.Counter(clause.condition for clause in self.of("requires"))
        return {condition: count for condition, count in times.items() if count > MOST_TIMES}


def without_comments(text: str) -> str:
    """The text, with blanks in place of comments, so that lines and columns stay."""
    return re.sub(r"//[^\n]*", lambda found: " " * len(found[0]), text)


def closed(text: str, start: int) -> int:
    """The place of the brace that closes the one that stands at a place. Raises Wrong where it is never closed."""
    depth = 0
    for at in range(start, len(text)):
        depth += (text[at] == "{") - (text[at] == "}")
        if depth == 0:
            return at
    raise Wrong("a brace is never closed")


def arguments(text: str, start: int) -> int:
    """How many arguments the function has whose name ends at a place. Raises Wrong where a bracket is never closed."""
    at, depth = start, 0
    if text[at] == "<":
        while True:
            depth += (text[at] == "<") - (text[at] == ">" and text[at - 1] != "-")
            at += 1
            if depth == 0:
                break
    count, blank, depth = 0, True, 0
    for at in range(at, len(text)):
        sign = text[at]
        if sign in OPENING:
            depth += 1
        elif sign in CLOSING and not (sign == ">" and text[at - 1] in "-="):
            depth -= 1
            if depth == 0:
                return count + (not blank)
        if depth == 1 and sign == ",":
            count, blank = count + 1, True
        elif depth > 1 or (sign not in OPENING and not sign.isspace()):
            blank = False
    raise Wrong("a bracket is never closed")


def clauses(text: str, path: str) -> Iterator[Clause]:
    """The clauses and facts of a file, whose text has no comments."""
    found = [*((at[1], at) for at in CLAUSE.finditer(text)), *(("facts", at) for at in FACT.finditer(text))]
    for kind, at in found:
        end = closed(text, at.end() - 1)
        first = text.rfind("\n", 0, at.end()) + 1
        last = text.find("\n", end)
        lines = text[first : last if last >= 0 else len(text)].split("\n")
        inner = text[at.end() : end]
        yield Clause(kind, inner, path, text.count("\n", 0, first) + 1, tuple(line.rstrip() for line in lines))


def functions(text: str, path: str) -> Iterator[Function]:
    """The functions of a file, whose text has no comments."""
    for at in FUNCTION.finditer(text):
        yield Function(at[1], arguments(text, at.end()), path, text.count("\n", 0, at.start()) + 1)


def read(root: str, name: str) -> Crate:
    """What stands in the src/ of a crate of this name. Raises Wrong where there is no such crate."""
    folder = os.path.join(root, "crates", name, "src")
    if not os.path.isdir(folder):
        raise Wrong(f"there is no crate {name}")
    made: list[Clause] = []
    called: list[Function] = []
    for path in sorted(glob.glob(os.path.join(folder, "**", "*.rt"), recursive=True)):
        with open(path, encoding="utf-8") as file:
            text = without_comments(file.read())
        short = os.path.relpath(path, root)
        try:
            made += clauses(text, short)
            called += functions(text, short)
        except (Wrong, IndexError) as fault:
            raise Wrong(f"{short} can't be read: {fault}") from None
    return Crate(name, tuple(made), tuple(called))


def names_in(root: str) -> list[str]:
    """The crates of crates.txt, but for those of tests. Raises Wrong where there is no such file."""
    try:
        with open(os.path.join(root, "crates.txt"), encoding="utf-8") as file:
            found = [re.match(r"(\w+)[\w= +]*:", line) for line in file]
    except OSError:
        raise Wrong(f"{root} has no crates.txt") from None
    return [one[1] for one in found if one and not one[1].endswith("_tests")]


def row(name: str, crates: list[Crate]) -> list[str]:
    """The counts of some crates, under the heads of the table."""
    all_clauses = [clause for crate in crates for clause in crate.clauses]
    counts = [sum(len(crate.of(kind)) for crate in crates) for kind in ("requires", "ensures", "facts")]
    counts.append(sum(len(clause.lines) for clause in all_clauses))
    counts.append(max((len(line) for clause in all_clauses for line in clause.lines), default=0))
    counts += [sum(len(crate.wide(limit)) for crate in crates) for limit in (WIDE, TOO_WIDE)]
    counts.append(sum(len(crate.crowded()) for crate in crates))
    counts.append(sum(len(crate.repeated()) for crate in crates))
    return [name, *map(str, counts)]


def table(crates: list[Crate]) -> str:
    """The rows of these crates as a table of Markdown, and behind them, of several, that of all."""
    rows = [list(HEADS), ["---"] * len(HEADS), *(row(crate.name, [crate]) for crate in crates)]
    if len(crates) > 1:
        rows.append(row("all", crates))
    return "".join("| " + " | ".join(cells) + " |\n" for cells in rows)


def places(crates: list[Crate]) -> Iterator[str]:
    """A line for each thing that the counts of limits count."""
    for crate in crates:
        for clause, line, width in crate.wide(WIDE):
            yield f"{clause.path}:{line}: {width} columns"
        for function in crate.crowded():
            yield f"{function.path}:{function.line}: {function.name} has {function.arguments} arguments"
        for condition, count in sorted(crate.repeated().items(), key=lambda item: (-item[1], item[0])):
            yield f"{crate.name}: {count} times: {condition}"


def main() -> int:
    """Prints the table, or the places; the status is 2 where something can't be read, with a line."""
    parser = argparse.ArgumentParser(description="Counts the clauses of crates.")
    parser.add_argument("--list", action="store_true", help="list the places behind the counts of limits")
    parser.add_argument("--root", default=ROOT, metavar="FOLDER", help="the repository (this one, where not given)")
    parser.add_argument("crates", nargs="*", metavar="CRATE", help="the crates (all, where none is given)")
    given = parser.parse_args()
    try:
        crates = [read(given.root, name) for name in given.crates or names_in(given.root)]
    except Wrong as fault:
        print(f"clauses: {fault}", file=sys.stderr)
        return 2
    except (OSError, UnicodeDecodeError) as fault:
        print(f"clauses: a file can't be read: {fault}", file=sys.stderr)
        return 2
    print("".join(f"{line}\n" for line in places(crates)) if given.list else table(crates), end="")
    return 0


if __name__ == "__main__":
    sys.exit(main())
