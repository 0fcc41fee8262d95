"""The table of docs/ADAPT.md: each row's C is refused as it says, and what stands beside it is accepted."""

import os
import re
from collections.abc import Iterator

from tests import environment
from tests.tools import put, run, test_hints


def rows() -> Iterator[list[str]]:
    """The rows of the table: the C, the refusal, and what to write instead."""
    with open(os.path.join(environment.ROOT, "docs", "ADAPT.md"), encoding="utf-8") as file:
        table = file.read().split("| C that you have |")[1].split("\n\n")[0]
    for line in table.splitlines()[2:]:
        yield [cell.strip() for cell in line.strip("|").split(" | ")]


def answer(folder: str, text: str) -> str:
    """What the program answers to a source, a function added, so that it has a goal."""
    put(folder, {"a.c": text + "\nint goal(int x) { return x; }\n"})
    return run(folder, ["goals", "cover ID", "a.c"]).stderr.removeprefix("error ").split(" a.c")[0].strip()


def each_row_is_as_it_says(folder: str) -> Iterator[bool]:
    for given, refusal, instead in rows():
        yield answer(folder, given.strip("`")) == refusal
        code = re.match(r"`([^`]*[;}])`", instead)
        yield not code or answer(folder, code[1]) == ""


TRIED = [((), each_row_is_as_it_says)] + test_hints.TRIED
