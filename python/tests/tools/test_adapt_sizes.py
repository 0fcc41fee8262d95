"""How large the unwindings are of what fshell adapt writes of pointers, and how many goals it has, on the fifteen small programs of
python/tests/tools/adapt_tables/pointers: a cursor, a list by pointers to pointers, a tokenizer, a ring, a heap, a header, bytes of integers ..

Goals are counted by hand, two for each condition, those of the models among them. What size is due is that of the same programs written
in the profile by hand, of which one statement stands for one; what is written may have a tenth more, and two have up to 17 hundredths
more: `packet`, where a struct that memcpy fills stands as its bytes and is reached by an index, and `bytes`, where one function
meets an integer and an array in one column, which by hand are two functions with eight goals. The program tells no size: it refuses
one above 4,194,304 (code 81), so products of 32 bits, of which each weighs 8 * 32 * 32, fill up what is left in a function that calls
the entry."""

import os
import subprocess
from collections.abc import Callable, Iterator
from typing import NamedTuple

from tests import environment
from tests.tools import run

PROGRAM = os.environ.get("FSHELL", environment.LAUNCHER)
SOURCES = os.path.join(environment.HERE, "tools", "adapt_tables", "pointers")
LIMIT, PRODUCT = 4_194_304, 8 * 32 * 32


class Due(NamedTuple):
    """A program: its conditions, the turns at which its size is known by hand, this size, the most turns before 81, of how many hundredths
    of the size what is written may be, and words for fshell adapt."""

    name: str
    conditions: int
    turns: int
    size: int
    most: int
    hundredths: int = 110
    words: tuple[str, ...] = ()


EVERY = [
    Due("crc", 4, 4, 175_616, 26),
    Due("memory", 6, 5, 151_552, 40),
    Due("token", 13, 4, 1_165_312, 7),
    Due("ring", 8, 4, 1_265_152, 8),
    Due("list", 11, 4, 807_424, 11),
    Due("search", 4, 4, 129_024, 40),
    Due("utf8", 11, 4, 814_592, 8),
    Due("base64", 6, 9, 3_299_328, 10),
    Due("json", 10, 5, 260_096, 40),
    Due("packet", 10, 8, 379_904, 40, 117),
    Due("sort", 7, 4, 1_362_944, 6),
    Due("stack", 11, 4, 831_488, 9, words=("--pool", "3,4")),
    Due("copy", 5, 7, 492_544, 40),
    Due("trim", 8, 6, 197_120, 40),
    Due("bytes", 3, 5, 261_120, 40, 117),
]


def fits(folder: str, source: str, products: int, turns: int) -> bool:
    """Whether the unwinding of an entry isn't refused beside so many products."""
    with open(os.path.join(folder, "filled.c"), "w", encoding="ascii") as file:
        file.write("int filled(int x) { " + "x = x * x; " * products + "return entry(); }\n")
    words = [PROGRAM, "bounds", "filled", source, "filled.c", "--turns", str(turns), "--answers", "16"]
    ended = subprocess.run(words, cwd=folder, capture_output=True, text=True)
    assert ended.returncode in (0, 1) or ended.stderr.startswith("error 81 "), ended.stderr
    return ended.returncode in (0, 1)


def of_program(due: Due) -> Callable[[str], Iterator[bool]]:
    """The case of a program: its goals, its size, and the most turns."""

    def made(folder: str) -> Iterator[bool]:
        words = ["adapt", os.path.join(SOURCES, f"{due.name}.c"), "-o", "new", *due.words]
        yield run(folder, words).returncode == 0
        source = f"new/{due.name}.c"
        asked = [PROGRAM, "goals", "cover @CONDITIONEDGE", source]
        goals = subprocess.run(asked, cwd=folder, capture_output=True, text=True)
        yield goals.stdout.count("\ngoal ") == 2 * due.conditions
        left = (LIMIT - due.size * due.hundredths // 100) // PRODUCT
        yield fits(folder, source, left, due.turns)
        yield not fits(folder, source, (LIMIT - due.size // 2) // PRODUCT, due.turns)  # (so the products do count)
        yield fits(folder, source, 0, due.most)

    made.__name__ = f"pointers of {due.name}.c cost what they cost by hand"
    return made


NEEDS: tuple[str, ...] = ("pycparser", "gcc")
TRIED = [(NEEDS, of_program(due)) for due in EVERY]
