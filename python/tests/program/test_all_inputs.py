"""`least` and `bounds` beside all inputs of small programs, in order.

Each program below has at most 16 bits of arguments and answers, so that all its inputs can be listed, by their words and then
by their answer, each as an unsigned number. `runs` tells the edges of each, and the counters of loops, the frames and the
answers that were read are counted here from the marks that `graph` shows. So of each bounds it is known which inputs leave
them: `bounds` must say that they suffice exactly where none does, and else name one that does. Of each goal `least` must name
the first input of those that stay within, that `measure` says covers it, and say that it is refuted where there is none.
"""

import functools
import itertools
import json
import os
import re
import tempfile
from collections.abc import Callable, Iterable, Iterator, Sequence
from dataclasses import dataclass

from tests import environment
from tests.parallel_groups import Outcome

CHUNK = 10000
Given = tuple[tuple[int, ...], tuple[int, ...]]  # the words and the answers of an input
Bounds = tuple[int, int, int]  # turns, frames and answers
EDGE = re.compile(
    r"edge \d+ from (\d+) to (\d+) .*?:\d+:\d+ [A-Z]+ (skip|assign|clear|guard|call|return|answer|assert|assume)"
    r"(?: (?:true|false|\w+))??( decision)?( outcome)?( enter)?( back)?(?: (?:label|writes|reads) .*)?"
)


@dataclass(frozen=True)
class Program:
    """A program whose entry is f, with the widths of its arguments and of its one answer, where it has one, and whether each
    argument has a sign; queries, each with the ends that count, and the bounds that are tried, as turns, frames and answers.
    """

    name: str
    widths: tuple[int, ...]
    signs: tuple[bool, ...]
    queries: tuple[tuple[str, str], ...]
    bounds: tuple[tuple[int, int, int], ...] = ((4, 8, 16),)
    answer: int = 0

    def inputs(self) -> Iterator[Given]:
        """All inputs in order, each as its words and its answers."""
        words = itertools.product(*(range(2**width) for width in self.widths))
        answers: Iterable[int | None] = range(2**self.answer) if self.answer else (None,)
        for given in words:
            for answer in answers:
                yield given, () if answer is None else (answer,)


SOURCES = {
    "branches": "int f(signed char a, unsigned char b) {\n  if (a < -3 && b > 200) {\n    return 1;\n  }\n  if (a * b == 77) {\n    return 2;\n  }\n"
    "  if (a % 16 == 15 || b - a == 300) {\n    return 3;\n  }\n  return 0;\n}\n",
    "loop": "int f(unsigned char n) {\n  int s = 0;\n  for (int i = 0; i < n; i++) {\n    s = s + i;\n    if (s > 5) {\n      return s;\n    }\n  }\n"
    "  return s;\n}\n",
    "nested": "int f(unsigned char n, signed char m) {\n  assume(n < 7 && m > -5 && m < 9);\n  int c = 0;\n  for (int i = 0; i < n; i++) {\n"
    "    int j = i;\n    while (j < m) {\n      j = j + 1;\n      c = c + 1;\n    }\n  }\n  if (c == 6) {\n    return 1;\n  }\n  return 0;\n}\n",
    "recursion": "int depth(int n) {\n  if (n <= 0) {\n    return 0;\n  }\n  return 1 + depth(n / 2);\n}\nint f(unsigned char n) {\n"
    "  int d = depth(n);\n  if (d == 3) {\n    return 1;\n  }\n  if (d > 5) {\n    return 2;\n  }\n  return 0;\n}\n",
    "answer": "unsigned char in(void);\nint f(signed char x) {\n  int s = x;\n  if (x < 0) {\n    s = s + in();\n  }\n  if (s == 100) {\n"
    "    return 1;\n  }\n  if (s == -100) {\n    return 2;\n  }\n  return 0;\n}\n",
    "element": "int f(signed char i, signed char v) {\n  signed char a[5] = {9, 8, 7, 6, 5};\n  a[i] = v;\n  assert(a[1] >= 0);\n"
    "  if (a[0] + a[4] == 0) {\n    return 1;\n  }\n  return a[2];\n}\n",
    "wide": "int f(short x) {\n  unsigned short y = x;\n  if (x < 0 && y / 1000 == 40) {\n    return 1;\n  }\n  switch (x) {\n  case -1:\n    return 2;\n"
    "  case 12345:\n  case 777:\n    return 3;\n  default:\n    break;\n  }\n  return 0;\n}\n",
    "endless": "int f(unsigned char x) {\n  while (x > 250) {\n    if (x == 252) {\n      x = 251;\n    }\n  }\n  int i = 0;\n  do {\n    i = i + 1;\n"
    "  } while (i < x % 4);\n  return i;\n}\n",
}
PAIR, BYTE = (8, 8), (8,)
GUARDS = (("cover @CONDITIONEDGE", "returned"),)
TABLE = [
    Program(
        "branches", PAIR, (True, False), (*GUARDS, ("cover EDGES(@STMTTYPE(RETURN)) passing ^{a > 4}", "returned"))
    ),
    Program("loop", BYTE, (False,), (("cover EDGES(ID)", "returned"),), ((4, 8, 16), (2, 8, 16), (0, 1, 0), (3, 1, 0))),
    Program("nested", PAIR, (False, True), GUARDS, ((6, 1, 0), (8, 1, 0), (7, 2, 1))),
    Program("recursion", BYTE, (False,), GUARDS, ((0, 3, 0), (0, 5, 0), (0, 9, 0), (0, 10, 0))),
    Program("answer", BYTE, (True,), GUARDS, ((0, 1, 0), (0, 1, 1)), 8),
    Program("element", PAIR, (True, True), (("cover NODES(ID)$", "trapped"), ("cover EDGES(ID)", "returned"))),
    Program("wide", (16,), (True,), GUARDS),
    Program(
        "endless",
        BYTE,
        (False,),
        (('cover EDGES(ID) + @LINE(4)."ID*".@LINE(3)', "returned"),),
        ((3, 1, 0), (2, 1, 0), (1, 1, 0)),
    ),
]


def run(words: list[str], folder: str) -> tuple[int, str, str]:
    """How the program ends in a folder: its status and both texts."""
    return environment.ended([environment.program(), *words], folder)


class Automaton:
    """What `graph` says of edges: their ends, what they do, whether they enter or go round a loop; and the depth of nodes."""

    def __init__(self, text: str) -> None:
        self.depths = [int(line.rsplit(" ", 1)[1]) for line in text.splitlines() if line.startswith("node ")]
        found = [EDGE.fullmatch(line) for line in text.splitlines() if line.startswith("edge ")]
        self.edges = [edge.groups() if edge else () for edge in found]

    def most(self, edges: Iterable[int]) -> Bounds:
        """The greatest counter of a loop, the most frames, and how many answers were read, over the states of a run."""
        frames, turns, deepest, answers = [list[int]()], 0, 1, 0
        for source, target, what, _, _, enters, goes_back in (self.edges[edge] for edge in edges):
            if what == "call":
                frames.append([])
            elif what == "return":
                frames.pop()
            else:
                counters = frames[-1][: min(self.depths[int(source)], self.depths[int(target)])]
                counters += [0] if enters else []
                if goes_back:
                    counters[-1] += 1
                frames[-1] = counters
                answers += what == "answer"
            turns, deepest = max([turns, *frames[-1]]), max(deepest, len(frames))
        return turns, deepest, answers


class Tried:
    """A program in a folder, with all its inputs and what the runs of each need: turns, frames and answers."""

    def __init__(self, program: Program, folder: str) -> None:
        self.program, self.folder = program, folder
        with open(os.path.join(folder, "p.c"), "w", encoding="ascii") as file:
            file.write(SOURCES[program.name])
        self.inputs = list(program.inputs())
        automaton = Automaton(run(["graph", "p.c"], folder)[1])
        self.needs = [
            automaton.most(map(int, line.partition(" edges")[2].split()))
            for chunk in self.chunks(self.inputs)
            for line in self.of(chunk, "runs", "--steps", "400", "f").splitlines()
        ]

    def chunks(self, inputs: list[Given]) -> list[list[Given]]:
        """Inputs in rows that one call takes."""
        return [inputs[at : at + CHUNK] for at in range(0, len(inputs), CHUNK)]

    def of(self, chunk: list[Given], *words: str, after: Sequence[str] = ()) -> str:
        """What the program says of some inputs, whose file stands behind these words. Raises ValueError where the
        program answers another thing."""
        with open(os.path.join(self.folder, "all.json"), "w", encoding="ascii") as file:
            json.dump([{"args": words, "answers": answers} for words, answers in chunk], file)
        status, said, err = run([*words, "all.json", "p.c", *after], self.folder)
        if status:
            raise ValueError(f"{words}: {status} {err}")
        return said

    def leaves(self, number: int, bounds: Bounds) -> bool:
        """Whether an input, by its number, needs more than bounds have."""
        return any(need > most for need, most in zip(self.needs[number], bounds))

    def first_hits(self, bounds: Bounds, query: str, ends: str) -> dict[str, Given | None]:
        """Of each goal the first input within the bounds that covers it, if one does."""
        kept = [one for number, one in enumerate(self.inputs) if not self.leaves(number, bounds)]
        found = dict[str, Given | None]()
        for chunk in self.chunks(kept) or [[]]:
            said = self.of(chunk, "measure", "--ends", ends, "f", query)
            for number, by in re.findall(r"^goal (\d+) (?:covered (\d+)|missed) ", said, re.MULTILINE):
                found.setdefault(number, None)
                if by and found[number] is None:
                    found[number] = chunk[int(by) - 1]
        return found


def options(bounds: Bounds) -> list[str]:
    """The options for bounds of turns, frames and answers."""
    return [word for name, value in zip(("--turns", "--frames", "--answers"), bounds) for word in (name, str(value))]


def least_line(goal: str, found: Given | None, bounds: Bounds, ends: str) -> str:
    """What `least` must say of a goal whose first input is this one, or that has none."""
    if found is None:
        behind = "" if ends == "returned" else f" ends {ends}"
        return f"goal {goal} refuted turns {bounds[0]} frames {bounds[1]} answers {bounds[2]}{behind}\n"
    words, answers = found
    read = ["answers", *map(str, answers)] if any(answers) else []
    return " ".join(["goal", goal, "least args", *map(str, words), *read]) + "\n"


def of_least(tried: Tried, bounds: Bounds, query: str, ends: str) -> Outcome:
    """How many goals a query has, and each whose least input isn't the first of all."""
    found = tried.first_hits(bounds, query, ends)
    wrong = list[str]()
    for goal, first in found.items():
        words = ["least", *options(bounds), "--ends", ends, "f", query, goal, "p.c"]
        due = (0, least_line(goal, first, bounds, ends), "")
        got = run(words, tried.folder)
        wrong += [f"{' '.join(words)}: {got!r}, not {due!r}"] if got != due else []
    return len(found), wrong


def of_bounds(tried: Tried, bounds: Bounds) -> list[str]:
    """What is wrong with what `bounds` says of bounds, if something is."""
    words = ["bounds", *options(bounds), "f", "p.c"]
    status, said, err = run(words, tried.folder)
    leaving = {one for number, one in enumerate(tried.inputs) if tried.leaves(number, bounds)}
    named = re.fullmatch(r"bounds left args((?: -?\d+)*)(?: answers((?: -?\d+)+))?\n", said)
    if status == 0 and not err and named:
        given = [int(word) % 2**width for word, width in zip(named[1].split(), tried.program.widths)]
        answers = [int(word) for word in (named[2] or "").split()]
        answer: tuple[int, ...] = ((answers or [0])[0] % 2**tried.program.answer,) if tried.program.answer else ()
        is_right = (
            (tuple(given), answer) in leaving
            and answers[-1:] != [0]
            and len(answers) <= bounds[2]
            and all(
                (-(2 ** (width - 1)) if sign else 0) <= int(word) < 2 ** (width - sign)
                for word, width, sign in zip(named[1].split(), tried.program.widths, tried.program.signs, strict=True)
            )
        )
    else:
        is_right = not leaving and (status, said, err) == (
            0,
            "bounds suffice turns {} frames {} answers {}\n".format(*bounds),
            "",
        )
    return [] if is_right else [f"{' '.join(words)}: {status} {said!r} {err!r}, and {len(leaving)} inputs leave them"]


def of_program(program: Program) -> Outcome:
    """How many answers were compared of a program, and a line for each that differs."""
    count, wrong = 0, list[str]()
    with tempfile.TemporaryDirectory() as folder:
        tried = Tried(program, folder)
        for bounds in program.bounds:
            count += 1
            lines = of_bounds(tried, bounds)
            for query, ends in program.queries:
                goals, of_query = of_least(tried, bounds, query, ends)
                count, lines = count + goals, lines + of_query
            wrong += [f"{program.name}: {line}" for line in lines]
    return count, wrong


def parts() -> list[Callable[[], Outcome]]:
    """A part for each program of the table."""
    return [functools.partial(of_program, program) for program in TABLE]
