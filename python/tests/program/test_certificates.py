"""Certificates beside a checker of their own, which is written here from docs/CERTIFICATES.md.

Those of bounds that suffice, which `prove-bounds` writes and `check-bounds` reads, are tried in the same way as those of goals.

Each goal below is refuted within its bounds. What `prove` writes for it must be a certificate that the checker here accepts,
and that `check` accepts for its goal; each line of its DRAT form, as fshell drat writes it, must follow by unit propagation. With
the certificate of the goal before it `check` must answer 91, and of each changed certificate, one of some bytes being another
one, it must accept none that the checker here rejects.
"""

import functools
import os
import re
import subprocess
import tempfile
from collections.abc import Callable, Iterator
from typing import NamedTuple

from tests import environment
from tests.parallel_groups import Outcome

NEVER = "int f(int x) {\n  if (x > 10 && x < 5) {\n    return 1;\n  }\n  return 0;\n}\n"
COUNT = "int f(int n) {\n  int i = 0;\n  while (i < n) {\n    i = i + 1;\n  }\n  if (i == 3) {\n    return 1;\n  }\n  return 0;\n}\n"
TWICE = "#include <stdint.h>\nint f(uint8_t x) {\n  if (x + x == 3) {\n    return 1;\n  }\n  return 0;\n}\n"

# a source, a query, the number of its goal, and bounds
GOALS: list[tuple[str, str, str, list[str]]] = [
    (NEVER, "cover EDGES(@CONDITIONEDGE)", "3", []),
    (COUNT, "cover @LINE(7)", "1", ["--turns", "2"]),
    (NEVER, "cover @LINE(3)", "1", []),
    (TWICE, "cover @LINE(4)", "1", []),
    (COUNT, 'cover {i == 2}."ID*".{i == 1}', "1", ["--turns", "2"]),
]

THREE = "int f(int x) {\n  int s = 0;\n  for (int i = 0; i < 3; i++) {\n    s = s + x;\n  }\n  return s;\n}\n"
FEW = "int f(int n) {\n  assume(n < 5);\n  int i = 0;\n  while (i < n) {\n    i = i + 1;\n  }\n  return i;\n}\n"
READS = "#include <stdint.h>\nint8_t in(void);\nint f(uint8_t x) {\n  int s = 0;\n  while (in() > 0 && s < 3) {\n    s = s + 1;\n  }\n  return s + x;\n}\n"

# a source and bounds that suffice for it
BOUNDS: list[tuple[str, list[str]]] = [
    (NEVER, []),
    (FEW, ["--turns", "4"]),
    (THREE, ["--turns", "3"]),
    (READS, ["--turns", "3", "--answers", "4"]),
]


class Case(NamedTuple):
    """What a certificate is asked of: the commands that write and check it, the words before it, and the source."""

    name: str
    prove: str
    check: str
    asked: list[str]
    bounds: list[str]
    source: str


CASES = [Case(query, "prove", "check", ["f", query, goal], bounds, source) for source, query, goal, bounds in GOALS]
CASES += [
    Case(f"bounds {' '.join(bounds)}", "prove-bounds", "check-bounds", ["f"], bounds, source)
    for source, bounds in BOUNDS
]

Numbers = list[int]
NUMBER = r"(?:0|[1-9][0-9]*)"


def parsed(text: str) -> tuple[list[Numbers], list[tuple[Numbers, Numbers]]] | None:
    """The clauses and the derivation's lines of a certificate, each a clause with a step, or None where it is none."""
    lines = text.split("\n")
    head = re.fullmatch(rf"p cnf ({NUMBER}) ({NUMBER})", lines[1]) if len(lines) > 1 else None
    if lines[0] != "fshell certificate 1" or not head or lines[-1] != "":
        return None
    variables, count = int(head.group(1)), int(head.group(2))
    middle = re.fullmatch(rf"derivation ({NUMBER})", lines[2 + count]) if len(lines) > 2 + count else None
    if not middle or len(lines) != 2 + count + 1 + int(middle.group(1)) + 1:
        return None
    written = lines[2 : 2 + count] + lines[3 + count : -1]
    parts = [[int(word) for word in line.split(" ")] for line in written if re.fullmatch(rf"(?:-?{NUMBER} )*0", line)]
    if (
        len(parts) != len(written)
        or any(0 in part[:-1] for part in parts[:count])
        or any(part.count(0) != 2 for part in parts[count:])
    ):
        return None
    steps = [(part[: part.index(0)], part[part.index(0) + 1 : -1]) for part in parts[count:]]
    clauses = [part[:-1] for part in parts[:count]]
    if any(abs(literal) > variables for clause in clauses + [clause for clause, _ in steps] for literal in clause):
        return None
    return clauses, steps


def is_refutation(clauses: list[Numbers], steps: list[tuple[Numbers, Numbers]]) -> bool:
    """Whether each line is what its resolutions make of earlier clauses, and the last one is empty."""
    known = [frozenset(clause) for clause in clauses]
    for clause, step in steps:
        numbers, pivots = [step[0], *step[1::2]], step[2::2]
        if len(numbers) != len(pivots) + 1 or not all(0 < number <= len(known) for number in numbers):
            return False
        made = known[numbers[0] - 1]
        for number, pivot in zip(numbers[1:], pivots):
            other = known[number - 1]
            if pivot not in made or -pivot not in other:
                return False
            made = (made - {pivot}) | (other - {-pivot})
        if made != frozenset(clause):
            return False
        known.append(made)
    return bool(steps) and not known[-1]


def is_right(text: str) -> bool:
    """Whether a text is a certificate whose formula has no model."""
    found = parsed(text)
    return found is not None and is_refutation(*found)


def follows(clauses: list[Numbers], clause: Numbers) -> bool:
    """Whether unit propagation over clauses refutes the negation of a clause (reverse unit propagation)."""
    true = {-literal for literal in clause}
    while True:
        found = set[int]()
        for known in clauses:
            if not any(literal in true for literal in known):
                left = [literal for literal in known if -literal not in true]
                if not left:
                    return True
                if len(left) == 1:
                    found.add(left[0])
        if any(-literal in found for literal in found):
            return True
        if not found:
            return False
        true |= found


def is_drat(folder: str, text: str) -> bool:
    """Whether fshell drat writes the certificate's formula, and lines that follow one by one and end with the empty clause."""
    path = os.path.join(folder, "drat.cert")
    with open(path, "w", encoding="ascii") as file:
        file.write(text)
    subprocess.run(
        [os.path.join(environment.ROOT, "bin", "fshell"), "drat", path, os.path.join(folder, "written")], check=True
    )
    with open(os.path.join(folder, "written.cnf"), encoding="ascii") as file:
        dimacs = file.read()
    with open(os.path.join(folder, "written.drat"), encoding="ascii") as file:
        lines = [[int(word) for word in line.split()[:-1]] for line in file]
    known = [[int(word) for word in line.split()[:-1]] for line in dimacs.splitlines()[1:]]
    for line in lines:
        if not follows(known, line):
            return False
        known.append(line)
    return bool(lines) and not lines[-1] and dimacs in text


def changes(text: str) -> Iterator[str]:
    """The text with one digit or sign being another one, at some sixty places."""
    places = [place for place, letter in enumerate(text) if letter.isdigit() or letter == "-"]
    for place in places[:: max(1, len(places) // 60)]:
        yield text[:place] + ("7" if text[place] != "7" else "2") + text[place + 1 :]


class Written:
    """The source and the certificates of a case in a folder, and what the program says of them."""

    def __init__(self, folder: str, case: Case) -> None:
        self.program, self.folder, self.case = environment.program(), folder, case
        self.write("s.c", case.source)

    def write(self, name: str, text: str) -> None:
        """Writes a file of the folder."""
        with open(os.path.join(self.folder, name), "w", encoding="ascii") as file:
            file.write(text)

    def proved(self) -> tuple[int, str]:
        """The status and the text of the command that writes the certificate."""
        return environment.ended(
            [self.program, self.case.prove, *self.case.bounds, *self.case.asked, "s.c"], self.folder
        )[:2]

    def checked(self, text: str) -> tuple[int, str, str]:
        """What the command that reads a certificate says of this one."""
        self.write("some.cert", text)
        words = [self.case.check, *self.case.bounds, *self.case.asked, "some.cert", "s.c"]
        return environment.ended([self.program, *words], self.folder)


def of_case(case: Case) -> Outcome:
    """How many certificates of a case were checked, and a line for each answer that is wrong."""
    with tempfile.TemporaryDirectory() as folder:
        written = Written(folder, case)
        status, text = written.proved()
        count, wrong = 2, list[str]()
        if status != 0 or not is_right(text):
            wrong.append(f"{case.name}: what {case.prove} wrote isn't right")
        if status == 0 and not is_drat(folder, text):
            wrong.append(f"{case.name}: a line of the DRAT form doesn't follow")
        if written.checked(text)[0] != 0:
            wrong.append(f"{case.name}: {case.check} rejects what {case.prove} wrote")
        for changed in changes(text):
            count += 1
            if written.checked(changed)[0] == 0 and not is_right(changed):
                wrong.append(f"{case.name}: {case.check} accepts a certificate that isn't right")
    return count, wrong


def of_another(case: Case, before: Case) -> Outcome:
    """What is wrong with what is said of the certificate of the case before, which is of another formula: of another goal, or of
    a goal and of bounds."""
    with tempfile.TemporaryDirectory() as folder:
        text = Written(folder, before).proved()[1]
        status, out, err = Written(folder, case).checked(text)
    is_due = status == 10 and not out and err.startswith("error 91 OtherFormula ")
    return 1, [] if is_due else [f"{case.name}: {status} {out!r} {err!r} for the certificate of the case before"]


def parts() -> list[Callable[[], Outcome]]:
    """The certificates, and each with another one's, a part each."""
    alone: list[Callable[[], Outcome]] = [functools.partial(of_case, case) for case in CASES]
    return alone + [functools.partial(of_another, case, CASES[place - 1]) for place, case in enumerate(CASES)]
