"""The cases of fshell lcov: counts by hand, genhtml's totals, and what is left out."""

import os
import re
import subprocess
from collections.abc import Iterator

from tests.tools import Case, example, put, run, test_lcov_gcov, test_lcov_gcov_modules
from tests.tools.test_explain import NEVER, ONE, TWO

GRAPH = ("graph",)
# the path of a source is that of the folder, which no text here can name
ALL_OF_NEVER = """goals 6 turns 4 frames 8 answers 16 budget 5000000
input 1 args 11
input 2 args 0
goal 1 covered 1 e0@never.c:2
goal 2 covered 2 e1@never.c:2
goal 3 refuted e2@never.c:2
goal 4 covered 1 e3@never.c:2
goal 5 refuted e4@never.c:3
goal 6 covered 1 e5@never.c:5
suite 1 2
covered 4 refuted 2 undecided 0 of 6
"""
COUNT = """TN:
SF:count.c
FN:1,count
FNDA:2,count
FNF:1
FNH:1
BRDA:3,0,0,8
BRDA:3,0,1,2
BRDA:6,1,0,1
BRDA:6,1,1,1
BRF:4
BRH:4
DA:2,2
DA:3,10
DA:4,8
DA:6,2
DA:7,1
DA:9,1
LF:6
LH:6
end_of_record
"""
OF_NEVER = """TN:
SF:never.c
FN:1,f
FNDA:2,f
FNF:1
FNH:1
BRDA:2,0,0,1
BRDA:2,0,1,1
BRDA:2,1,1,1
BRF:3
BRH:3
DA:2,2
DA:5,2
LF:2
LH:2
end_of_record
"""


def of_two(first: int, rest: int | str, last: int) -> str:
    """The record of the two sources, with the counts of what comes before the assertion, and of what comes behind it."""
    return f"""TN:
SF:one.c
FN:3,g
FNDA:{first},g
FNF:1
FNH:{min(first, 1)}
BRF:0
BRH:0
DA:4,{first}
LF:1
LH:{min(first, 1)}
end_of_record
TN:
SF:two.c
FN:1,f
FNDA:{first},f
FNF:1
FNH:{min(first, 1)}
BRDA:3,0,0,{rest}
BRDA:3,0,1,{first if first else '-'}
BRDA:3,1,0,-
BRDA:3,1,1,-
BRF:4
BRH:{min(first, 1)}
DA:2,{first}
DA:3,{first}
DA:4,0
DA:6,{first}
DA:7,{first}
DA:8,{last}
DA:9,{last}
LF:7
LH:{4 * min(first, 1) + 2 * min(last, 1)}
end_of_record
"""


NOTES = """2 of 2 runs count: lines 2 of 2, functions 1 of 1, branches 3 of 3
left out, since no run takes it: never.c:2:17 true
left out, since no run takes it: never.c:3
"""
BOTH = {"one.c": ONE, "two.c": TWO, "in": "-1\n1\n"}
CASES = [
    Case("lcov: a report of another query", ["lcov", "f", "in", "never.c", "-o", "new", "--refuted", "report"],
         {"never.c": NEVER, "in": "0\n", "report": "goals 1 turns 4 frames 8 answers 16 budget 5\n"
          "goal 1 refuted e0@never.c:2 . e2@never.c:2\nsuite\ncovered 0 refuted 1 undecided 0 of 1\n"}, 2, "",
         'lcov: the report isn\'t of the query "cover ID": e0@never.c:2 . e2@never.c:2\n', needs=GRAPH),
    Case("lcov: a report of measure", ["lcov", "f", "in", "never.c", "-o", "new", "--refuted", "report"],
         {"never.c": NEVER, "in": "0\n", "report": "goals 0 inputs 0\nsuite\ncovered 0 of 0\n"}, 2, "",
         "lcov: --refuted wants a report of generate\n", needs=GRAPH),
    Case("lcov: a report without bounds", ["lcov", "f", "in", "never.c", "-o", "new", "--refuted", "report"],
         {"never.c": NEVER, "in": "0\n", "report": '{"bounds":{},"goals":[],"inputs":[],"suite":[]}'}, 2, "",
         "lcov: report: it is no report: it has no bound turns\n"),
    Case("lcov: inputs that are refused", ["lcov", "f", "in", "never.c", "-o", "new"], {"never.c": NEVER, "in": "x\n"}, 2, "",
         "lcov: in: no inputs are read: 'x' is no number\n", needs=GRAPH),
    Case("lcov: a folder in which nothing can be written", ["lcov", "f", "in", "never.c", "-o", "no/new"], {"never.c": NEVER, "in": "0\n"},
         2, "", "lcov: no/new: No such file or directory\n", needs=GRAPH),
]  # fmt: skip


def written(folder: str, files: dict[str, str], *words: str) -> tuple[str, str]:
    """What lcov writes of files, with the folder's path left out, and what it says."""
    put(folder, files)
    ended = run(folder, ["lcov", *words, "-o", "out"])
    with open(os.path.join(folder, "out"), encoding="utf-8") as file:
        return file.read().replace(f"SF:{os.path.realpath(folder)}/", "SF:"), ended.stdout


def counts_are_those_by_hand(folder: str) -> Iterator[bool]:
    yield written(folder, {"count.c": example("counting/count.c"), "in": "3\n5\n"}, "count", "in", "count.c") == (
        COUNT,
        "2 of 2 runs count: lines 6 of 6, functions 1 of 1, branches 4 of 4\n",
    )
    yield written(folder, BOTH, "f", "in", "one.c", "two.c") == (
        of_two(1, 0, 1),
        "1 of 2 runs count: lines 7 of 8, functions 2 of 2, branches 1 of 4\n",
    )
    yield written(folder, BOTH, "f", "in", "one.c", "two.c", "--ends", "trapped") == (
        of_two(2, 0, 1),
        "2 of 2 runs count: lines 7 of 8, functions 2 of 2, branches 1 of 4\n",
    )


def refuted_goals_are_left_out(folder: str) -> Iterator[bool]:
    files = {"never.c": NEVER, "in": "11\n0\n", "report": ALL_OF_NEVER}
    yield written(folder, files, "f", "in", "never.c", "--refuted", "report") == (OF_NEVER, NOTES)


def genhtml_has_these_totals(folder: str) -> Iterator[bool]:
    """genhtml takes the file without a warning, and its totals are those that were told."""
    for files, words in (
        ({"count.c": example("counting/count.c"), "in": "3\n5\n"}, ["count", "in", "count.c"]),
        (BOTH, ["f", "in", "one.c", "two.c"]),
    ):
        told = written(folder, files, *words)[1]
        made = subprocess.run(
            ["genhtml", "--branch-coverage", "-o", "html", "out"], cwd=folder, capture_output=True, text=True
        )
        totals = re.findall(r"(lines|functions|branches)\.*: [\d.]+% \((\d+) of (\d+)", made.stdout)
        yield made.returncode == 0 and made.stderr == "" and "warning" not in made.stdout.lower()
        yield told.split(": ")[1].strip() == ", ".join(f"{what} {hit} of {found}" for what, hit, found in totals)


def what_may_be_reached_isnt_left_out(folder: str) -> Iterator[bool]:
    """Within four turns line 7 of the loop is refuted, and an input beyond them reaches it."""
    put(folder, {"count.c": example("counting/count.c"), "in": "0\n"})
    report = run(folder, ["generate", "count", "cover ID", "count.c", "--turns", "2"]).stdout
    put(folder, {"report": report})
    words = ["lcov", "count", "in", "count.c", "--refuted", "report", "-o", "out"]
    ended = run(folder, words)
    yield ended.returncode == 2 and not os.path.exists(os.path.join(folder, "out")) and ended.stderr.count("\n") == 1
    yield ended.stderr.startswith(
        "lcov: report: what it refutes may be reached: the bounds don't suffice: turn 3 of the loop at count.c:3"
    )
    text, said = written(folder, {}, *words[1:-2], "--bounds-are-enough")
    within = "turns 2 frames 8 answers 16"
    yield text.startswith(
        f"# what is refuted within {within} is left out: --bounds-are-enough\nTN:\n"
    ) and "DA:7," not in text
    yield f"left out, since it is refuted within {within}, which are taken to be enough: count.c:7\n" in said
    # an input that reaches it shows that they aren't
    put(folder, {"in": "3\n"})
    ended = run(folder, [*words, "--bounds-are-enough"])
    yield (ended.returncode, ended.stderr) == (2, "lcov: report: it refutes e6@count.c:6:7, which input 1 takes\n")
    ended = run(folder, [*words, "--ends", "trapped"])
    yield (ended.returncode, ended.stderr) == (
        2,
        "lcov: report: it is of runs that returned, and other ends count here (--ends)\n",
    )


def a_comment_is_read_by_genhtml(folder: str) -> Iterator[bool]:
    put(folder, {"count.c": example("counting/count.c"), "in": "0\n"})
    put(folder, {"report": run(folder, ["generate", "count", "cover ID", "count.c", "--turns", "2"]).stdout})
    yield "left out" in written(folder, {}, "count", "in", "count.c", "--refuted", "report", "--bounds-are-enough")[1]
    made = subprocess.run(
        ["genhtml", "--branch-coverage", "-o", "html", "out"], cwd=folder, capture_output=True, text=True
    )
    yield made.returncode == 0 and made.stderr == "" and "warning" not in made.stdout.lower()


TRIED = [(GRAPH, counts_are_those_by_hand), (GRAPH, refuted_goals_are_left_out), (("graph", "genhtml"), genhtml_has_these_totals),
         (GRAPH, what_may_be_reached_isnt_left_out), (("graph", "genhtml"), a_comment_is_read_by_genhtml), *test_lcov_gcov.TRIED, *test_lcov_gcov_modules.TRIED]  # fmt: skip
