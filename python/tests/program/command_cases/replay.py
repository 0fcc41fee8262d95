"""The cases of `replay`: the report of traces, and which lines of a trace file are refused."""

from collections.abc import Sequence
from typing import Any

from tests.program.command_cases import (
    ALL,
    BOTH,
    CALLEE,
    CALLER,
    ELEMENT,
    FOREVER,
    REPORT,
    TITLE,
    WAIT,
    A,
    Case,
    Words,
    case,
    of_queries,
    of_sources,
    of_streams,
    refused,
    usages,
)

TWO = TITLE + "args 5 edges 1 3\nargs 11 edges 0 2\n"
FILES = {"t.txt": TWO, "a.c": A}
LOOP = "int f(int n) {\n  int i = 0;\n  while (i < n) {\n    i = i + 1;\n  }\n  return i;\n}\n"
CALLS = TITLE + "args 9 edges 1 2 4 0 5 6 7\nargs 2 edges 1 3 7\n"
LIMIT = 16 * 2**20
AS_JSON = ('{"covered":4,"goals":[{"answer":"covered","input":2,"text":"e0@a.c:2"},{"answer":"covered","input":1,"text":"e1@a.c:2"},'
           '{"answer":"covered","input":2,"text":"e2@a.c:3"},{"answer":"covered","input":1,"text":"e3@a.c:5"}],'
           '"inputs":[{"end":"returned","value":0},{"end":"returned","value":1}],"suite":[1,2]}\n')  # fmt: skip


def said(name: str, text: Any, report: Any, source: str = A, query: str = ALL, options: Words = ()) -> Case:
    """A case of traces with the report that they give."""
    return case(name, ["replay", *options, "f", query, "t.txt", "k.c"], {"t.txt": text, "k.c": source}, report)


def all_edges(values: Sequence[int], covered: Sequence[int], suite: Sequence[int]) -> str:
    """The report over the four edges of A: what each run returns, the first that covers each edge, or 0, and the suite."""
    lines = [f"goals 4 inputs {len(values)}"] + [
        f"input {number} returned {value}" for number, value in enumerate(values, 1)
    ]
    for number, (by, place) in enumerate(zip(covered, ("e0@k.c:2", "e1@k.c:2", "e2@k.c:3", "e3@k.c:5")), 1):
        lines.append(f"goal {number} covered {by} {place}" if by else f"goal {number} missed {place}")
    return "\n".join([*lines, " ".join(["suite", *map(str, suite)]), f"covered {sum(map(bool, covered))} of 4", ""])


def one_goal(ends: Sequence[str], by: int, goal: str) -> str:
    """The report of one goal, that a run covers."""
    lines = [f"goals 1 inputs {len(ends)}"] + [f"input {number} {end}" for number, end in enumerate(ends, 1)]
    return "\n".join([*lines, f"goal 1 covered {by} {goal}", f"suite {by}", "covered 1 of 1", ""])


def counting(turns: int) -> list[Any]:
    """The parts of the line of a run of LOOP that takes so many turns."""
    return [f"args {turns} edges 0 1", {"repeat": " 2 4 5", "times": turns}, " 3 6\n"]


def length(turns: int) -> int:
    """How many bytes that line has."""
    return len(f"args {turns} edges 0 1 3 6\n") + 6 * turns


def at_the_limit() -> list[Case]:
    """A case whose traces have 16 MiB: as many of 1,000 turns as go there, and three that fill what is left; then one byte more."""
    many = (LIMIT - len(TITLE) - 6000) // length(1000)
    left = LIMIT - len(TITLE) - many * length(1000)
    rest = next(
        rest for first in range(2000) for second in (7, 50, 500) if sum(map(length, rest := (first, second, 3))) == left
    )
    text = [
        TITLE,
        {"repeat": "args 1000 edges 0 1" + " 2 4 5" * 1000 + " 3 6\n", "times": many},
        *(part for turns in rest for part in counting(turns)),
    ]
    ends = "".join(f"input {many + number} returned {turns}\n" for number, turns in enumerate(rest, 1))
    report = [
        f"goals 1 inputs {many + 3}\n",
        {"count": many, "text": "input # returned 1000\n"},
        ends,
        "goal 1 covered 1 e6@k.c:6\nsuite 1\ncovered 1 of 1\n",
    ]
    return [
        said("traces of 16 MiB", text, report, LOOP, "cover @LINE(6)"),
        refused(
            "traces one byte above the limit",
            ["replay", "f", ALL, "t.txt", "k.c"],
            {"t.txt": [*text, " "], "k.c": LOOP},
            "error 16 FileTooLong t.txt",
            6,
        ),
    ]


def form(name: str, text: Any, line: int) -> Case:
    """A case of a text that is no trace file, with the line that is wrong."""
    return refused(
        name, ["replay", "f", ALL, "t.txt", "k.c"], {"t.txt": text, "k.c": A}, f"error 55 TraceForm line {line}", 5
    )


def not_the_run(name: str, text: Any, line: int, source: str = A, options: Words = ()) -> Case:
    """A case of traces of which one isn't its input's run, with its line."""
    words = ["replay", *options, "f", ALL, "t.txt", "k.c"]
    return refused(name, words, {"t.txt": text, "k.c": source}, f"error 56 NotTheRun line {line}", 5)


# lines that are none of a trace file of A, which has one parameter
LINES = {
    "two spaces between parts": "args 5  edges 1 3",
    "a space at a line's end": "args 5 edges 1 3 ",
    "a space at a line's begin": " args 5 edges 1 3",
    "a tab between parts": "args 5\tedges 1 3",
    "an argument with a leading zero": "args 05 edges 1 3",
    "an argument -0": "args -0 edges 1 3",
    "an argument with a plus": "args +5 edges 1 3",
    "an argument that is no number": "args x edges 1 3",
    "an argument above 64 bits": "args 18446744073709551616 edges 1 3",
    "an argument below 64 bits": "args -9223372036854775809 edges 1 3",
    "an argument too many": "args 5 6 edges 1 3",
    "an argument too few": "args edges 1 3",
    "the word answers without answers": "args 5 answers edges 1 3",
    "an answer with a leading zero": "args 5 answers 00 edges 1 3",
    "an answer above 64 bits": "args 5 answers 18446744073709551616 edges 1 3",
    "answers behind the edges": "args 5 edges 1 3 answers 7",
    "answers twice": "args 5 answers 7 answers 7 edges 1 3",
    "no edges and no word for them": "args 5",
    "edges before the arguments": "edges 1 3 args 5",
    "the word edges twice": "args 5 edges 1 edges 3",
    "an edge with a leading zero": "args 5 edges 01 3",
    "an edge below 0": "args 5 edges -1 3",
    "an edge above 32 bits": "args 5 edges 4294967296",
    "a word in capitals": "ARGS 5 edges 1 3",
    "a comment": "# none",
}

CASES = [
    case("two traces give the report of their inputs", ["replay", "f", ALL, "t.txt", "a.c"], FILES, REPORT),
    case("the report as JSON", ["replay", "--json", "f", ALL, "t.txt", "a.c"], FILES, AS_JSON),
    said("the title alone has no traces", TITLE, all_edges([], [0, 0, 0, 0], [])),
    said("a trace that stands twice is two", TWO + "args 5 edges 1 3\n", all_edges([0, 1, 0], [2, 1, 2, 1], [1, 2])),
    said("arguments are converted to their kinds",
         TITLE + "args 4294967301 edges 1 3\nargs 18446744073709551615 edges 1 3\nargs -9223372036854775808 edges 1 3\n",
         all_edges([0, 0, 0], [0, 1, 0, 1], [1])),
    said("answers that no run takes", TITLE + "args 5 answers 7 -9223372036854775808 18446744073709551615 edges 1 3\n",
         all_edges([0], [0, 1, 0, 1], [1])),
    said("answers that a run takes, and 0 past their end",
         TITLE + "args 1 answers 5 edges 0 1 3 4 5 6 7 10 12\nargs 1 answers 5 9 edges 0 1 3 4 5 6 7 9 11\n",
         one_goal(["returned 0", "returned 1"], 2, "e11@k.c:9"), BOTH, "cover @LINE(9)"),
    said("a predicate", CALLS, one_goal(["returned 9", "returned 0"], 1, "{y == 9}"), CALLEE + CALLER, "cover {y == 9}"),
    said("a passing clause", CALLS, one_goal(["returned 9", "returned 0"], 2, "e7@k.c:7"), CALLEE + CALLER,
         "cover @LINE(7) passing ^NOT(@CALL(g))*$"),
    said("a run that trapped under --ends trapped", TITLE + "args 4 edges 0\n",
         "goals 3 inputs 1 ends trapped\ninput 1 trapped index\ngoal 1 covered 1 e0@k.c:2\ngoal 2 missed e1@k.c:3\ngoal 3 missed e2@k.c:4\n"
         "suite 1\ncovered 1 of 3\n", ELEMENT, options=["--ends", "trapped"]),
    said("a blocked run without edges under --ends any", TITLE + "args 0 edges\n",
         "goals 2 inputs 1 ends any\ninput 1 blocked\ngoal 1 covered 1 n0@k.c:1\ngoal 2 missed n2@k.c:1\nsuite 1\ncovered 1 of 2\n",
         WAIT, "cover NODES(@ENTRY(f))", ["--ends", "any"]),
    said("a run that went too deep under --ends any", TITLE + "args 7 edges" + " 0" * 63 + "\n",
         "goals 1 inputs 1 ends any\ninput 1 too-deep\ngoal 1 covered 1 n0@k.c:1\nsuite 1\ncovered 1 of 1\n",
         "int f(int x) { return f(x); }\n", "cover NODES(@ENTRY(f))", ["--ends", "any"]),
    said("a run of 180,004 edges", [TITLE, *counting(60000)], one_goal(["returned 60000"], 1, "e6@k.c:6"), LOOP, "cover @LINE(6)"),
    said("10,000 traces", [TITLE, {"repeat": "args 5 edges 1 3\n", "times": 10000}],
         ["goals 4 inputs 10000\n", {"count": 10000, "text": "input # returned 0\n"},
          "goal 1 missed e0@k.c:2\ngoal 2 covered 1 e1@k.c:2\ngoal 3 missed e2@k.c:3\ngoal 4 covered 1 e3@k.c:5\nsuite 1\ncovered 2 of 4\n"]),
    *at_the_limit(),
    form("an empty file", "", 1),
    form("no title", "args 5 edges 1 3\nargs 11 edges 0 2\n", 1),
    form("a title without its line feed", "fshell traces 1", 1),
    form("another title", "fshell traces 2\nargs 5 edges 1 3\n", 1),
    form("a space behind the title", "fshell traces 1 \nargs 5 edges 1 3\n", 1),
    form("a carriage return before a line feed", "fshell traces 1\r\nargs 5 edges 1 3\r\n", 1),
    form("an empty line before the title", "\n" + TWO, 1),
    form("an empty line at the end", TWO + "\n", 4),
    form("a last line without its line feed", TWO[:-1], 3),
    *(form(name, TITLE + line + "\n", 2) for name, line in LINES.items()),
    form("the form of a later line goes before the run of an earlier one", TITLE + "args 5 edges 0 2\nargs 5 edges\t\n", 3),
    form("the form of a line goes before too many traces", [TITLE, {"repeat": "args 5 edges 1 3\n", "times": 10001}, "args 5\n"], 10003),
    refused("10,001 traces, the first of them not right", ["replay", "f", ALL, "t.txt", "k.c"],
            {"t.txt": [TITLE, "args 5 edges 0 2\n", {"repeat": "args 5 edges 1 3\n", "times": 10000}], "k.c": A},
            "error 53 TooManyInputs limit 10000", 6),
    not_the_run("the edges of another run", TITLE + "args 5 edges 0 2\nargs 11 edges 0 2\n", 2),
    not_the_run("edges that stop before the run's end", TITLE + "args 5 edges 1\nargs 11 edges 0 2\n", 2),
    not_the_run("edges past the run's end", TITLE + "args 5 edges 1 3 0\n", 2),
    not_the_run("no edges", TITLE + "args 5 edges\n", 2),
    not_the_run("an edge that isn't there", TITLE + "args 5 edges 4294967295\n", 2),
    not_the_run("the first that isn't right of two", TWO + "args 12 edges 1 3\nargs 5 edges 0 2\n", 4),
    not_the_run("answers that lead elsewhere", TITLE + "args 1 answers 5 8 edges 0 1 3 4 5 6 7 9 11\n", 2, BOTH),
    not_the_run("a run that trapped and doesn't count", TITLE + "args 4 edges 0\n", 2, ELEMENT),
    not_the_run("a blocked run that doesn't count", TITLE + "args 0 edges\n", 2, WAIT, ["--ends", "trapped"]),
    not_the_run("a first part of a run that never ends", TITLE + "args 1 edges 0 1 2 1 2\n", 2, FOREVER, ["--ends", "any"]),
    *usages("replay", {
        "no source is no command": ["f", ALL, "t.txt"],
        "it has no --steps": ["--steps", "5", "f", ALL, "t.txt", "a.c"],
        "it has no --turns": ["--turns", "5", "f", ALL, "t.txt", "a.c"],
        "--json twice": ["--json", "f", ALL, "t.txt", "a.c", "--json"],
        "ends of another name are no command": ["--ends=cut", "f", ALL, "t.txt", "a.c"],
    }),
    *of_sources("replay", [ALL, "t.txt"], {}),
    *of_queries("replay", ["t.txt"], {}),
    refused("traces that aren't there", ["replay", "f", ALL, "t.txt", "a.c"], {"a.c": A}, "error 7 ReadFault t.txt", 7),
    refused("a folder in the place of the traces", ["replay", "f", ALL, "t.txt", "a.c"], {"t.txt": {"folder": True}, "a.c": A},
            "error 7 ReadFault t.txt", 7),
    *of_streams(["replay", "f", ALL, "t.txt", "a.c"], FILES, REPORT),
]  # fmt: skip
