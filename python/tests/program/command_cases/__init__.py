"""The cases of the program's commands, in the form that cases.py has: a module for each command, and several for `measure`.

What they share stands here: small sources, and the cases that each command has, of its words, its sources and its streams.
"""

import functools
from collections.abc import Callable, Sequence
from typing import Any

Case = dict[str, Any]  # its fields, as python/tests/program/test_commands.py has them
Files = dict[str, Any]  # texts by the names of files; a text may be made of others, as there
Words = Sequence[Any]  # texts, or bytes in hexadecimal digits, as there
A = "int f(int x) {\n  if (x > 10) {\n    return 1;\n  }\n  return 0;\n}\n"
NEVER = A.replace("x > 10", "x > 10 && x < 5")
SEVEN = A.replace("x > 10", "x == 7")
COUNT = "int f(int n) {\n  int i = 0;\n  while (i < n) {\n    i = i + 1;\n  }\n  if (i == 3) {\n    return 1;\n  }\n  return 0;\n}\n"
NESTED = ("int f(int n) {\n  int c = 0;\n  for (int i = 0; i < 2; i++) {\n    for (int j = 0; j < n; j++) {\n      c = c + 1;\n    }\n  }\n"
          "  if (c == 6) {\n    return 1;\n  }\n  return 0;\n}\n")  # fmt: skip
ELEMENT = "int f(int i) {\n  int a[4];\n  a[i] = 1;\n  return a[0];\n}\n"
BOTH = ("int in(void);\nint f(int x) {\n  int s = 0;\n  if (x == 1) {\n    s = in();\n  }\n  int t = in();\n  if (s == 5 && t == 9) {\n"
        "    return 1;\n  }\n  return 0;\n}\n")  # fmt: skip
RECURSION = ("int f(int n) {\n  if (n <= 0) {\n    return 0;\n  }\n  return 1 + f(n - 1);\n}\nint g(int n) {\n  if (f(n) == 2) {\n"
             "    return 1;\n  }\n  return 0;\n}\n")  # fmt: skip
CALLEE = "int g(int v) { return v; }\n"
CALLER = "int f(int x) {\n  int y = 0;\n  if (x > 3) {\n    y = g(x);\n  }\n  return y;\n}\n"
CALLS = CALLEE + CALLER
FOREVER = "int f(int n) { for (;;) { ; } return n; }\n"
WAIT = "int f(int x) { assume(x > 0); return x; }\n"
# 1 traps, 2 is blocked, 3 goes too deep, 4 is cut, and all others return
ENDS = ("int f(int x) { if (x == 1) { assert(0); } if (x == 2) { assume(0); } if (x == 3) { return f(x); } "
        "while (x == 4) { ; } return x; }\n")  # fmt: skip
# 65 quotients of 64 bits are 4,259,840 units of the size sum
QUOTIENTS = "long f(long x, long y) {\n" + "  x = x / y;\n" * 65 + "  return x;\n}\n"
# what `measure` and `replay` say of the inputs 5 and 11 of A, in a file a.c
REPORT = ("goals 4 inputs 2\ninput 1 returned 0\ninput 2 returned 1\ngoal 1 covered 2 e0@a.c:2\ngoal 2 covered 1 e1@a.c:2\n"
          "goal 3 covered 2 e2@a.c:3\ngoal 4 covered 1 e3@a.c:5\nsuite 1 2\ncovered 4 of 4\n")  # fmt: skip
TITLE = "fshell traces 1\n"
ALL = "cover EDGES(ID)"


def case(
    name: str, words: Words, files: Files, stdout: Any = "", status: int = 0, stderr: Any = "", **more: Any
) -> Case:
    """A case; `more` are further fields of it. A stream that goes elsewhere has no text."""
    fields = {
        "name": f"{words[0]}: {name}" if words else name,
        "files": files,
        "words": words,
        "status": status,
        "stdout": stdout,
        "stderr": stderr,
    }
    return {field: value for field, value in (fields | more).items() if field + "_to" not in more}


def refused(name: str, words: Words, files: Files, line: str, status: int) -> Case:
    """A case of words that are refused with a line and a status."""
    return case(name, words, files, "", status, line + "\n")


def measured(
    name: str,
    query: str,
    inputs: Any,
    report: Any,
    sources: Files | None = None,
    options: Words = (),
    entry: str = "f",
    file: str = "in.txt",
) -> Case:
    """A measurement: the report of these inputs, of the source A in a file a.c where no sources are given."""
    return of_measure(case, name, query, inputs, sources, options, entry, file)(report)


def unmeasured(
    name: str,
    query: str,
    inputs: Any,
    line: str,
    status: int,
    sources: Files | None = None,
    options: Words = (),
    entry: str = "f",
    file: str = "in.txt",
) -> Case:
    """A measurement that is refused."""
    return of_measure(refused, name, query, inputs, sources, options, entry, file)(line, status)


def of_measure(
    made: Callable[..., Case],
    name: str,
    query: str,
    inputs: Any,
    sources: Files | None,
    options: Words,
    entry: str,
    file: str,
) -> Callable[..., Case]:
    """What makes a case of `measure` of the rest of its fields."""
    sources = sources or {"a.c": A}
    return functools.partial(made, name, ["measure", *options, entry, query, file, *sources], {file: inputs, **sources})


def usages(command: str, named: dict[str, list[Any]]) -> list[Case]:
    """Words that are no command, each with its name."""
    return [
        refused(name, [command, *words], {"a.c": A, "in.txt": "5\n", "t.txt": TITLE}, "error 2 Usage", 2)
        for name, words in named.items()
    ]


def of_sources(command: str, before: Words, files: Files) -> list[Case]:
    """What is refused of sources and of the entry. `before` are the words between the entry and the sources."""

    def one(name: str, entry: str, sources: list[str], more: Files, line: str, status: int) -> Case:
        return refused(name, [command, entry, *before, *sources], files | more, line, status)

    return [
        one("a source that isn't there", "f", ["no.c"], {}, "error 7 ReadFault no.c", 7),
        one(
            "a source that isn't there goes before a fault in one before it",
            "f",
            ["k.c", "no.c"],
            {"k.c": "int f(void) { return @; }\n"},
            "error 7 ReadFault no.c",
            7,
        ),
        one(
            "a source one byte above the limit",
            "f",
            ["k.c"],
            {"k.c": {"repeat": " ", "times": 4194305}},
            "error 16 FileTooLong k.c",
            6,
        ),
        one(
            "a fault in a source goes before an entry that isn't defined",
            "zz",
            ["k.c"],
            {"k.c": "int f(void) { return y; }\n"},
            "error 30 Unknown k.c:1",
            3,
        ),
        one("an entry that isn't defined", "zz", ["a.c"], {"a.c": A}, "error 36 NoSuchEntry", 3),
        one(
            "an entry with an array parameter",
            "f",
            ["k.c"],
            {"k.c": "int f(int a[3]) { return a[0]; }\n"},
            "error 36 NoSuchEntry",
            3,
        ),
    ]


def of_queries(command: str, after: Words, files: Files) -> list[Case]:
    """What is refused of a query, in its order; `after` are the words between the query and the source a.c."""

    def one(name: str, entry: str, query: str, line: str, status: int) -> Case:
        return refused(name, [command, entry, query, *after, "a.c"], {"a.c": A, **files}, line, status)

    return [
        one(
            "an entry that isn't defined goes before a query that ends too early",
            "zz",
            "cover",
            "error 36 NoSuchEntry",
            3,
        ),
        one("a query that ends too early", "f", "cover", "error 61 QuerySyntax query", 4),
        one(
            "a predicate that is typable nowhere goes before a filter that names no function",
            "f",
            "cover {z == 1} + @FUNC(g)",
            "error 66 PredicateNowhere query",
            4,
        ),
        one("a filter that names no function", "f", "cover @FUNC(g)", "error 70 NoSuchName query:7", 4),
        one("a query without goals", "f", "cover @LINE(999)", "error 72 NoGoals query", 4),
    ]


def of_streams(words: Words, files: Files, text: str) -> list[Case]:
    """Writes that fail: of a short text, and of a refusal."""
    return [
        case("standard output is full", words, files, status=8, stdout_to="/dev/full"),
        case("standard output is closed", words, files, status=8, stdout_to="closed"),
        case(
            "standard output takes any smaller number of bytes and then fails",
            words,
            files,
            {"first": text},
            8,
            each=[0, len(text) - 1],
            stdout_room="n",
        ),
        case("a refusal that can't be written", [words[0]], {}, status=8, stderr_to="/dev/full"),
    ]
