"""The cases of fshell order: rows by C11, all orders by an interpreter of its own, and gcc and clang, which take different ones."""

import json
import os
import random
import subprocess
import sys
from collections.abc import Iterator, Sequence
from typing import Any

from tests import environment
from tests.models.orders.rows import ROWS, TWO_OUTCOMES_AT
from tests.tools import Case, put, run

GRAPH = ("graph",)
Given = tuple[list[int], list[int]]  # arguments and answers
RULE = ("value", "answers", "end")
OPERANDS = """int g = 1;
int h(void) { g = 5; return 1; }
int k(int x) {
  if (g + h() == 2) {
    return 1;
  }
  return 0;
}
"""
G_AND_H = "one part writes g, and another reads or writes it"
TWO = {
    "low.c": "int g;\nint h(void) { g++; return 1; }\n",
    "top.c": "#define SUM \\\n  g + h()\n".replace("\\\n ", "") + "int k(void) {\n  return 1 - (SUM);\n}\n",
}
WATCH = "int g; int e; int h(void) { g = 1; return 1; } int i(void) { return 2; } int k(int x) { return h() + i(); }\n"
LENT = "int h(int p[2]) { p[0] = 1; return 1; } int i(int q[2]) { return 2; } int k(int x) { int a[2]; return h(a) + i(a); }\n"
STRICT = "int a[4]; int in(void); int k(int x) { a[x & 7] = in(); return 0; }\n"


CASES = [
    Case("order: operands", ["order", "k", "a.c"], {"a.c": OPERANDS}, 1, f"a.c:4:7: warning: value: {G_AND_H}\n", needs=GRAPH),
    Case("order: a function that isn't reached", ["order", "h", "a.c"], {"a.c": OPERANDS}, needs=GRAPH),
    Case("order: two sources and a macro", ["order", "k", "low.c", "top.c"], TWO, 1,
         f"top.c:3:15: warning: value: {G_AND_H}\n", needs=GRAPH),
    Case("order: what a predicate reads", ["order", "k", "a.c", "--query", "cover {g == 0} . @ENTRY(i)"], {"a.c": WATCH}, 1,
         "a.c:1:96: warning: watched: one part writes g, which a predicate reads, and another has nodes\n", needs=GRAPH),
    Case("order: what a predicate doesn't read", ["order", "k", "a.c", "--query", "cover {e == 0} . @ENTRY(i)"], {"a.c": WATCH},
         needs=GRAPH),
    Case("order: a lent array by its name there", ["order", "k", "a.c", "--watch", "q"], {"a.c": LENT}, 1,
         "a.c:1:103: warning: watched: one part writes a, which a predicate reads, and another has nodes\n", needs=GRAPH),
    Case("order: no predicate", ["order", "k", "a.c", "--query", "cover @ENTRY(i)"], {"a.c": WATCH}, needs=GRAPH),
    Case("order: runs that returned", ["order", "k", "a.c"], {"a.c": STRICT}, needs=GRAPH),
    Case("order: any ends", ["order", "k", "a.c", "--ends", "any"], {"a.c": STRICT}, 1,
         "a.c:1:40: warning: strict: one part may end the run (trap), and another does something\n", needs=GRAPH),
    Case("order: no such entry", ["order", "f", "a.c"], {"a.c": OPERANDS}, 2, "",
         "order: f is no function with a body and without array parameters\n", needs=GRAPH),
    Case("order: an entry with an array", ["order", "h", "a.c"], {"a.c": LENT}, 2, "",
         "order: h is no function with a body and without array parameters\n", needs=GRAPH),
    Case("order: what isn't read", ["order", "k", "a.c"], {"a.c": "int k(void) { return *p; }\n"}, 2, "",
         "order: fshell graph: error 20 Syntax a.c:1\n", needs=GRAPH),
    Case("order: no file", ["order", "k", "no.c"], {}, 2, "", "order: fshell graph: error 7 ReadFault no.c\n", needs=GRAPH),
]  # fmt: skip


def wrong_words(folder: str) -> Iterator[bool]:
    """What isn't called as it is told is one line behind the usage, and status 2."""
    for words in ("", "k", "k a.c --ends some", "k a.c --no"):
        ended = run(folder, ["order", *words.split()])
        yield ended.returncode == 2 and ended.stdout == "" and ended.stderr.splitlines()[-1].startswith(
            "fshell order: error: "
        )


def as_json(folder: str) -> Iterator[bool]:
    put(folder, {"a.c": OPERANDS})
    ended = run(folder, ["order", "k", "a.c", "--json"])
    due = {"kind": "value", "file": "a.c", "line": 4, "column": 7, "function": "k", "why": G_AND_H}
    yield ended.returncode == 1 and json.loads(ended.stdout) == {"classes": list(RULE), "warnings": [due]}


def rows_by_c(folder: str) -> Iterator[bool]:
    """What is told of each row is what C11 leaves open; each sixth is asked of the tool itself."""
    for number, (_, due, text) in enumerate(ROWS):
        yield classes_of(text) - {"strict"} == ({due} if due else set())
        if number % 6 == 0:
            put(folder, {"a.c": text})
            ended = run(folder, ["order", "k", "a.c"])
            kinds = {line.split(": ")[2] for line in ended.stdout.splitlines()}
            yield (kinds, ended.returncode, ended.stderr) == ({due} if due else set(), 1 if due else 0, "")


# ---- verdicts: g + h() is 2 by clang, so another order takes the branch that FShell refutes


OPEN = "C leaves the order of evaluation open at a.c:4:7 (value)"
FREE = OPERANDS.replace("g + h() == 2", "h() == 3")  # false by each order


def a_campaign_that_is_restricted(folder: str) -> Iterator[bool]:
    """A refuted goal is unreachable only where each order of evaluation gives the same."""
    for text, verdict, line in (
        (OPERANDS, "refuted within the bounds", f"no refuted goal is called unreachable: {OPEN}"),
        (FREE, "unreachable", "the bounds suffice: no run at all leaves them"),
    ):
        put(folder, {"a.c": text})
        ended = run(folder, ["campaign", "k", "cover @CONDITIONEDGE", "a.c", "-o", str(len(text)), "--at-least", "100"])
        lines = ended.stdout.splitlines()
        yield lines[-2] == line and lines[2].startswith(f"goal 1: {verdict}, ")
        yield ended.returncode == (1 if verdict != "unreachable" else 0)


def watched_restricts(folder: str) -> Iterator[bool]:
    """A predicate at a callee's node sees another order; without one, and of runs that returned, nothing does."""
    put(folder, {"a.c": WATCH, "b.c": STRICT})
    from fshell_tools.order import main as order

    def of(source: str, query: str, ends: str) -> str:
        return order.restriction("k", [source], query, ends, folder)

    yield of(
        "a.c", "cover {g == 0} . @ENTRY(i)", "returned"
    ) == "C leaves the order of evaluation open at a.c:1:96 (watched)"
    yield of("a.c", "cover @ENTRY(i)", "returned") == ""
    yield of("b.c", "cover ID", "returned") == ""
    yield of("b.c", "cover ID", "trapped") == "C leaves the order of evaluation open at b.c:1:40 (strict)"


def put_report(folder: str, text: str, query: str) -> None:
    """A source and a report of what is generated for a query of it."""
    put(folder, {"a.c": text, "in": "0\n"})
    report = subprocess.run(
        [environment.LAUNCHER, "generate", "k", query, "a.c"], cwd=folder, capture_output=True, text=True
    )
    put(folder, {"report": report.stdout})


def explain_is_restricted(folder: str) -> Iterator[bool]:
    """A report's query isn't known, so its predicates may read anything."""
    last = "no refuted goal is called unreachable: "
    put_report(folder, OPERANDS, "cover @CONDITIONEDGE")
    yield run(folder, ["explain", "report", "a.c", "--entry", "k"]).stdout.splitlines()[-1] == last + OPEN
    put_report(folder, WATCH, "cover {g == 0} . @ENTRY(i)")
    told_of = run(folder, ["explain", "report", "a.c", "--entry", "k"]).stdout.splitlines()[-1]
    yield told_of == last + "C leaves the order of evaluation open at a.c:1:96 (watched)"
    put_report(folder, FREE, "cover @CONDITIONEDGE")
    lines = run(folder, ["explain", "report", "a.c", "--entry", "k"]).stdout.splitlines()
    yield "goal 1: unreachable" in lines and not any(last in line for line in lines)


def page_is_restricted(folder: str) -> Iterator[bool]:
    for text, is_restricted in ((OPERANDS, True), (FREE, False)):
        put_report(folder, text, "cover @CONDITIONEDGE")
        words = ["page", "report", "-o", "new", "--source", "a.c", "--entry", "k", "--query", "cover @CONDITIONEDGE"]
        yield run(folder, words).returncode == 0
        with open(os.path.join(folder, "new"), encoding="utf-8") as file:
            yield (OPEN in file.read()) == is_restricted


def lcov_leaves_nothing_out(folder: str) -> Iterator[bool]:
    put_report(folder, OPERANDS, "cover ID")
    ended = run(folder, ["lcov", "k", "in", "a.c", "-o", "new", "--refuted", "report"])
    yield ended.returncode == 2 and OPEN in ended.stderr and not os.path.exists(os.path.join(folder, "new"))


# ---- all orders, by an interpreter of its own


def unit_of(text: str) -> Any:
    """pycparser's tree, which knows no macro and no declaration right behind a label."""
    from pycparser import c_parser

    text = text.replace("#define BOTH g + h()\n", "").replace("BOTH", "g + h()").replace("1: int", "1: ; int")
    sys.setrecursionlimit(100_000)
    return c_parser.CParser().parse(text)


def classes_of(text: str, watched: Sequence[str] = ()) -> set[str]:
    """The classes that the rule tells of the entry k."""
    from fshell_tools.order import statements, tokens, unsequenced

    unit = statements.unit_of(tokens.of_source("a.c", text.encode()))
    return {one.kind for one in unsequenced.told(unit, "k", watched)}


def rows_by_all_orders(folder: str) -> Iterator[bool]:
    """A row has several outcomes exactly where a class is told."""
    from tests.models.orders.choosers import outcomes, seen

    for _, due, text in ROWS:
        if "enum" not in text:
            unit = unit_of(text)
            of_each = [outcomes(unit, "k", list(args), [1, 2, 3])[1] for args in TWO_OUTCOMES_AT]
            yield any(len({seen(one) for one in found}) > 1 for found in of_each) == (due != "")


def some_inputs(seed: int, count: int) -> list[Given]:
    """Inputs that are drawn, so many, each with twelve answers."""
    made = random.Random(seed)
    return [([made.randint(-1, 4), made.randint(-2, 3)], [made.randint(0, 3) for _ in range(12)]) for _ in range(count)]


def random_programs(first: int, count: int) -> Iterator[tuple[int, str, set[str]]]:
    """Programs that are drawn by so many seeds from the first one on, each with its seed and the classes that the rule
    tells of it."""
    from tests.models.orders.programs import Programs

    for seed in range(first, first + count):
        text = Programs(random.Random(seed)).program()
        yield seed, text, classes_of(text)


def programs_by_all_orders(folder: str) -> Iterator[bool]:
    """What nothing is told of has one outcome; what is told for its end alone returns by all orders or by none, and so on."""
    from tests.models.orders.choosers import outcomes, seen

    differ = 0
    for seed, text, told_of in random_programs(0, 120):
        unit, lenient = unit_of(text), told_of - {"strict"}
        for args, answers in some_inputs(seed, 3):
            _, found, _ = outcomes(unit, "k", args, answers, most=24, samples=16)
            if not told_of:
                yield len(found) == 1
            if not lenient:
                yield len({seen(one) for one in found}) == 1
            if lenient == {"end"}:
                yield len({one if one[0] == "returned" else None for one in found}) == 1
            differ += bool(lenient) and len({seen(one) for one in found}) > 1
    yield differ > 10  # so the programs have orders that can be told apart


def watched_by_all_orders(folder: str) -> Iterator[bool]:
    """With all variables of the file watched, calls begin and end among the same values by all orders, where nothing is told."""
    from tests.models.orders.choosers import outcomes, seen

    names = ["g0", "g1", "g2", "a0", "a1"]
    for seed, text, _ in random_programs(1000, 60):
        if not classes_of(text, names) - {"strict"}:
            for args, answers in some_inputs(seed, 3):
                _, found, _ = outcomes(unit_of(text), "k", args, answers, most=24, samples=16, views=True)
                yield len({seen(one) for one in found}) == 1


# ---- compilers


def fails(folder: str, text: str, inputs: Sequence[Given], compiler: str) -> bool:
    """Whether a compiler gives another result than FShell on one of the inputs. Raises ValueError where no harness
    is written."""
    put(folder, {"a.c": text, "in": json.dumps([{"args": args, "answers": answers} for args, answers in inputs])})
    made = run(folder, ["harness", "k", "in", "a.c", "-o", "t.c"])
    if made.returncode:
        raise ValueError(made.stderr)
    words = [compiler, "-O0", "-w", "-fwrapv", "-fsigned-char", "-fno-builtin", "t.c", "-o", "t"]
    subprocess.run(words, cwd=folder, check=True, capture_output=True)
    ended = subprocess.run([os.path.join(folder, "t")], capture_output=True, text=True)
    return ended.returncode != 0


# the rows of which gcc or clang at -O0 takes another order than FShell, by the compilers that do
OTHERS = {"read call": {"clang"}, "index store": {"gcc"}, "arguments": {"gcc"}, "lent twice": {"gcc", "clang"}}


def rows_by_compilers(folder: str) -> Iterator[bool]:
    """A compiler may take another order where a class is told, and some do; where nothing is told, none does."""
    for name, due, text in ROWS:
        if due in ("", "value") and "case 1: int" not in text:
            inputs: list[Given] = [(list(args), []) for args in TWO_OUTCOMES_AT]
            differ = {one for one in ("gcc", "clang") if fails(folder, text, inputs, one)}
            yield differ >= OTHERS.get(name, set()) if due else not differ


def programs_by_compilers(folder: str) -> Iterator[bool]:
    """Random programs: those of which nothing is told give by gcc and clang what FShell gives."""
    for seed, text, told_of in random_programs(5000, 40):
        if not told_of - {"strict", "end"}:
            yield not any(fails(folder, text, some_inputs(seed, 4), one) for one in ("gcc", "clang"))


TRIED = [(GRAPH, wrong_words), (GRAPH, as_json), (GRAPH, rows_by_c), (GRAPH, watched_restricts), (GRAPH, lcov_leaves_nothing_out),
         (GRAPH, explain_is_restricted), (("graph", "jinja2"), page_is_restricted),
         (("graph", "parallel"), a_campaign_that_is_restricted), (("pycparser",), rows_by_all_orders),
         (("pycparser",), programs_by_all_orders), (("pycparser",), watched_by_all_orders),
         (("graph", "gcc", "clang"), rows_by_compilers), (("graph", "gcc", "clang"), programs_by_compilers)]  # fmt: skip
