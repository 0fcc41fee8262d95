"""The cases of fshell mcdc: decisions that are worked out by hand, and random ones beside all their inputs."""

import json
import os
import random
from collections.abc import Iterator, Sequence
from typing import Any

from tests.models.decision_trees import all_inputs_show, expression, text_of
from tests.tools import Case, captured, put, run

GRAPH = ("graph",)


def source(condition: str, statement: str = "if ({}) {{\n    return 1;\n  }}\n  return 0;") -> str:
    """A function whose statement has a condition."""
    return "int f(int a, int b, int c) {\n  " + statement.format(condition) + "\n}\n"


def worked(name: str, condition: str, given: str, lines: Sequence[str], total: str, column: int = 7) -> Case:
    """A decision with its inputs, and what is said of it."""
    text = f"decision 1: a.c:2:{column} f: if ({condition})\n"
    text += "".join(f"  {line}\n" for line in lines) + f"conditions {total}\n"
    shown, none = (int(captured(rf"(\d+) {word}", total)) for word in ("shown", "without"))
    text += f"covered {shown} of {shown} conditions that aren't unreachable, 100%\n"
    text += "the bounds suffice: no run at all leaves them\n" if none else ""
    return Case(
        f"mcdc: {name}",
        ["mcdc", "f", "a.c", "--inputs", "in"],
        {"a.c": source(condition), "in": given},
        stdout=text,
        needs=GRAPH,
    )


def goals_of(line: int) -> str:
    """The line that names the query of a decision on a line."""
    return f"goals of: cover PATHS(INTERSECT(@CONDITIONGRAPH,INTERSECT(@FUNC(f),@LINE({line}))),1)"


CASES = [
    worked("a and b and c", "a && b && c", "0 1 1\n1 0 1\n1 1 0\n1 1 1\n", [
        "path 1: F - - is false, input 1: args 0 1 1",
        "path 2: T F - is false, input 2: args 1 0 1",
        "path 3: T T F is false, input 3: args 1 1 0",
        "path 4: T T T is true, input 4: args 1 1 1",
        "condition 1: a: inputs 1 and 4, by paths 1 and 4",
        "condition 2: b: inputs 2 and 4, by paths 2 and 4",
        "condition 3: c: inputs 3 and 4, by paths 3 and 4",
    ], "3 of 1 decisions: 3 shown, 0 without a pair, 0 undecided"),
    worked("(a or b) and c", "(a || b) && c", "1 0 0\n1 0 1\n0 0 1\n0 1 0\n0 1 1\n", [
        "path 1: T - F is false, input 1: args 1 0 0",
        "path 2: T - T is true, input 2: args 1 0 1",
        "path 3: F F - is false, input 3: args 0 0 1",
        "path 4: F T F is false, input 4: args 0 1 0",
        "path 5: F T T is true, input 5: args 0 1 1",
        "condition 1: a: inputs 2 and 3, by paths 2 and 3",
        "condition 2: b: inputs 3 and 5, by paths 3 and 5",
        "condition 3: c: inputs 1 and 2, by paths 1 and 2",
    ], "3 of 1 decisions: 3 shown, 0 without a pair, 0 undecided", column=8),
    worked("coupled conditions", "(a && b) || (a && c)", "1 1 0\n1 0 0\n1 0 1\n0 0 0\n", [
        "path 1: T T - - is true, input 1: args 1 1 0",
        "path 2: T F F - is false, refuted, goal 4",
        "path 3: T F T F is false, input 2: args 1 0 0",
        "path 4: T F T T is true, input 3: args 1 0 1",
        "path 5: F - F - is false, input 4: args 0 0 0",
        "path 6: F - T F is false, refuted, goal 6",
        "path 7: F - T T is true, refuted, goal 5",
        "condition 1: a: inputs 1 and 4, by paths 1 and 5",
        "condition 2: b: inputs 1 and 2, by paths 1 and 3",
        "condition 3: a: inputs 3 and 4, by paths 4 and 5",
        "condition 4: c: inputs 2 and 3, by paths 3 and 4",
        goals_of(2),
    ], "4 of 1 decisions: 4 shown, 0 without a pair, 0 undecided", column=8),
    worked("conditions that never matter", "a || (a && b)", "1 0 0\n0 0 0\n", [
        "path 1: T - - is true, input 1: args 1 0 0",
        "path 2: F F - is false, input 2: args 0 0 0",
        "path 3: F T F is false, refuted, goal 3",
        "path 4: F T T is true, refuted, goal 2",
        "condition 1: a: inputs 1 and 2, by paths 1 and 2",
        "condition 2: a: no pair at all, by refuted paths 4",
        "condition 3: b: no pair at all, by refuted paths 3 4",
        goals_of(2),
    ], "3 of 1 decisions: 1 shown, 2 without a pair, 0 undecided"),
    worked("a negation", "!(a && !b)", "0 0 0\n1 0 0\n1 1 0\n", [
        "path 1: F - is true, input 1: args 0 0 0",
        "path 2: T F is false, input 2: args 1 0 0",
        "path 3: T T is true, input 3: args 1 1 0",
        "condition 1: a: inputs 1 and 2, by paths 1 and 2",
        "condition 2: b: inputs 2 and 3, by paths 2 and 3",
    ], "2 of 1 decisions: 2 shown, 0 without a pair, 0 undecided", column=9),
    Case("mcdc: no decision", ["mcdc", "f", "a.c"], {"a.c": "int f(int x) { return x; }\n"}, 2, "", "mcdc: there is no decision\n", needs=GRAPH),
    Case("mcdc: a bound out of range", ["mcdc", "f", "a.c", "--turns", "1001"], {"a.c": source("a")}, 2, "", None),
    Case("mcdc: inputs that are refused", ["mcdc", "f", "a.c", "--inputs", "in", "--suite", "new"], {"a.c": source("a"), "in": "1 x\n"}, 2, "",
         "mcdc: in: no inputs are read: 'x' is no number\n", needs=GRAPH),
    Case("mcdc: an entry that isn't there", ["mcdc", "g", "a.c", "--suite", "new"], {"a.c": source("a")}, 2, "",
         "mcdc: fshell generate: error 36 NoSuchEntry\n", needs=GRAPH),
]  # fmt: skip


def told(folder: str, text: str, *words: str) -> tuple[Any, int]:
    """What is said of a source, as JSON, and the status."""
    put(folder, {"a.c": text})
    ended = run(folder, ["mcdc", "f", "a.c", "--json", *words])
    return json.loads(ended.stdout), ended.returncode


def of(decision: dict[str, Any]) -> tuple[dict[str, bool], list[str]]:
    """A decision's paths with their outcomes, rising, and the states of its conditions."""
    paths = {
        "".join({True: "T", False: "F", None: "-"}[value] for value in path["values"]): path["outcome"]
        for path in decision["paths"]
    }
    return paths, [condition["state"] for condition in decision["conditions"]]


def decisions_of_each_statement(folder: str) -> Iterator[bool]:
    """Loops, a ?:, values of expressions, and calls within conditions, with their outcomes by hand."""
    both = ({"F-": False, "TF": False, "TT": True}, ["shown", "shown"])
    nor = ({"T-": True, "FT": True, "FF": False}, ["shown", "shown"])
    for statement, due in (
        ("while (a && b) {{ a = 0; }}\n  return 0;", both),
        ("do {{ c++; }} while (c < 2 && a);\n  return 0;", None),
        ("for (int i = 0; i < 2 && a; i++) {{ c++; }}\n  return c;", both),
        ("return a || b ? 3 : 4;", nor),
        ("int d = !(a || b);\n  return d;", nor),
        ("if (a || b) {{ c = 1; }} else {{ c = 2; }}\n  return c;", nor),
        ("if (c == 7) {{ return 7; }} else if (a || b) {{ return 1; }}\n  return c;", None),
        ("return (a && b) == c;", both),
        ("int t[2] = {{0, 1}};\n  return t[a && b];", both),
    ):
        value, status = told(folder, source("", statement))
        yield status == 0 and (due is None or of(value["decisions"][-1]) == due)
        yield all(
            condition["state"] == "shown" for decision in value["decisions"] for condition in decision["conditions"]
        )


def calls_within_conditions(folder: str) -> Iterator[bool]:
    text = (
        "static int g(int x) {\n  if (x > 3) {\n    return 1;\n  }\n  return 0;\n}\n"
        "int f(int a, int b) {\n  if (a && g(b) && b < 9) {\n    return 1;\n  }\n  return 0;\n}\n"
    )
    value, status = told(folder, text)
    yield status == 0 and [decision["function"] for decision in value["decisions"]] == ["g", "f"]
    yield of(value["decisions"][1]) == ({"F--": False, "TF-": False, "TTF": False, "TTT": True}, ["shown"] * 3)
    # a path that is impossible behind the call
    value, status = told(folder, text.replace("b < 9", "b > 2"))
    yield status == 0 and of(value["decisions"][1])[1] == ["shown", "shown", "none"]


def calls_before_the_first_guard(folder: str) -> Iterator[bool]:
    """Conditions that begin with calls of functions that are defined, in each statement; an input function may stand beside them."""
    text = (
        "int in(void);\nstatic int g(int x) {{\n  return x > 3;\n}}\nstatic int two(int x, int y) {{\n  return x - y;\n}}\n"
        "int f(int a, int b) {{\n  {}\n}}\n"
    )
    one, both = {"F": False, "T": True}, {"F-": False, "TF": False, "TT": True}
    for statement, due in (
        ("if (g(a)) {{\n    return 1;\n  }}\n  return 0;", one),
        ("while (g(a)) {{ a = 0; }}\n  return 0;", one),
        ("do {{ a--; }} while (g(a));\n  return a;", one),
        ("for (int i = 0; two(2, i); i++) {{ a++; }}\n  return a;", one),
        ("return g(a) ? 7 : 8;", one),
        ("if (g(a) && g(b)) {{ return 1; }}\n  return 0;", both),
        ("if (g(a) && b > 2) {{ return 1; }}\n  return 0;", both),
        ("if (g(g(a) + 3)) {{ return 1; }}\n  return 0;", one),
        ("if (two(g(a), g(b)) != 0) {{ return 1; }}\n  return 0;", one),
        ("if (two(in(), a) < 0) {{ return 1; }}\n  return 0;", one),
        ("if (g(a) + in() > 5) {{ return 1; }}\n  return 0;", one),
        ("return g(a) && g(b);", both),
    ):
        value, status = told(folder, text.format(statement.format()))
        paths, states = of(value["decisions"][0])
        yield status == 0 and paths == due and states == ["shown"] * len(states)
    # both paths of a condition that always holds are told, and the one that is refuted has a certificate
    put(folder, {"a.c": text.format("if (g(5)) {\n    return 1;\n  }\n  return a + b;")})
    ended = run(folder, ["mcdc", "f", "a.c", "--certificates", "certs"])
    yield ended.returncode == 0 and "  path 1: F is false, refuted, goal " in ended.stdout
    yield "\nconditions 1 of 1 decisions: 0 shown, 1 without a pair, 0 undecided; 1 certificates are checked\n" in ended.stdout


def many_calls(folder: str) -> Iterator[bool]:
    """A condition whose calls, joined by three arrows, make more goals than a query may have."""
    text = (
        "static int g(int x) {\n  return x != 0;\n}\nstatic int two(int x, int y) {\n  return x != y;\n}\nint f(int a, int b, int c) {\n"
        "  if (((two(a, 0) && b) && (g(a) || g(g(b)))) || c) {\n    return 1;\n  }\n  return 0;\n}\n"
    )
    tree = ("||", ("&&", ("&&", "a", "b"), ("||", "a", "b")), "c")
    value, status = told(folder, text)
    yield status == 0 and of(value["decisions"][0])[1] == [
        "shown" if shown else "none" for shown in all_inputs_show(tree)
    ]


def certificates_and_the_suite_are_written(folder: str) -> Iterator[bool]:
    put(folder, {"a.c": source("a || (a && b)")})
    ended = run(folder, ["mcdc", "f", "a.c", "--certificates", "certs", "--suite", "suite"])
    yield ended.returncode == 0 and "; 2 certificates are checked\n" in ended.stdout
    query = goals_of(2).removeprefix("goals of: ")
    for goal in ("2", "3"):
        checked = run(folder, ["check", "f", query, goal, f"certs/decision1-goal{goal}.cert", "a.c"])
        yield checked.stdout == f"goal {goal} refuted turns 4 frames 8 answers 16\n"
    yield run(folder, ["runs", "f", "suite", "a.c"]).returncode == 0


def sixteen_conditions(folder: str) -> Iterator[bool]:
    """Eight disjunctions of two, joined by `&&`: of k of them 2^(k+1) - 1 paths, whose time must not grow with a power of theirs."""
    names = [f"{name}{number}" for number in range(8) for name in "ab"]
    condition = " && ".join(f"({first} || {second})" for first, second in zip(names[::2], names[1::2]))
    text = f"int f({', '.join('int ' + name for name in names)}) {{\n  if ({condition}) {{\n    return 1;\n  }}\n  return 0;\n}}\n"
    value, status = told(folder, text)
    paths, states = of(value["decisions"][0])
    yield status == 0 and len(paths) == 511 and states == ["shown"] * 16


CALLS = """int g(int x) { return x > 3; }
int f(int a, int b) {
  if (a == 7) {
    return 7;
  } else if (g(a) && (b < 0 ? -b : b) > 1) {
    return 1;
  }
  assert(a != 5 || b != 5);
  if (g(a) && (b < 0 ? -b : b) > 1) {
    return 2;
  }
  return 0;
}
"""


def a_call_and_a_choice_in_one_decision(folder: str) -> Iterator[bool]:
    """Five decisions, by hand: line 9 is never true, since line 5 was; the assert's conditions are listed apart."""
    value, status = told(folder, CALLS)
    yield status == 0 and [decision["place"] for decision in value["decisions"]] == [
        "a.c:3:7",
        "a.c:5:14",
        "a.c:5:23",
        "a.c:9:7",
        "a.c:9:16",
    ]
    yield [of(decision)[1] for decision in value["decisions"]] == [
        ["shown"],
        ["shown"] * 2,
        ["shown"],
        ["none"] * 2,
        ["shown"],
    ]
    yield [decision["place"] for decision in value["asserts"]] == ["a.c:8:10"]
    yield value["counts"] == {
        "covered": 5,
        "missed": 0,
        "undecided": 0,
        "refuted within the bounds": 0,
        "refuted for runs that return": 0,
        "fails before it returns": 0,
        "outside of the assumptions": 0,
        "unreachable": 2,
    }
    text = run(folder, ["mcdc", "f", "a.c"]).stdout.splitlines()
    yield text[-4:] == [
        "conditions 2 of 1 asserts and assumes: 0 shown, 2 without a pair, 0 undecided",
        "conditions 7 of 5 decisions: 5 shown, 2 without a pair, 0 undecided",
        "covered 5 of 5 conditions that aren't unreachable, 100%",
        "the bounds suffice: no run at all leaves them",
    ]
    # what the condition of the else if makes is shown where it stands
    faces = run(folder, ["explain", "in @FUNC(f) cover @CONDITIONGRAPH", "a.c"]).stdout
    yield "  e10 a.c:5:22 f: if (g(a) && (b < 0 ? -b : b) > 1)\n" in faces and "  e4 a.c:5:14 f: calls g, in if (g(a) &&" in faces


def one_decision_that_cant_be_asked_for(folder: str) -> Iterator[bool]:
    """Its 2^15 - 1 paths are more than a query may have goals; the other decision has its verdict."""
    many = " && ".join(f"(a != {number} || b != {number})" for number in range(14))
    put(
        folder,
        {
            "a.c": source(
                "", f"if ({many}) {{{{\n    return 1;\n  }}}}\n  if (b) {{{{\n    return c;\n  }}}}\n  return 0;"
            )
        },
    )
    ended = run(folder, ["mcdc", "f", "a.c"])
    yield ended.returncode == 1 and "\n  it can't be asked for, error 71 TooManyGoals limit 10000\n" in ended.stdout
    yield "\nconditions 29 of 2 decisions: " in ended.stdout and "  condition 1: b: inputs " in ended.stdout
    value, status = told(folder, source("", "return a && b;"))
    yield status == 0 and "why" not in value["decisions"][0]


def a_gate_of_conditions(folder: str) -> Iterator[bool]:
    """`a || (a && b)` has one condition that can be shown, and two that can't at all."""
    put(folder, {"a.c": source("a || (a && b)")})
    ended = run(folder, ["mcdc", "f", "a.c", "--at-least", "100"])
    yield ended.returncode == 0 and ended.stdout.endswith("\nthe gate of 100% passes\n")
    # a loop of ten turns: within four no run returns, and nothing is shown
    loop = "int f(int a) {\n  int s = 0;\n  for (int i = 0; i < 10; i++) {\n    s += a;\n  }\n  return s > 4 && a < 9;\n}\n"
    put(folder, {"b.c": loop})
    ended = run(folder, ["mcdc", "f", "b.c", "--at-least", "1"])
    yield ended.returncode == 1 and "covered 0 of 3 conditions that aren't unreachable, 0%\nthe bounds don't suffice: turn 5 of" in ended.stdout
    yield ended.stdout.endswith("fails: 0% is less than 1%: 0 of 3; there is no input, so nothing was run\n")
    ended = run(folder, ["mcdc", "f", "b.c", "--at-least", "100", "--turns", "10"])
    yield ended.returncode == 0 and "covered 3 of 3 conditions" in ended.stdout


def conditions_are_shown_and_counted(folder: str) -> Iterator[bool]:
    """The JSON is a page's report, and a campaign counts it; one of other sources is refused."""
    put(folder, {"a.c": source("a || (a && b)"), "never.c": "int f(int a, int b, int c) {\n  return a;\n}\n"})
    put(folder, {"mcdc.json": run(folder, ["mcdc", "f", "a.c", "--json"]).stdout})
    ended = run(
        folder,
        ["campaign", "f", "cover @STMTTYPE(RETURN)", "a.c", "-o", "new", "--mcdc", "mcdc.json", "--at-least", "100"],
    )
    yield ended.returncode == 0 and "\nMC/DC: conditions 3: 1 covered, 0 undecided, 2 unreachable\n" in ended.stdout
    yield json.loads(open(os.path.join(folder, "new", "report.json"), encoding="utf-8").read())["counts"]["mcdc"][
        "unreachable"
    ] == 2
    # (that `b` can't decide is seen without a search)
    put(folder, {"open.json": run(folder, ["mcdc", "f", "a.c", "--json", "--budget", "1"]).stdout})
    ended = run(folder, ["campaign", "-o", "new", "--mcdc", "open.json", "--at-least", "100"])
    yield ended.returncode == 1 and "the gate of 100% fails: MC/DC: 0% is less than 100%: 0 of 1; MC/DC: there is no input" in ended.stdout
    ended = run(folder, ["campaign", "f", "cover @STMTTYPE(RETURN)", "never.c", "-o", "other", "--mcdc", "mcdc.json"])
    yield (ended.returncode, ended.stderr) == (
        2,
        "campaign: mcdc.json: it is of another entry or of other sources than the campaign\n",
    )
    ended = run(folder, ["campaign", "-o", "new", "--mcdc", "a.c"])
    yield (ended.returncode, ended.stderr) == (2, "campaign: a.c: it is no report of mcdc as JSON\n")


def conditions_are_a_page(folder: str) -> Iterator[bool]:
    put(folder, {"a.c": source("a || (a && b)")})
    put(folder, {"mcdc.json": run(folder, ["mcdc", "f", "a.c", "--json"]).stdout})
    ended = run(folder, ["page", "mcdc.json", "-o", "page.html"])
    yield ended.stdout == "page.html: 3 goals, 1 covered, 0 missed, 0 undecided, 0 refuted within the bounds, 2 unreachable\n"


def small_budgets_leave_it_open(folder: str) -> Iterator[bool]:
    value, status = told(folder, source("a * b == 7919 * 7907 && c"), "--budget", "1")
    yield status == 1 and "undecided" in of(value["decisions"][0])[1]


# ---- random decisions beside all their inputs


def random_decisions_agree_with_all_inputs(folder: str) -> Iterator[bool]:
    chance = random.Random(53)
    for _ in range(12):
        tree = ("&&", expression(chance, 2), expression(chance, 2))
        value, status = told(folder, source(text_of(tree)))
        states = [condition["state"] for condition in value["decisions"][0]["conditions"]]
        yield status == 0 and states == ["shown" if shown else "none" for shown in all_inputs_show(tree)]


TRIED = [(GRAPH, function) for function in (
    decisions_of_each_statement, calls_within_conditions, calls_before_the_first_guard, many_calls, certificates_and_the_suite_are_written, sixteen_conditions, small_budgets_leave_it_open,
    random_decisions_agree_with_all_inputs, a_call_and_a_choice_in_one_decision, one_decision_that_cant_be_asked_for,
    a_gate_of_conditions)] + [((*GRAPH, "parallel"), conditions_are_shown_and_counted), ((*GRAPH, "jinja2"), conditions_are_a_page)]  # fmt: skip
