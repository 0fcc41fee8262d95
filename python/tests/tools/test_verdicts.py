"""Cases of verdicts on runs that don't return: no tool calls unreachable what such a run takes, and no gate passes over a trap."""

import json
import os
import re
import shlex
from collections.abc import Callable, Iterator

from tests.models import trap_programs
from tests.tools import Case, Tried, put, run

CASES: list[Case] = []
GRAPH = "graph"
TABLE = """int table[4] = {1, 2, 3, 4};
int f(int i) {
  if (i > 3) {
    i = i + 1;
    return table[i];
  }
  return 0;
}
"""
QUERY = "cover @LINE(3)+@LINE(4)+@LINE(5)"
FAILS = "fails before it returns"
# behind the division line 4 is never come to in FShell's runs, and line 6 in none at all
BEHIND = """int f(int x) {
  if (x == 0) {
    x = 1 / x;
    x = 2;
  }
  if (x > 10) {
    if (x < 5) {
      x = 3;
    }
  }
  return x;
}
"""
ASSUMED = """int f(int x) {
  if (x > 3) {
    x = 4;
    assume(x < 4);
  }
  return x;
}
"""
TOML = """[module]
sources = ["t.c"]

[[entry]]
function = "f"
queries = ["decisions"]

[gate]
at-least = 50
requirements = true
{}
[requirements]
file = "needs.toml"
"""
OVER = """#include <string.h>
int over(const int *v)
{
  if (v == 0)
    return -1;
  if (v[0] > 100)
    return 1;
  return 0;
}
int twice(int x)
{
  char a[2] = {0}, b[2];
  memcpy(b, a, 2);
  return x > 5 ? 2 * x : x + b[1];
}
"""
OPEN = "over is open: no input chooses the object that v points to; `fshell driver over` writes a caller that does"
NEEDS = """[[requirement]]
id = "R-1"
text = "The index is never 5."
entry = "f"
cover = "{i == 5}"
never = true
"""


def a_campaign_tells_the_trap(folder: str) -> Iterator[bool]:
    """By hand: each i above 3 comes to line 5, where the index is outside; so three goals of four are hit by failing runs alone."""
    put(folder, {"t.c": TABLE})
    words = ["campaign", "-o", "dir", "--at-least", "100", "f", QUERY, "t.c"]
    ended = run(folder, words)
    yield ended.returncode == 1 and "unreachable" not in ended.stdout.replace("that aren't unreachable", "")
    with open(os.path.join(folder, "dir", "report.json"), encoding="utf-8") as file:
        value = json.load(file)
    yield [goal["answer"] for goal in value["goals"]] == [FAILS, "covered", FAILS, FAILS]
    yield all(
        goal["run"]["input"]["args"][0] > 3 and goal["run"]["end"] == "trapped index"
        for goal in value["goals"]
        if "run" in goal
    )
    yield [(one["place"], one["names"][-1]) for one in value["traps"]] == [("t.c:5:5", "f")]
    yield "a run ends at t.c:5:5, trapped index" in ended.stdout.splitlines()[-1]
    # what is allowed by name fails no gate
    ended = run(folder, [*words[:5], "--allow-traps", "t.c:5"])
    yield "trapped" not in ended.stdout.splitlines()[-1]
    ended = run(folder, ["campaign", "-o", "dir", "--at-least", "25", "--allow-traps", "f"])
    yield ended.returncode == 0


def an_open_entry_has_nothing_unreachable(folder: str) -> Iterator[bool]:
    """Line 7 wants an object whose first element is above 100, and no input chooses one. init leaves such an entry out, with the
    command that closes it, and functions of models too; those with integers alone are entries."""
    put(folder, {"over.c": OVER})
    yield run(folder, ["adapt", "over.c", "-o", "ad"]).returncode == 0
    ended = run(folder, ["campaign", "over", "cover @LINE(7)", "ad/over.c", "-o", "dir", "--at-least", "100"])
    yield ended.returncode == 1 and "\ngoal 1: refuted within the bounds, certificates/1.cert: " in ended.stdout
    yield f"no refuted goal is called unreachable: {OPEN}\n" in ended.stdout
    yield run(folder, ["init", "over.c"]).stdout == "fshell.toml: 1 entries for 2 functions\n"
    with open(os.path.join(folder, "fshell.toml"), encoding="utf-8") as file:
        text = file.read()
    yield re.findall(r'^function = "(\w+)"', text, re.MULTILINE) == ["twice"] and f"\n# {OPEN}:\n" in text
    (command,) = re.findall(r"^#   fshell (driver .*)$", text, re.MULTILINE)
    yield run(folder, shlex.split(command)).returncode == 0 and os.path.isfile(os.path.join(folder, "drive_over.c"))


def lcov_and_explain_leave_it_in(folder: str) -> Iterator[bool]:
    """The line on the way to the trap is one of the tracefile, and explain names the run."""
    put(folder, {"t.c": TABLE, "in": "1\n"})
    put(folder, {"report": run(folder, ["generate", "f", "cover ID", "t.c"]).stdout})
    ended = run(folder, ["lcov", "f", "in", "t.c", "--refuted", "report", "-o", "out"])
    with open(os.path.join(folder, "out"), encoding="utf-8") as file:
        text = file.read()
    yield ended.returncode == 0 and "\nDA:4,0\n" in text and "\nDA:5,0\n" in text and "left out, since" not in ended.stdout
    ended = run(folder, ["explain", "report", "t.c", "--entry", "f"])
    yield "\ngoal 3: fails before it returns, trapped index at t.c:5:5: return table[i], by the input args " in ended.stdout
    yield "5 goals: 2 covered, 3 fails before it returns\n" in ended.stdout


def what_is_behind_a_trap_is_not_unreachable(folder: str) -> Iterator[bool]:
    """A division by 0 is undefined (C11 6.5.5p5), so all behind it may be run; with the division taken out, line 8 is unreachable."""
    put(folder, {"b.c": BEHIND, "c.c": BEHIND.replace("1 / x", "1")})
    for name, due in (("b.c", "refuted for runs that return"), ("c.c", "unreachable")):
        put(folder, {"report": run(folder, ["generate", "f", "cover @LINE(4)+@LINE(8)", name]).stdout})
        told = run(folder, ["explain", "report", name, "--entry", "f"]).stdout
        yield f"\ngoal 2: {due}\n" in told
        yield ("goal 1: unreachable" in told) is False


def blocked_runs_are_outside_of_the_assumptions(folder: str) -> Iterator[bool]:
    """By hand: each x above 3 is 4 at the assumption, which doesn't hold; lines 3 and 4 have blocked runs alone."""
    put(folder, {"a.c": ASSUMED})
    put(folder, {"report": run(folder, ["generate", "f", "cover @LINE(3)", "a.c"]).stdout})
    yield "goal 1: outside of the assumptions, blocked at a.c:4:5" in run(
        folder, ["explain", "report", "a.c", "--entry", "f"]
    ).stdout


def a_requirement_that_a_failing_run_breaks(folder: str) -> Iterator[bool]:
    """i is 5 for the input 4, whose run traps at line 5; the gate fails by the trap and by the requirement."""
    put(folder, {"t.c": TABLE, "fshell.toml": TOML.format(""), "needs.toml": NEEDS})
    ended = run(folder, ["run"])
    yield ended.returncode == 1 and "\nrequirement R-1: violated by a run that fails\n" in ended.stdout
    yield "\nthe gate fails: a run of f ends at t.c:5:5, trapped index, by args " in ended.stdout
    with open(os.path.join(folder, "fshell.out", "report", "module.sarif"), encoding="utf-8") as file:
        found = json.load(file)["runs"][0]["results"]
    yield ("run-time-error", "error") in [(one["ruleId"], one["level"]) for one in found]
    put(folder, {"fshell.toml": TOML.format('allow-traps = ["f"]\n').replace("requirements = true\n", "")})
    ended = run(folder, ["run"])
    yield ended.returncode == 0 and "\ntrap: t.c:5:5: " in ended.stdout


def left_out(folder: str, seed: int) -> list[str]:
    """The lines that lcov leaves out of a random program though gcov marks them as executed."""
    made = trap_programs.Writer(seed)
    marked = trap_programs.executed(folder, made.text)
    put(folder, {"f.c": made.for_fshell, "in": "1\n"})
    put(folder, {"report": run(folder, ["generate", "f", "cover ID", "f.c"]).stdout})
    ended = run(folder, ["lcov", "f", "in", "f.c", "--refuted", "report", "-o", "out"])
    if ended.returncode:
        return [f"seed {seed}: {ended.stderr}"]
    lines = {
        int(line) for line in re.findall(r"^left out, since no run takes it: f\.c:(\d+)$", ended.stdout, re.MULTILINE)
    }
    return [f"seed {seed}: line {line} is left out, and executed" for line in sorted(lines & marked)]


def beside_gcov(first: int) -> Callable[[str], Iterator[bool]]:
    """No line that some input executes is called unreachable, of 10 random programs with traps, from a seed on."""

    def random_programs(folder: str) -> Iterator[bool]:
        for seed in range(first, first + 10):
            yield not left_out(folder, seed)

    return random_programs


TRIED: Tried = [
    ((GRAPH, "parallel"), a_campaign_tells_the_trap),
    ((GRAPH, "pycparser", "gcc"), an_open_entry_has_nothing_unreachable),
    ((GRAPH,), lcov_and_explain_leave_it_in),
    ((GRAPH,), what_is_behind_a_trap_is_not_unreachable),
    ((GRAPH,), blocked_runs_are_outside_of_the_assumptions),
    ((GRAPH,), a_requirement_that_a_failing_run_breaks),
    *(((GRAPH, "gcc", "gcov"), beside_gcov(first)) for first in range(0, 50, 10)),
]
