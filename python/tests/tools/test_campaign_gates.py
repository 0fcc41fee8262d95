"""More cases of fshell campaign: gates that nothing was tested for, bounds that are left, folders that are the same, sources that
changed in comments. The numbers of turns, frames and answers are counted by hand."""

import json
import os
import resource
import subprocess
from collections.abc import Iterator

from tests.tools import Tried, example, put, run

SUM = """int sum(int n) {
  int s = 0;
  for (int i = 0; i < 10; i++) {
    s += n;
  }
  if (s > 100) {
    return 1;
  }
  return 0;
}
"""
# the entry is a frame, and so is each call of down
DOWN = """int in(void);
int down(int n) {
  if (n < 3) {
    return n;
  }
  return 1 + down(n - 1);
}
int f(void) {
  return down(20);
}
int five(void) {
  int s = in() + in();
  s += in();
  s += in();
  return s + in();
}
"""
NEVER, FEE = example("never/never.c"), example("criteria/fee.c")
NO_RUN = "no run at all stays within the bounds, so each goal is refuted and nothing was tested\n"


def campaign(folder: str, *words: str, name: str = "new") -> subprocess.CompletedProcess[str]:
    """How a campaign in a folder ends."""
    return run(folder, ["campaign", "-o", name, *words])


def held(folder: str, name: str) -> dict[str, bytes]:
    """The files of a campaign by their names, but for what belongs to the machine."""
    found = {}
    for at, _, names in os.walk(os.path.join(folder, name)):
        for one in names:
            path = os.path.relpath(os.path.join(at, one), os.path.join(folder, name))
            if not path.startswith("machine"):
                with open(os.path.join(at, one), "rb") as file:
                    found[path] = file.read()
    return found


def a_gate_without_a_test_fails(folder: str) -> Iterator[bool]:
    """The loop has ten turns, and the bounds four: no goal is covered, none is unreachable, and no input is made."""
    put(folder, {"sum.c": SUM, "never.c": NEVER})
    ended = campaign(folder, "sum", "cover @CONDITIONEDGE", "sum.c", "--at-least", "100")
    yield ended.returncode == 1 and ended.stdout.startswith(NO_RUN)
    yield "goals 4: 0 covered, 0 undecided, 4 refuted within the bounds\n" in ended.stdout
    yield "\ncovered 0 of 4 goals that aren't unreachable, 0%\n" in ended.stdout
    yield "\nthe gate of 100% fails: 0% is less than 100%: 0 of 4; there is no input, so nothing was run\n" in ended.stdout
    yield campaign(folder, "--at-least", "0").returncode == 1
    # with the bounds that it names all is covered
    yield "\nbounds to try next: --turns 10\n" in ended.stdout
    ended = campaign(folder, "sum", "cover @CONDITIONEDGE", "sum.c", "--at-least", "100", "--turns", "10", name="more")
    yield ended.returncode == 0 and "\ncovered 4 of 4 goals that aren't unreachable, 100%\nthe gate of 100% passes\n" in ended.stdout
    # no goal is left in the denominator, though runs stay within the bounds
    ended = campaign(folder, "f", "cover @LINE(3)", "never.c", "--at-least", "100", name="none")
    yield ended.returncode == 1 and not ended.stdout.startswith("no run")
    yield "\nthe gate of 100% fails: each goal is unreachable, so nothing is left to be covered; there is no input" in ended.stdout
    ended = campaign(folder, "f", "cover @LINE(99)", "never.c", "--at-least", "100", name="empty")
    yield (ended.returncode, ended.stderr) == (2, "campaign: fshell measure: error 72 NoGoals query\n")
    # one that is unreachable doesn't count
    ended = campaign(folder, "f", "cover @CONDITIONEDGE", "never.c", "--at-least", "100", name="three")
    yield ended.returncode == 0 and "\ncovered 3 of 3 goals that aren't unreachable, 100%\nthe bounds suffice" in ended.stdout


def bounds_that_are_left_are_named(folder: str) -> Iterator[bool]:
    put(folder, {"sum.c": SUM, "down.c": DOWN})
    none: list[str] = []
    for entry, source, words, where, options in (
        ("sum", "sum.c", none, "turn 5 of the loop at sum.c:3, by the input args 0", "--turns 10"),
        ("f", "down.c", none, "frame 9: a call of down at down.c:6:3, by the input args", "--frames 20"),
        ("five", "down.c", ["--answers", "3"], "answer 4 of in at down.c:14:3, by the input args", "--answers 5"),
        ("five", "down.c", ["--answers", "0"], "answer 1 of in at down.c:12:3, by the input args", "--answers 5"),
    ):
        name = entry + "".join(words)
        ended = campaign(folder, entry, "cover @EXIT(%s)" % entry, source, *words, name=name)
        yield f"\nthe bounds don't suffice: {where}" in ended.stdout and f"\nbounds to try next: {options}\n" in ended.stdout
        value = json.loads(held(folder, name)["report.json"])["limits"]
        yield value["suffice"] is False and value["next"] == options and where.startswith(value["where"])
        more = campaign(folder, entry, "cover @EXIT(%s)" % entry, source, *options.split(), name=name + "more")
        yield more.returncode == 0 and " goals that aren't unreachable, 100%\n" in more.stdout


def a_folder_is_the_same_with_any_jobs(folder: str) -> Iterator[bool]:
    put(folder, {"fee.c": FEE, "in.txt": example("criteria/in.txt")})
    words = ["fee", 'cover @DEF(sum) . "NOT(@DEF(sum))*" . @USE(sum)', "fee.c", "--inputs", "in.txt"]
    for jobs in ("1", "3", "8"):
        yield campaign(folder, *words, "--jobs", jobs, name=jobs).returncode == 0
    yield held(folder, "1") == held(folder, "3") == held(folder, "8") and len(held(folder, "1")) > 8
    # the number is kept
    for given, due in (("", "3\n"), ("--jobs 2", "2\n"), ("", "2\n")):
        yield campaign(folder, *given.split(), name="3").returncode == 0
        with open(os.path.join(folder, "3", "machine", "jobs"), encoding="ascii") as file:
            yield file.read() == due
    yield held(folder, "1") == held(folder, "3")


def comments_may_change(folder: str) -> Iterator[bool]:
    put(folder, {"fee.c": FEE})
    yield campaign(folder, "fee", "cover @CONDITIONEDGE", "fee.c").returncode == 0
    yield campaign(folder, "fee", "cover @LINE(11)", "fee.c", name="line").returncode == 0
    said = "changed in comments alone: fee.c; the goals are the same\n"
    before = held(folder, "new")["report.txt"]
    for text in (FEE + "// a word\n", FEE.replace("{\n", "{ /* a word */\n", 1)):
        put(folder, {"fee.c": text})
        for name in ("new", "line"):
            ended = campaign(folder, name=name)
            yield ended.returncode == 0 and ended.stderr.startswith(said)
        yield held(folder, "new")["report.txt"] == before
        yield campaign(folder).stderr == ""
    # lines move: the goals are the same, but not those of a query that names a line
    put(folder, {"fee.c": "// a word\n" + FEE})
    ended = campaign(folder, "fee", "cover @CONDITIONEDGE", "fee.c")
    yield ended.returncode == 0 and ended.stderr.startswith(said) and "e0@fee.c:4\n" in ended.stdout
    ended = campaign(folder, name="line")
    kept = (
        "another one may begin with its inputs (--inputs line/inputs.json), its certificates are of the old sources\n"
    )
    yield (ended.returncode, ended.stderr) == (2, f"campaign: line: changed since the campaign began: fee.c; {kept}")
    # a number alone, which neither goals nor graph tell
    put(folder, {"fee.c": FEE.replace("1000", "1001")})
    ended = campaign(folder)
    yield ended.returncode == 2 and "new: changed since the campaign began: fee.c; another one may begin" in ended.stderr
    yield campaign(
        folder, "fee", "cover @CONDITIONEDGE", "fee.c", "--inputs", "new/inputs.json", name="next"
    ).returncode == 0


def line_breaks_of_a_query_make_no_lines(folder: str) -> Iterator[bool]:
    """A comment within a predicate that looks like a line of a report."""
    put(folder, {"a.c": "int f(int x) {\n  return x;\n}\n"})
    query = "cover {x == 0 /*\ngoal 2 refuted e0@a.c:2\n*/} + {x == 1}"
    ended = campaign(folder, "f", query, "a.c")
    yield ended.returncode == 0 and "goals 2: 2 covered, 0 undecided\n" in ended.stdout
    yield not any(line.startswith("goal 2 ") for line in ended.stdout.splitlines())
    told = run(folder, ["explain", query, "a.c"])
    yield told.returncode == 0 and told.stdout.endswith("2 goals\n")
    yield told.stdout.startswith("goal 1:\n  {x == 0 /* goal 2 refuted e0@a.c:2 */} holds\ngoal 2:\n")
    made = run(folder, ["generate", "f", query, "a.c"]).stdout
    put(folder, {"made": made, "json": run(folder, ["generate", "--json", "f", query, "a.c"]).stdout})
    yield run(folder, ["explain", "made", "a.c"]).returncode == 2
    yield run(folder, ["explain", "json", "a.c"]).stdout.endswith("2 goals: 2 covered\n")
    yield run(folder, ["inputs", "json"]).stdout == "0\n1\n"


def many_easy_goals_take_few_seconds(folder: str) -> Iterator[bool]:
    """400 pairs of condition edges: 160 in the order of the branches, of which each has an input, and 240 that can't be."""
    branches = "".join(
        f"  if (x{'' if one % 2 else ' + y'} > {7 * one % 31}) {{\n    s += {one};\n  }}\n" for one in range(10)
    )
    put(folder, {"ten.c": f"int f(int x, int y) {{\n  int s = 0;\n{branches}  return s;\n}}\n"})
    before = resource.getrusage(resource.RUSAGE_CHILDREN)
    ended = campaign(folder, "f", "cover @CONDITIONEDGE -> @CONDITIONEDGE", "ten.c", "--jobs", "2")
    after = resource.getrusage(resource.RUSAGE_CHILDREN)
    yield ended.returncode == 0 and " 0 undecided, 240 unreachable\n" in ended.stdout
    # (of each goal one over the runs that count, and one over runs of any end)
    yield sum(name.endswith(".cert") for name in held(folder, "new")) == 480
    # (some five on a quiet machine)
    yield after.ru_utime + after.ru_stime - before.ru_utime - before.ru_stime < 10


TRIED: Tried = [((), function) for function in (
    a_gate_without_a_test_fails, bounds_that_are_left_are_named, a_folder_is_the_same_with_any_jobs, comments_may_change,
    line_breaks_of_a_query_make_no_lines, many_easy_goals_take_few_seconds)]  # fmt: skip
