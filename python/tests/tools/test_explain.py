"""The cases of fshell explain: the places are those of python/tests/program/command_cases/ and docs/COMMANDS.md, the texts by hand."""

from collections.abc import Iterator

from tests.tools import Case, example, put, run

NEVER = "int f(int x) {\n  if (x > 10 && x < 5) {\n    return 1;\n  }\n  return 0;\n}\n"
ONE = "int in(void);\nint limit = 1;\nint g(int v) {\n  return v + limit;\n}\n"
TWO = """int f(int x) {
  int a[2];
  while (x > 1 && x) {
    x = in();
  }
  assume(x);
  a[0] = g(x);
  assert(a[0]);
done: return a[1];
}
"""
KINDS = """void h(int x) {
  do { ; } while (x);
  for (; x; ) break;
  switch (x) { case 1: ; default: x++; }
  if (x) h(x); else return;
}
"""
CONDITIONS = """  e0 never.c:2:7 f: x > 10 is true, in if (x > 10 && x < 5)
  e1 never.c:2:7 f: x > 10 is false, in if (x > 10 && x < 5)
  e2 never.c:2:17 f: x < 5 is true, in if (x > 10 && x < 5)
  e3 never.c:2:17 f: x < 5 is false, in if (x > 10 && x < 5)
"""
OF_TWO = """  e0 one.c:4:3 g: return v + limit
  e1 two.c:2:3 f: int a[2]
  e2 two.c:3:3 f: enters the loop, in while (x > 1 && x)
  e3 two.c:3:10 f: x > 1 is true, in while (x > 1 && x)
  e4 two.c:3:10 f: x > 1 is false, in while (x > 1 && x)
  e5 two.c:3:19 f: x is true, in while (x > 1 && x)
  e6 two.c:3:19 f: x is false, in while (x > 1 && x)
  e7 two.c:4:5 f: in answers, in x = in()
  e8 two.c:4:5 f: x = in()
  e9 two.c:3:3 f: goes back to the loop's head, in while (x > 1 && x)
  e10 two.c:6:3 f: assume(x)
  e11 two.c:7:3 f: calls g, in a[0] = g(x)
  e12 two.c:7:3 f: g returns, in a[0] = g(x)
  e13 two.c:7:3 f: a[0] = g(x)
  e14 two.c:8:3 f: assert(a[0])
  e15 two.c:9:1 f: done:, label done
  e16 two.c:9:7 f: return a[1]
"""
OF_KINDS = """  e0 k.c:2:3 h: enters the loop, in do
  e1 k.c:2:8 h: ;
  e2 k.c:2:19 h: x is true, in while (x)
  e3 k.c:2:19 h: x is false, in while (x)
  e4 k.c:2:3 h: goes back to the loop's head, in do
  e5 k.c:3:3 h: enters the loop, in for (; x; )
  e6 k.c:3:10 h: x is true, in for (; x; )
  e7 k.c:3:10 h: x is false, in for (; x; )
  e8 k.c:3:15 h: break
  e9 k.c:3:3 h: goes back to the loop's head, in for (; x; )
  e10 k.c:4:3 h: switch (x)
  e11 k.c:4:16 h: case 1 is true, in switch (x)
  e12 k.c:4:16 h: case 1 is false, in switch (x)
  e13 k.c:4:24 h: ;
  e14 k.c:4:35 h: x++
  e15 k.c:5:7 h: x is true, in if (x)
  e16 k.c:5:7 h: x is false, in if (x)
  e17 k.c:5:10 h: calls h, in h(x)
  e18 k.c:5:10 h: h returns, in h(x)
  e19 k.c:5:21 h: return
"""
MADE = """goals 4 turns 4 frames 8 answers 16 budget 5000000
input 1 args 1073741824
input 2 args 0
goal 1 covered 1 e0@never.c:2
goal 2 covered 2 e1@never.c:2
goal 3 refuted e2@never.c:2
goal 4 covered 1 e3@never.c:2
suite 1 2
covered 3 refuted 1 undecided 0 of 4
"""
AS_JSON = ('{"bounds":{"answers":16,"budget":5000000,"frames":8,"turns":4},"covered":1,"goals":[{"answer":"covered","input":1,'
           '"text":"e8@count.c:7"}],"inputs":[{"answers":[],"args":[3]}],"refuted":0,"suite":[1],"undecided":0}\n')  # fmt: skip
GRAPH = ("graph",)
WITHIN = "refuted goals have no run within the bounds; with --entry, bounds is asked whether a run leaves them\n"
SUFFICE = "the bounds suffice: no run at all leaves them\n"
RETURN = "  e5 never.c:5:3 f: return 0\n"
LETTERS = f"""goal 1:
  n1 never.c:6 f: the exit
  a row of steps that match "ID*"
  {{x == 1}} holds
goal 2:
  n3 never.c:2 f: control before if (x > 10 && x < 5) {{
  a row of steps that match "ID*"
  {{x == 1}} holds
goal 3:
  {{x}} holds
{RETURN}  {{x}} holds
goal 4:
  {{x}} holds
{RETURN}  {{x}} doesn't hold
goal 5:
  {{x}} doesn't hold
{RETURN}  {{x}} holds
goal 6:
  {{x}} doesn't hold
{RETURN}  {{x}} doesn't hold
6 goals
"""
# by hand: with turns 2 each loop has counters 0 to 2; g has 3 nodes in its loop and 3 without, f 4 in its own and 5 without, and g is
# entered from f's loop with each of its counters and once behind it. With K turns and m = K + 1 there are 3mm + 10m + 8 pairs.
MULTIPLIED = """int in(void);
int g(int v) {
  while (v) {
    v--;
  }
  return v;
}
int f(int n) {
  for (; n; ) {
    n = g(n);
  }
  return g(in());
}
"""
PAIRS = """code 80, more than 50,000 pairs of node and context: walks from f reach 65 pairs within turns 2 frames 8 answers 16
  36 in g, the loop at w.c:3
  12 in f, the loop at w.c:9
  12 in g, no loop
  5 in f, no loop
  g is entered in 4 contexts: 3 by the call at w.c:10:5 in f within 1 loop; 1 by the call at w.c:12:3 in f
  --turns 2: each loop tells up to 3 contexts apart
  --answers 16: up to 2 numbers of answers tell contexts apart
"""
REFUSED = "error 81 UnwindingTooLarge limit 4194304\n"


def goals(faces: str) -> str:
    """What is said of goals of one letter each."""
    lines = faces.splitlines()
    return "".join(f"goal {number}:\n{line}\n" for number, line in enumerate(lines, 1)) + f"{len(lines)} goals\n"


def said(number: int, verdict: str, faces: str, line: str) -> str:
    """What is said of a goal with its verdict and its input, if any."""
    return f"goal {number}: {verdict}\n{faces.splitlines()[number - 1]}\n{line}"


OF_MADE = (said(1, "covered by input 1", CONDITIONS, "  input 1: args 1073741824\n")
           + said(2, "covered by input 2", CONDITIONS, "  input 2: args 0\n") + said(3, "refuted within the bounds", CONDITIONS, "")
           + said(4, "covered by input 1", CONDITIONS, "  input 1: args 1073741824\n") + "4 goals: 3 covered, 1 refuted within the bounds\n" + WITHIN)  # fmt: skip
LOST = "goals 1 inputs 2\ninput 1 trapped assert\ninput 2 returned\ngoal 1 covered 2 e15@two.c:9\nsuite 2\ncovered 1 of 1\n"
TRAPS = "int f(int x) {\n  if (x > 10 && x < 5) {\n    return 1;\n  }\n  return 0;\n}\n"


TREES = "input 1 returned 5\ninput 2 returned 9\ninput 3 trapped assert\n"
CASES = [
    Case("explain: what multiplies", ["explain", "80", "w.c", "--entry", "f", "--turns", "2"], {"w.c": MULTIPLIED}, stdout=PAIRS, needs=GRAPH),
    Case("explain: what multiplies, by the refusal", ["explain", "told", "w.c", "--entry", "g", "--turns", "0"],
         {"w.c": MULTIPLIED, "told": REFUSED}, needs=GRAPH,
         stdout="code 81, a size sum above 4,194,304: walks from g reach 6 pairs within turns 0 frames 8 answers 16\n"
                "  3 in g, no loop\n  3 in g, the loop at w.c:3\n"),
    Case("explain: a code without an entry", ["explain", "81", "w.c"], {"w.c": MULTIPLIED}, 2,
         stderr="explain: code 81 is of an entry; --entry names it\n", needs=GRAPH),
    Case("explain: the parts of a condition", ["explain", "cover @CONDITIONEDGE", "never.c"], {"never.c": NEVER},
         stdout=goals(CONDITIONS), needs=GRAPH),
    Case("explain: each operation, in two sources", ["explain", "cover ID", "one.c", "two.c"], {"one.c": ONE, "two.c": TWO},
         stdout=goals(OF_TWO), needs=GRAPH),
    Case("explain: statements of each kind", ["explain", "cover ID", "k.c"], {"k.c": KINDS}, stdout=goals(OF_KINDS), needs=GRAPH),
    Case("explain: a report of generate", ["explain", "made", "never.c"], {"never.c": NEVER, "made": MADE}, stdout=OF_MADE, needs=GRAPH),
    Case("explain: a report of generate as JSON", ["explain", "made", "count.c"],
         {"count.c": example("counting/count.c"), "made": AS_JSON}, needs=GRAPH,
         stdout="goal 1: covered by input 1\n  e8 count.c:7:5 count: return 1\n  input 1: args 3\n1 goals: 1 covered\n"),
    Case("explain: refuted goals alone", ["explain", "made", "never.c", "--only", "refuted"], {"never.c": NEVER, "made": MADE},
         stdout=said(3, "refuted within the bounds", CONDITIONS, "") + "1 goals: 1 refuted within the bounds\n" + WITHIN, needs=GRAPH),
    Case("explain: an unreachable goal", ["explain", "made", "never.c", "--only", "unreachable", "--entry", "f"],
         {"never.c": NEVER, "made": MADE}, stdout=said(3, "unreachable", CONDITIONS, "") + "1 goals: 1 unreachable\n" + SUFFICE, needs=GRAPH),
    Case("explain: no goal is refuted within the bounds alone", ["explain", "made", "never.c", "--only", "refuted", "--entry", "f"],
         {"never.c": NEVER, "made": MADE}, needs=GRAPH),
    Case("explain: a path has a line a step", ["explain", "cover PATHS(ID,1)", "never.c"], {"never.c": NEVER}, needs=GRAPH,
         stdout="""goal 1:
  e0 never.c:2:7 f: x > 10 is true, in if (x > 10 && x < 5)
  e2 never.c:2:17 f: x < 5 is true, in if (x > 10 && x < 5)
  e4 never.c:3:5 f: return 1
goal 2:
  e0 never.c:2:7 f: x > 10 is true, in if (x > 10 && x < 5)
  e3 never.c:2:17 f: x < 5 is false, in if (x > 10 && x < 5)
  e5 never.c:5:3 f: return 0
goal 3:
  e1 never.c:2:7 f: x > 10 is false, in if (x > 10 && x < 5)
  e5 never.c:5:3 f: return 0
3 goals
"""),
    Case("explain: nodes, predicates and quoted expressions", ["explain", 'cover NODES(@LINE(3)) -> {x == 1} + PRED(@LINE(5),{x})', "never.c"],
         {"never.c": NEVER}, needs=GRAPH, stdout=LETTERS),
    Case("explain: where runs ended", ["explain", "out", "one.c", "two.c", "--entry", "f"], {"one.c": ONE, "two.c": TWO,
         "out": "input 1 blocked edges 1 2 4\ninput 2 trapped assert edges 1 2 4 10 11 0 12 13\ninput 3 returned 0 edges 1\n"},
         needs=GRAPH, stdout="input 1 blocked at two.c:6:3 f: assume(x)\ninput 2 trapped assert at two.c:8:3 f: assert(a[0])\n"),
    Case("explain: a test that traps, and a run without edges", ["explain", "out", "never.c", "--entry", "f"],
         {"never.c": NEVER, "out": "input 1 trapped zero-divisor edges\ninput 2 trapped zero-divisor edges 0\n"}, needs=GRAPH,
         stdout="input 1 trapped zero-divisor at never.c:2:7 f: x > 10, in if (x > 10 && x < 5)\n"
                "input 2 trapped zero-divisor at never.c:2:17 f: x < 5, in if (x > 10 && x < 5)\n"),
    Case("explain: a report of measure has no paths", ["explain", "out", "one.c", "two.c"], {"one.c": ONE, "two.c": TWO, "out": LOST},
         needs=GRAPH, stdout="goal 1: covered by input 2\n  e15 two.c:9:1 f: done:, label done\n"
         "1 runs were trapped, blocked or too deep; --entry and --inputs tell where\n1 goals: 1 covered\n"),
    Case("explain: a report of trees has no paths", ["explain", "out", "clamp.c", "--entry", "clamp"],
         {"clamp.c": example("clamp/clamp.c"), "out": TREES}, needs=GRAPH,
         stdout="1 runs were trapped, blocked or too deep; --entry and --inputs tell where\n"),
    Case("explain: runs of trees by its inputs", ["explain", "out", "clamp.c", "--entry", "clamp", "--inputs", "in"],
         {"clamp.c": example("clamp/clamp.c"), "out": TREES, "in": example("clamp/in.txt")}, needs=GRAPH,
         stdout="input 3 trapped assert at clamp.c:5:3 clamp: assert(low <= y)\n"),
    Case("explain: runs of measure by its inputs", ["explain", "out", "one.c", "two.c", "--entry", "f", "--inputs", "in"],
         {"one.c": ONE, "two.c": TWO, "out": LOST, "in": "-1\n1\n"}, needs=GRAPH,
         stdout="goal 1: covered by input 2\n  e15 two.c:9:1 f: done:, label done\n  input 2: args 1\n"
         "input 1 trapped assert at two.c:8:3 f: assert(a[0])\n1 goals: 1 covered\n"),
    Case("explain: a refused query", ["explain", "cover", "a", "never.c"], {"never.c": NEVER}, 2, "", None, needs=GRAPH),
    Case("explain: no query and no file", ["explain", "no", "never.c"], {"never.c": NEVER}, 2, "",
         "explain: no: No such file or directory\n", needs=GRAPH),
    Case("explain: a file that is no report", ["explain", "never.c", "never.c"], {"never.c": NEVER}, 2, "",
         "explain: never.c: it is no report: int f(int x) {\n", needs=GRAPH),
    Case("explain: JSON that is nested too deep", ["explain", "deep", "never.c"], {"never.c": NEVER, "deep": '{"a":' * 100_000}, 2, "", None, needs=GRAPH),
    Case("explain: a report as JSON with a number as a goal's text", ["explain", "odd", "never.c"],
         {"never.c": NEVER, "odd": '{"goals":[{"answer":"missed","text":7}],"inputs":[],"suite":[]}'}, 2, "",
         "explain: odd: it is no report: 7 is no text\n", needs=GRAPH),
    Case("explain: --steps out of range", ["explain", "cover ID", "never.c", "--steps", "1000001"], {"never.c": NEVER}, 2, "", None, needs=GRAPH),
    Case("explain: a report that is cut short", ["explain", "made", "never.c"], {"never.c": NEVER, "made": MADE[:MADE.index('goal 3')]}, 2, "",
         "explain: made: it is no report: it has 2 of 4 goals\n", needs=GRAPH),
    Case("explain: a report of other sources", ["explain", "made", "k.c"], {"k.c": KINDS, "made": MADE}, 2, "",
         "explain: goal 1 isn't one of these sources: e0@never.c:2\n", needs=GRAPH),
    Case("explain: a source that isn't there", ["explain", "cover ID", "no.c"], {}, 2, "",
         "explain: fshell graph: error 7 ReadFault no.c\n", needs=GRAPH),
]  # fmt: skip


def conditions_are_cut_out(folder: str) -> Iterator[bool]:
    """The text of each condition of a source in which they are bracketed, joined and nested in many ways."""
    due = {
        "(a + b) > c": "if ((a + b) > c && a) { return 1; }",
        "a": "if (((a))) { return 1; }",
        "b == (c && 1)": "if (!(b == (c && 1))) { return 1; }",
        "a ? b : c": "if (a ? b : c) { return 1; }",
        "(a || b) == c": "while ((a || b) == c) { a = 1; }",
        "g(a, b && c) < 3": "for (a = 0; g(a, b && c) < 3; a++) { ; }",
        "t[a ? 1 : 0]": "if (t[a ? 1 : 0] || c) { return 1; }",
        "(char)(a && b)": "do { a--; } while ((char)(a && b));",
        "a /* x */ < b": "if (a /* x */ < b) { return 1; }",
    }
    for number, (condition, statement) in enumerate(due.items()):
        text = f"int g(int x, int y) {{ return x; }}\nint f(int a, int b, int c) {{\n  int t[2];\n  {statement}\n  return 0;\n}}\n"
        put(folder, {"a.c": text})
        faces = run(folder, ["explain", "in @FUNC(f) cover @CONDITIONEDGE", "a.c"]).stdout
        yield f" {' '.join(condition.replace('/* x */', '').split())} is true, in " in faces


def a_bound_that_is_left_is_told(folder: str) -> Iterator[bool]:
    """Three turns make line 7, and two are the bound."""
    put(folder, {"count.c": example("counting/count.c")})
    put(
        folder,
        {"made": run(folder, ["generate", "count", "cover @LINE(7)", "count.c", "--turns", "2"]).stdout},
    )
    said = run(folder, ["explain", "made", "count.c", "--entry", "count"]).stdout.splitlines()
    yield said[0] == "goal 1: refuted within the bounds" and said[2] == "1 goals: 1 refuted within the bounds"
    yield said[3].startswith("the bounds don't suffice: turn 3 of the loop at count.c:3, by the input args ")
    yield said[4].startswith("bounds to try next: --turns ")


def pairs_are_counted_as_the_program_does(folder: str) -> Iterator[bool]:
    """By the formula above 49,665 pairs with 126 turns, 50,440 with 127, and the program refuses these alone for their number."""
    put(folder, {"w.c": MULTIPLIED})
    for turns, pairs in ((126, 3 * 127 * 127 + 10 * 127 + 8), (127, 3 * 128 * 128 + 10 * 128 + 8)):
        told = run(folder, ["explain", "80", "w.c", "--entry", "f", "--turns", str(turns)]).stdout
        yield f"walks from f reach {pairs} pairs within" in told
        refused = run(folder, ["bounds", "f", "w.c", "--turns", str(turns), "--budget", "1"]).stderr.startswith(
            "error 80 "
        )
        yield refused == (pairs > 50_000)


TRIED = [
    (GRAPH, pairs_are_counted_as_the_program_does),
    (GRAPH, conditions_are_cut_out),
    (GRAPH, a_bound_that_is_left_is_told),
]
