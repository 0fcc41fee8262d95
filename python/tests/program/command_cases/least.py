"""The cases of `least`: the input that compares least, by its words and then by its answers, as unsigned numbers of 64 bits."""

from collections.abc import Sequence

from tests.program.command_cases import (
    BOTH,
    CALLS,
    COUNT,
    ELEMENT,
    NESTED,
    NEVER,
    QUOTIENTS,
    RECURSION,
    SEVEN,
    WAIT,
    A,
    Case,
    Words,
    case,
    of_queries,
    of_sources,
    of_streams,
    refused,
    usages,
)

HIT = "cover @LINE(3)"


def said(
    name: str,
    source: str,
    text: str,
    query: str = HIT,
    options: Words = (),
    entry: str = "f",
    goal: str = "1",
    status: int = 0,
) -> Case:
    """A case of a goal with what is said of it."""
    return case(name, ["least", *options, entry, query, goal, "k.c"], {"k.c": source}, f"goal {goal} {text}\n", status)


def args(*words: int | str, answers: Sequence[int | str] = ()) -> str:
    """What is said of a least input."""
    return " ".join(["least args", *map(str, words), *(["answers", *map(str, answers)] if answers else [])])


def refuted(turns: int = 4, frames: int = 8, answers: int = 16, ends: str = "") -> str:
    """What is said of a goal that no input hits."""
    return f"refuted turns {turns} frames {frames} answers {answers}" + (f" ends {ends}" if ends else "")


def branch(parameters: str, test: str) -> str:
    """A function whose line 3 is reached where a test holds."""
    return f"int f({parameters}) {{\n  if ({test}) {{\n    return 1;\n  }}\n  return 0;\n}}\n"


def two(first: int | str, second: int | str, kind: str = "int") -> str:
    """A function whose line 6 is reached where two answers have these values."""
    return (
        f"{kind} in(void);\nint f(void) {{\n  {kind} s = in();\n  int t = in();\n  if (s == {first} && t == {second}) {{\n    return 1;\n"
        "  }\n  return 0;\n}\n"
    )


SIX = "cover @LINE(6)"
LOOP = "int f(unsigned char x) {\n  for (int i = x; i < 5; i++) { ; }\n  return x;\n}\n"
SUM = "int in(void);\nint f(unsigned char x) {\n  if (in() + x == 9) {\n    return 1;\n  }\n  return 0;\n}\n"
FIRST = {"a.c": A}

CASES = [
    said("the least input of the true branch", A, args(11)),
    said("the least input of the false branch", A, args(0), "cover @LINE(5)"),
    said("a number below 0 is the number of its bits", branch("int x", "x < 0"), args(2**31)),
    said("of a signed char", branch("signed char x", "x < 0"), args(128)),
    said("of an unsigned char", branch("unsigned char x", "x > 250"), args(251)),
    said("of a short", branch("short x", "x < -1"), args(32768)),
    said("of a long", branch("long x", "x < 0"), args(2**63)),
    said("of an unsigned long", branch("unsigned long x", "x > 18446744073709551613u"), args(2**64 - 2)),
    said("a number whose bits are all 1", branch("long x", "x == -1"), args(2**64 - 1)),
    said("the first argument decides", branch("int a, int b", "a + b == 5"), args(0, 5)),
    said("the second argument decides where the first is the same", branch("int a, int b", "a > b"), args(0, 2**31)),
    said("the first argument is as small as the goal lets it be", branch("unsigned char a, unsigned char b", "a * b == 221"), args(1, 221)),
    said("a remainder", branch("unsigned char x", "x % 16 == 5 && x > 100"), args(101)),
    said("answers", BOTH, args(1, answers=(5, 9)), "cover @LINE(9)"),
    said("an entry without parameters", two(7, 2), args(answers=(7, 2)), SIX),
    said("last answers of 0 aren't written", two(3, 0), args(answers=(3,)), SIX),
    said("an answer of 0 is written before another", two(0, 4), args(answers=(0, 4)), SIX),
    said("no answer is written where all of them are 0", two(0, 0), args(), SIX),
    said("an answer below 0 is the number of the bits of its kind", two(-1, -2), args(answers=(2**32 - 1, 2**32 - 2)), SIX),
    said("an answer below 0 of 64 bits", two(-1, 0, "long"), args(answers=(2**64 - 1,)), SIX),
    said("an argument decides before an answer", SUM, args(0, answers=(9,)), "cover @LINE(4)"),
    said("a loop's last turn", COUNT, args(3), "cover @LINE(7)", ["--turns", "3"]),
    said("a turn too few", COUNT, refuted(turns=2), "cover @LINE(7)", ["--turns", "2"]),
    said("a lower input whose run leaves the bounds isn't it", LOOP, args(3), HIT, ["--turns", "2"]),
    said("a recursion within the frames", RECURSION, args(2), "cover @LINE(9)", ["--frames", "4"], "g"),
    said("a recursion past the frames", RECURSION, refuted(frames=3), "cover @LINE(9)", ["--frames", "3"], "g"),
    said("an answer too few", BOTH, refuted(answers=1), "cover @LINE(9)", ["--answers", "1"]),
    said("a goal that no input hits", NEVER, refuted(), "cover EDGES(@CONDITIONEDGE)", goal="3"),
    said("another goal of the query", NEVER, args(11), "cover EDGES(@CONDITIONEDGE)"),
    said("a predicate", CALLS, args(9), "cover {y == 9}"),
    said("a passing clause", CALLS, args(0), "cover @LINE(7) passing ^NOT(@CALL(g))*$"),
    said("a passing clause with a predicate", CALLS, args(2**31), "cover @LINE(7) passing {x < 0}"),
    said("runs that trap don't count by default", ELEMENT, refuted(), "cover NODES(@LINE(3))$"),
    said("a run that traps counts under --ends trapped", ELEMENT, args(4), "cover NODES(@LINE(3))$", ["--ends", "trapped"]),
    said("a refuted goal with the ends that count", ELEMENT, refuted(ends="trapped"), "cover NODES(@LINE(3))$", ["--ends", "trapped"], goal="2"),
    said("a blocked run under --ends any", WAIT, args(0), "cover NODES(@ENTRY(f))$", ["--ends=any"]),
    said("the size of another goal doesn't count", A, args(11), 'cover @LINE(3) + "(ID==40)==40"'),
    said("a budget that is spent", SEVEN, "open", options=["--budget", "1"], status=1),
    *usages("least", {
        "a goal's number of 0": ["f", HIT, "0", "a.c"],
        "a goal's number above its range": ["f", HIT, "10001", "a.c"],
        "no source is no command": ["f", HIT, "1"],
        "a word in the place of the goal's number": ["f", HIT, "a.c", "a.c"],
        "it has no --json": ["--json", "f", HIT, "1", "a.c"],
        "it has no --steps": ["--steps", "5", "f", HIT, "1", "a.c"],
        "ends of another name are no command": ["--ends", "blocked", "f", HIT, "1", "a.c"],
    }),
    *of_sources("least", [HIT, "1"], {}),
    *of_queries("least", ["2"], {}),
    refused("a goal that isn't there", ["least", "f", "cover EDGES(@CONDITIONEDGE)", "9", "c.c"], {"c.c": NEVER}, "error 74 NoSuchGoal query", 4),
    refused("a goal that isn't there goes before too many pairs", ["least", "--turns", "1000", "f", "cover @LINE(9)", "2", "g.c"],
            {"g.c": NESTED}, "error 74 NoSuchGoal query", 4),
    refused("too many pairs of node and context", ["least", "--turns", "1000", "f", "cover @LINE(9)", "1", "g.c"], {"g.c": NESTED},
            "error 80 TooManyInstances limit 50000", 6),
    refused("an unwinding that is too large", ["least", "f", "cover @LINE(67)", "1", "k.c"], {"k.c": QUOTIENTS},
            "error 81 UnwindingTooLarge limit 4194304", 6),
    refused("a goal that is too large", ["least", "f", 'cover "(ID==40)==40"', "1", "a.c"], FIRST, "error 82 GoalTooLarge limit 8388608", 6),
    *of_streams(["least", "f", HIT, "1", "a.c"], FIRST, "goal 1 least args 11\n"),
]  # fmt: skip
