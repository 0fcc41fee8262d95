"""The cases of `bounds`. An input that is printed is the only one whose run leaves the bounds."""

from tests.program.command_cases import (
    CALLEE,
    CALLER,
    COUNT,
    NESTED,
    QUOTIENTS,
    RECURSION,
    A,
    Case,
    Words,
    case,
    of_sources,
    of_streams,
    refused,
    usages,
)


def said(name: str, options: Words, source: str, text: str, entry: str = "f", status: int = 0) -> Case:
    """A case of bounds with what is said of them."""
    return case(name, ["bounds", *options, entry, "k.c"], {"k.c": source}, f"bounds {text}\n", status)


def suffice(turns: int = 4, frames: int = 8, answers: int = 16) -> str:
    """What is said where bounds suffice."""
    return f"suffice turns {turns} frames {frames} answers {answers}"


THREE = "int f(int x) { int s = 0; for (int i = 0; i < 3; i++) { s = s + x; } return s; }\n"
FEW = "int f(int n) {\n  assume(n < 5);\n  int i = 0;\n  while (i < n) {\n    i = i + 1;\n  }\n  return i;\n}\n"
KINDS = "void g(void) {}\nvoid f(signed char a, unsigned char b, long c) { if (a == -128 && b == 255 && c == -2) { g(); } }\n"
TRAP = "int f(unsigned char x) {\n  int i = 0;\n  while (i < 10) {\n    i = i + 1;\n    assert(x == 200 && i < 3);\n  }\n  return i;\n}\n"
HEAD = "int g(int n) {"


def small(source: str, test: str) -> str:
    """A function f of n with an `assume` first."""
    return source.replace("  int c", f"  assume({test});\n  int c")


def answers(value: int | str, kind: str = "long") -> str:
    """A second answer is read where the argument is 7 and the first one a value."""
    return f"{kind} in(void);\nint f(int x) {{\n  {kind} s = in();\n  if (x == 7 && s == {value}) {{\n    s = in();\n  }}\n  return 0;\n}}\n"


SECOND = ("long in(void);\nint f(int x) {\n  long a = in();\n  long b = in();\n  if (x == 1 && a == 0 && b == 3) {\n    b = in();\n  }\n"
          "  return 0;\n}\n")  # fmt: skip

CASES = [
    said("a branch stays within them", [], A, suffice()),
    said("a branch stays within the least ones", ["--turns", "0", "--frames=1", "--answers", "0"], A, suffice(0, 1, 0)),
    said("a loop of three turns stays within three", ["--turns", "3"], THREE, suffice(3)),
    said("the only input whose run takes a fourth turn", ["--turns", "3"], FEW, "left args 4"),
    said("it stays within four turns", ["--turns", "4"], FEW, suffice(4)),
    said("an inner loop's counter starts anew", ["--turns", "2"], small(NESTED, "n < 3"), suffice(2)),
    said("an inner loop's third turn", ["--turns", "2"], small(NESTED, "n < 4"), "left args 3"),
    said("arguments are numbers of their kinds", ["--frames", "1"], KINDS, "left args -128 255 -2"),
    said("a recursion past the frames", ["--frames", "3"], RECURSION.replace(HEAD, HEAD + " assume(n == 2 || n < 0);"), "left args 2", "g"),
    said("it stays within one frame more", ["--frames", "4"], RECURSION.replace(HEAD, HEAD + " assume(n < 3);"), suffice(frames=4), "g"),
    said("a run that would go too deep stays within 64 frames", ["--frames", "64"], "int f(int x) { return f(x); }\n", suffice(frames=64)),
    said("an answer too many, after one below 0", ["--answers", "1"], answers("-5"), "left args 7 answers -5"),
    said("no answer is written where all of them are 0", ["--answers", "1"], answers("0"), "left args 7"),
    said("both answers are within two", ["--answers", "2"], answers("-5"), suffice(answers=2)),
    said("an answer of an unsigned kind is written as a signed number", ["--answers", "1"],
         answers("18446744073709551615u", "unsigned long"), "left args 7 answers -1"),
    said("an answer of 0 is written before another", ["--answers", "2"], SECOND, "left args 1 answers 0 3"),
    said("an entry without parameters", [], "int f(void) {\n  for (;;) {\n    ;\n  }\n  return 0;\n}\n", "left args"),
    said("a run that traps first stays within them", ["--turns", "2"], TRAP, suffice(2)),
    said("a run that leaves them before it traps", ["--turns", "1"], TRAP, "left args 200"),
    said("a run that is blocked first stays within them", ["--turns", "2"], TRAP.replace("assert", "assume"), suffice(2)),
    case("two sources", ["bounds", "f", "p1.c", "p2.c"], {"p1.c": CALLEE, "p2.c": CALLER}, f"bounds {suffice()}\n"),
    said("a budget that is spent", ["--budget", "1"], COUNT, "open", status=1),
    *usages("bounds", {
        "an entry alone is no command": ["f"],
        "it has no --json": ["f", "a.c", "--json"],
        "it has no --ends": ["--ends", "any", "f", "a.c"],
        "it has no --steps": ["--steps", "5", "f", "a.c"],
        "turns above their range": ["--turns", "1001", "f", "a.c"],
        "a budget of 0": ["--budget", "0", "f", "a.c"],
        "an option given twice": ["--turns", "3", "--turns", "3", "f", "a.c"],
    }),
    *of_sources("bounds", [], {}),
    refused("an entry that isn't defined goes before too many pairs", ["bounds", "--turns", "1000", "zz", "g.c"], {"g.c": NESTED},
            "error 36 NoSuchEntry", 3),
    refused("too many pairs of node and context", ["bounds", "--turns", "1000", "f", "g.c"], {"g.c": NESTED},
            "error 80 TooManyInstances limit 50000", 6),
    refused("an unwinding that is too large", ["bounds", "f", "k.c"], {"k.c": QUOTIENTS}, "error 81 UnwindingTooLarge limit 4194304", 6),
    *of_streams(["bounds", "f", "a.c"], {"a.c": A}, f"bounds {suffice()}\n"),
]  # fmt: skip
