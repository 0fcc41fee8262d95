"""The cases of `trees`. Ends and numbers of turns are worked out by hand, from docs/MEANING.md."""

from collections.abc import Sequence
from typing import Any

from tests.program.command_cases import (
    BOTH,
    CALLEE,
    CALLER,
    COUNT,
    ELEMENT,
    FOREVER,
    NESTED,
    RECURSION,
    A,
    Case,
    Words,
    case,
    of_sources,
    of_streams,
    refused,
    usages,
)


def said(
    name: str, source: str, inputs: list[Any] | str, ends: Sequence[str], options: Words = (), entry: str = "f"
) -> Case:
    """The end of each input, in order; inputs of one word each may be given as a list."""
    given = "".join(f"{word}\n" for word in inputs) if isinstance(inputs, list) else inputs
    lines = "".join(f"input {number} {end}\n" for number, end in enumerate(ends, 1))
    return case(name, ["trees", *options, entry, "in.txt", "k.c"], {"in.txt": given, "k.c": source}, lines)


def turns(name: str, source: str, given: Any, enough: int, end: str, entry: str = "f") -> list[Case]:
    """So many turns are enough for this end of an input, and one less isn't."""
    return [
        said(name, source, [given], [end], ["--steps", str(enough)], entry),
        said(f"{name}, and one turn less", source, [given], ["cut"], ["--steps", str(enough - 1)], entry),
    ]


def wrong(name: str, inputs: Any, line: str, status: int) -> Case:
    """A case of inputs that are refused."""
    return refused(name, ["trees", "f", "in.txt", "k.c"], {"in.txt": inputs, "k.c": A}, line, status)


FILES = {"in.txt": "5\n11\n", "a.c": A}
TWO = "input 1 returned 0\ninput 2 returned 1\n"
WAYS = ("int f(int how, int x) {\n  int a[2];\n  switch (how) {\n  case 1: return 7 / x;\n  case 2: return x / -1;\n  case 3: return a[x];\n"
        "  case 4: return 1 << x;\n  case 5: assert(x); return 5;\n  case 6: assume(x);\n  default: return 6;\n  }\n}\n")  # fmt: skip
LOOP = "int f(int n) {\n  int i = 0;\n  while (i < n) {\n    i = i + 1;\n  }\n  return i;\n}\n"
DO = "int f(int n) {\n  int i = 0;\n  do {\n    i = i + 2;\n  } while (i < n);\n  return i;\n}\n"
CALLS = "int h(int v) { return v; }\nint f(int n) { return h(1) + h(6 / n); }\n"
# deep trees: now and then a call stands for x, whose comma ends the row of tokens
XS = (["x"] * 24 + ["h(x, x)"]) * 1600
DEEP = "int h(int u, int v) { return u; }\nint f(int x) {\n  "
SUM = DEEP + "return " + "\n+ ".join(XS) + ";\n}\n"
IFS = DEEP + "\n".join(f"if ({x})" for x in XS[:10000]) + " return 1;\n  return 0;\n}\n"
ARMS = DEEP + "".join(f"if (x == {n}) return {n + 1};\n  else " for n in range(5000)) + "return 0;\n}\n"
CHOICES = DEEP + "return " + "".join(f"{x} == {n} ? {n + 1} :\n" for n, x in enumerate(XS[:5000])) + "0;\n}\n"
# each assignment has an edge, and so has the return
EDGES = "  x = x;\n"

CASES = [
    case("two inputs", ["trees", "f", "in.txt", "a.c"], FILES, TWO),
    said("no inputs", A, "", []),
    said("the greatest recursion, and one call more", RECURSION, [2, 62, 63], ["returned 1", "returned 0", "too-deep"], entry="g"),
    said("an index within an array and outside of it", ELEMENT, [0, 3, 4, -1], ["returned 1", "returned 0", "trapped index", "trapped index"]),
    said("each trap, and an assumption that doesn't hold", WAYS, "1 0\n2 -2147483648\n3 2\n4 32\n5 0\n6 0\n7 0\n",
         ["trapped zero-divisor", "trapped overflow-divisor", "trapped index", "trapped shift", "trapped assert", "blocked", "returned 6"]),
    said("the same ways without a trap", WAYS, "1 7\n2 -2147483647\n3 1\n4 31\n5 1\n6 1\n",
         ["returned 1", "returned 2147483647", "returned 0", "returned -2147483648", "returned 5", "returned 6"]),
    said("a function without a result", "void f(int x) { if (x) return; x = 3; }\n", [0, 1], ["returned", "returned"]),
    said("a body that ends without a return", "long f(int x) { x = 7; }\n", [1], ["returned 0"]),
    said("a value is a number of the entry's kind", "signed char f(int x) { return x; }\n", [127, 128, 255], ["returned 127", "returned -128", "returned -1"]),
    said("a value of 64 bits without a sign", "unsigned long f(long x) { return x; }\n", [-1], ["returned 18446744073709551615"]),
    said("arguments are converted to their kinds", "int f(signed char a, unsigned char b) { return a * 1000 + b; }\n", "255 -1\n4294967301 256\n",
         ["returned -745", "returned 5000"]),
    said("answers, and 0 past their end", BOTH,
         '[{"args":[1],"answers":[5,9]},{"args":[1],"answers":[5]},{"args":[0],"answers":[5,9]},{"args":[1],"answers":[5,4294967305]}]',
         ["returned 1", "returned 0", "returned 0", "returned 1"]),
    said("an answer is a value of its kind", "signed char in(void);\nint f(void) { return in(); }\n", '[{"args":[],"answers":[255]},{"args":[]}]',
         ["returned -1", "returned 0"]),
    said("an index is evaluated once", "int in(void);\nint f(int x) { int a[2] = {5, 7}; a[in()] += x; return a[1]; }\n",
         '[{"args":[3],"answers":[1,0]}]', ["returned 10"]),
    said("a second operand that isn't evaluated", "int in(void);\nint f(int x) { int y = x && in(); int z = x || in(); return in() * 100 + y * 10 + z; }\n",
         '[{"args":[0],"answers":[4,9]},{"args":[2],"answers":[4,9]}]', ["returned 901", "returned 911"]),
    said("a lent array is the caller's", "void set(int a[2]) { a[1] = 7; }\nint f(int n) { int t[2] = {n}; set(t); return t[0] + t[1]; }\n", [5], ["returned 12"]),
    said("globals begin anew with each input", "int g = 4;\nint f(int x) { g = g + x; return g; }\n", [1, 1], ["returned 5", "returned 5"]),
    said("a label of a switch goes on to the next", "int f(int n) {\n  int s = 0;\n  switch (n) {\n  case 1: s = 1;\n  case 2: s = s + 2; break;\n"
         "  default: s = 9;\n  }\n  return s;\n}\n", [1, 2, 5], ["returned 3", "returned 2", "returned 9"]),
    case("two sources", ["trees", "f", "in.txt", "p1.c", "p2.c"], {"in.txt": "9\n2\n", "p1.c": CALLEE, "p2.c": CALLER},
         "input 1 returned 9\ninput 2 returned 0\n"),
    *turns("three turns of a loop", COUNT, 3, 3, "returned 1"),
    *turns("the turns of loops within loops are counted together", NESTED, 3, 8, "returned 1"),
    *turns("a do begins its body before the first test", DO, 5, 3, "returned 6"),
    *turns("each call takes a turn", CALLS, 6, 2, "returned 2"),
    *turns("a recursion of 64 activations", RECURSION, 62, 63, "returned 0", "g"),
    *turns("a call too deep takes no turn", RECURSION, 63, 63, "too-deep", "g"),
    said("the words of a call have their values before its turn", CALLS, [0], ["trapped zero-divisor"], ["--steps", "1"]),
    said("a loop that isn't begun takes no turn, nor does a call of an input function", "int in(void);\nint f(int n) { while (n) { n = 0; } for (;in();) { } "
         "return in() + in(); }\n", '[{"args":[0],"answers":[0,7,8]}]', ["returned 15"], ["--steps", "1"]),
    said("100,000 turns where no number is given", LOOP, [100000, 100001], ["returned 100000", "cut"]),
    said("1,000,000 turns at most", LOOP, [1000000, 1000001], ["returned 1000000", "cut"], ["--steps=1000000"]),
    said("runs of more than ten million turns together are no refusal", FOREVER, [1] * 101, ["cut"] * 101),
    said("a sum of 40,000 operands", SUM, [2], ["returned 80000"]),
    said("10,000 statements within one another", IFS, [0, 1], ["returned 0", "returned 1"]),
    said("5,000 arms of an if", ARMS, [4999, 5000], ["returned 5000", "returned 0"]),
    said("5,000 choices in a row", CHOICES, [4999, 5000], ["returned 5000", "returned 0"]),
    said("40,000 edges", "int f(int x) {\n" + EDGES * 39999 + "  return x;\n}\n", [7], ["returned 7"]),
    refused("40,001 edges, which a run by the trees has no use of", ["trees", "f", "in.txt", "k.c"],
            {"in.txt": "7\n", "k.c": "int f(int x) {\n" + EDGES * 40000 + "  return x;\n}\n"}, "error 41 TooManyEdges limit 40000", 6),
    case("10,000 inputs", ["trees", "f", "in.txt", "a.c"], {"in.txt": {"repeat": "5\n", "times": 10000}, "a.c": A},
         {"count": 10000, "text": "input # returned 0\n"}),
    case("inputs of blanks at the limit", ["trees", "f", "in.txt", "a.c"], {"in.txt": {"repeat": " ", "times": 16777216}, "a.c": A}),
    case("a source at the limit", ["trees", "f", "in.txt", "k.c"], {"in.txt": "11\n", "k.c": [A, {"repeat": " ", "times": 4194304 - len(A)}]},
         "input 1 returned 1\n"),
    *usages("trees", {
        "no source is no command": ["f", "in.txt"],
        "it has no --ends": ["--ends", "any", "f", "in.txt", "a.c"],
        "it has no --json": ["--json", "f", "in.txt", "a.c"],
        "it has no --turns": ["--turns", "3", "f", "in.txt", "a.c"],
        "no turn at all": ["--steps", "0", "f", "in.txt", "a.c"],
        "a turn too many": ["--steps", "1000001", "f", "in.txt", "a.c"],
        "--steps twice": ["--steps", "5", "f", "in.txt", "a.c", "--steps", "5"],
    }),
    *of_sources("trees", ["in.txt"], {}),
    refused("inputs that aren't there", ["trees", "f", "in.txt", "a.c"], {"a.c": A}, "error 7 ReadFault in.txt", 7),
    refused("a folder in the place of the inputs", ["trees", "f", "in.txt", "a.c"], {"in.txt": {"folder": True}, "a.c": A},
            "error 7 ReadFault in.txt", 7),
    refused("an entry that isn't defined goes before inputs that aren't there", ["trees", "zz", "in.txt", "a.c"], {"a.c": A},
            "error 36 NoSuchEntry", 3),
    wrong("inputs one byte above the limit", {"repeat": " ", "times": 16777217}, "error 16 FileTooLong in.txt", 6),
    wrong("inputs that begin as JSON and aren't", "[1", "error 50 NotJson input 0", 5),
    wrong("an input with one argument too many", "5\n5 6\n", "error 51 Shape input 2", 5),
    wrong("an argument above 64 bits", "18446744073709551616\n", "error 52 Range input 1", 5),
    wrong("10,001 inputs", {"repeat": "5\n", "times": 10001}, "error 53 TooManyInputs limit 10000", 6),
    *of_streams(["trees", "f", "in.txt", "a.c"], FILES, TWO),
]  # fmt: skip
