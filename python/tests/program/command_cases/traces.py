"""The cases of `traces`. The edges are those that the table of docs/GRAPH.md makes, counted by hand."""

from typing import Any

from tests.program.command_cases import (
    BOTH,
    CALLEE,
    CALLER,
    ELEMENT,
    FOREVER,
    TITLE,
    WAIT,
    A,
    Case,
    Words,
    case,
    of_sources,
    of_streams,
    refused,
    usages,
)


def said(name: str, source: str, inputs: Any, lines: str, options: Words = ()) -> Case:
    """A case of inputs with the lines of their traces."""
    return case(name, ["traces", *options, "f", "in.txt", "k.c"], {"in.txt": inputs, "k.c": source}, TITLE + lines)


def wrong(name: str, inputs: Any, line: str, status: int, source: str = A) -> Case:
    """A case of inputs that are refused."""
    return refused(name, ["traces", "f", "in.txt", "k.c"], {"in.txt": inputs, "k.c": source}, line, status)


NARROW = "int f(signed char a, unsigned char b) { return a; }\n"
DEEP = "int f(int x) { return f(x); }\n"
OF_BOTH = '[{"args":[1],"answers":[5]},{"args":[0],"answers":[7,8]},{"args":[0],"answers":[4294967295]}]'
FILES = {"in.txt": "5\n11\n", "a.c": A}
TWO = TITLE + "args 5 edges 1 3\nargs 11 edges 0 2\n"

CASES = [
    case("two runs", ["traces", "f", "in.txt", "a.c"], FILES, TWO),
    said("no inputs", A, "", ""),
    said("arguments are converted to their kinds", NARROW, "255 -1\n4294967301 256\n", "args -1 255 edges 0\nargs 5 0 edges 0\n"),
    said("answers are those that a run takes, also past the list's end", BOTH, OF_BOTH,
         "args 1 answers 5 0 edges 0 1 3 4 5 6 7 10 12\nargs 0 answers 7 edges 0 2 5 6 8 12\nargs 0 answers -1 edges 0 2 5 6 8 12\n"),
    said("no answers where a run takes none", A, '[{"args":[5],"answers":[7]}]', "args 5 edges 1 3\n"),
    said("an entry without parameters", "void f(void) {}\n", '[{"args":[]}]', "args edges 0\n"),
    case("two sources", ["traces", "f", "in.txt", "p1.c", "p2.c"], {"in.txt": "9\n2\n", "p1.c": CALLEE, "p2.c": CALLER},
         TITLE + "args 9 edges 1 2 4 0 5 6 7\nargs 2 edges 1 3 7\n"),
    said("a run that traps has none by default", ELEMENT, "3\n4\n", "args 3 edges 0 1 2\n"),
    said("a run that traps has one under --ends trapped", ELEMENT, "3\n4\n", "args 3 edges 0 1 2\nargs 4 edges 0\n", ["--ends", "trapped"]),
    said("a blocked run has none under --ends trapped", WAIT, "0\n1\n", "args 1 edges 0 1\n", ["--ends=trapped"]),
    said("a blocked run has one under --ends any, with no edges", WAIT, "0\n1\n", "args 0 edges\nargs 1 edges 0 1\n", ["--ends=any"]),
    said("a run that goes too deep has one under --ends any", DEEP, "7\n", "args 7 edges" + " 0" * 63 + "\n", ["--ends", "any"]),
    said("a cut run has none", A, "5\n", "", ["--steps", "1", "--ends", "any"]),
    said("a run of just so many edges has one", A, "5\n", "args 5 edges 1 3\n", ["--steps", "2"]),
    case("10,000 inputs", ["traces", "f", "in.txt", "a.c"], {"in.txt": {"repeat": "5\n", "times": 10000}, "a.c": A},
         [TITLE, {"repeat": "args 5 edges 1 3\n", "times": 10000}]),
    case("inputs of blanks at the limit", ["traces", "f", "in.txt", "a.c"], {"in.txt": {"repeat": " ", "times": 16777216}, "a.c": A}, TITLE),
    *usages("traces", {
        "no source is no command": ["f", "in.txt"],
        "it has no --json": ["--json", "f", "in.txt", "a.c"],
        "it has no --turns": ["--turns", "3", "f", "in.txt", "a.c"],
        "a step limit of 0": ["--steps", "0", "f", "in.txt", "a.c"],
        "ends of another name are no command": ["--ends", "cut", "f", "in.txt", "a.c"],
    }),
    *of_sources("traces", ["in.txt"], {}),
    refused("inputs that aren't there", ["traces", "f", "in.txt", "a.c"], {"a.c": A}, "error 7 ReadFault in.txt", 7),
    wrong("inputs one byte above the limit", {"repeat": " ", "times": 16777217}, "error 16 FileTooLong in.txt", 6),
    wrong("inputs that begin as JSON and aren't", "[1", "error 50 NotJson input 0", 5),
    wrong("an input with one argument too many", "5\n5 6\n", "error 51 Shape input 2", 5),
    wrong("an argument above 64 bits", "18446744073709551616\n", "error 52 Range input 1", 5),
    wrong("10,001 inputs", {"repeat": "5\n", "times": 10001}, "error 53 TooManyInputs limit 10000", 6),
    wrong("runs of more than ten million edges together, none of which counts", {"repeat": "1\n", "times": 101},
          "error 54 RunsTooLong limit 10000000", 6, FOREVER),
    *of_streams(["traces", "f", "in.txt", "a.c"], FILES, TWO),
]  # fmt: skip
