"""The cases of fshell harness: what its file prints as gcc and clang compile it, by hand and from docs/COMMANDS.md."""

import os
import re
import shutil
import subprocess
import xml.etree.ElementTree as ET
from collections.abc import Iterator, Sequence

from tests.tools import Case, example, put, run

SIDES = """1..10
ok 1 - classify(3, 4, 5) returns 1
ok 2 - classify(0, 4, 5) returns 0
ok 3 - classify(3, 0, 5) returns 0
ok 4 - classify(3, 4, 0) returns 0
ok 5 - classify(1, 2, 9) returns 0
ok 6 - classify(9, 1, 2) returns 0
ok 7 - classify(1, 9, 2) returns 0
ok 8 - classify(2, 2, 2) returns 3
ok 9 - classify(2, 2, 3) returns 2
ok 10 - classify(5, 4, 3) returns 1
"""
RING = """1..4
ok 1 - main_loop(3) with answers 2 2 2 returns 3
ok 2 - main_loop(5) with answers 3 4 5 6 7 returns 1
ok 3 - main_loop(3) with answers 3 4 5 returns 1
ok 4 - main_loop(2) with answers 3 4 returns 0
"""
CLAMPS = "1..3\nok 1 - clamp(5, 0, 9) returns 5\nok 2 - clamp(12, 0, 9) returns 9\nok 3 - clamp(5, 9, 3) # SKIP trapped assert\n"
CASES = [
    Case("harness: inputs that are refused", ["harness", "f", "in", "a.c", "-o", "new"], {"in": "1 2\n", "a.c": "int f(int x) { return x; }\n"},
         2, "", "harness: fshell runs: error 51 Shape input 1\n"),
    Case("harness: inputs that aren't read", ["harness", "f", "in", "a.c", "-o", "new"], {"in": "x\n", "a.c": "int f(int x) { return x; }\n"},
         2, "", "harness: in: no inputs are read: 'x' is no number\n"),
    Case("harness: an entry that isn't there", ["harness", "g", "in", "a.c", "-o", "new"], {"in": "1\n", "a.c": "int f(int x) { return x; }\n"},
         2, "", "harness: fshell runs: error 36 NoSuchEntry\n"),
    Case("harness: a source whose name has a line feed", ["harness", "f", "in", "a\nb.c", "-o", "new"],
         {"in": "1\n", "a\nb.c": "int f(int x) { return x; }\n"}, 2, "", "harness: the name of a source has a line feed\n"),
    Case("harness: a source that is refused", ["harness", "f", "in", "a.c", "-o", "new"], {"in": "1\n", "a.c": "float f;\n"},
         2, "", "harness: fshell runs: error 21 OutOfProfile a.c:1\n"),
    Case("harness: inputs that aren't there", ["harness", "f", "in", "a.c", "-o", "new"], {"a.c": "int f(int x) { return x; }\n"},
         2, "", "harness: in: No such file or directory\n"),
]  # fmt: skip


def compilers() -> list[tuple[str, str]]:
    """Each way to compile that is there: the compiler and its level."""
    return [(name, level) for name in ("gcc", "clang") if shutil.which(name) for level in ("-O0", "-O2")]


def printed(folder: str, compiler: str, level: str) -> tuple[str, int | None]:
    """What the harness in a folder prints, and its status, or what the compiler says of it."""
    words = [compiler, level, "-Wall", "-Wextra", "-Werror", "-fwrapv", "-o", "tests", "tests.c"]
    compiled = subprocess.run(words, cwd=folder, capture_output=True, text=True)
    if compiled.returncode:
        return compiled.stderr, None
    ran = subprocess.run([os.path.join(folder, "tests")], capture_output=True, text=True, timeout=20)
    return ran.stdout, ran.returncode


def prints(
    folder: str, files: dict[str, str], entry: str, given: str, sources: Sequence[str], due: str, status: int = 0
) -> bool:
    """Whether the harness of some files prints what is due, however it is compiled."""
    put(folder, files)
    if run(folder, ["harness", entry, given, *sources, "-o", "tests.c"]).returncode:
        return False
    return all(printed(folder, *one) == (due, status) for one in compilers())


def examples_pass(folder: str) -> Iterator[bool]:
    tri = {
        "tri.c": example("triangle/tri.c"),
        "sides.txt": example("triangle/sides.txt"),
        "runs.json": example("triangle/runs.json"),
    }
    yield prints(folder, tri, "classify", "sides.txt", ["tri.c"], SIDES)
    yield prints(folder, tri, "main_loop", "runs.json", ["tri.c"], RING)
    clamp = {"clamp.c": example("clamp/clamp.c"), "in.txt": example("clamp/in.txt")}
    yield prints(folder, clamp, "clamp", "in.txt", ["clamp.c"], CLAMPS)


def a_changed_constant_fails(folder: str) -> Iterator[bool]:
    """A compiler that puts another constant into the program is found out."""
    put(folder, {"tri.c": example("triangle/tri.c"), "sides.txt": example("triangle/sides.txt")})
    run(folder, ["harness", "classify", "sides.txt", "tri.c", "-o", "tests.c"])
    with open(os.path.join(folder, "tests.c"), encoding="utf-8") as file:
        text = file.read()
    put(folder, {"tests.c": text.replace("SCALENE = 1", "SCALENE = 4")})
    due = SIDES.replace(
        "ok 1 - classify(3, 4, 5) returns 1", "not ok 1 - classify(3, 4, 5) returns 1\n# another value, returned 4"
    )
    due = due.replace(
        "ok 8 - classify(2, 2, 2) returns 3", "not ok 8 - classify(2, 2, 2) returns 3\n# another value, returned 6"
    )
    due = due.replace(
        "ok 9 - classify(2, 2, 3) returns 2", "not ok 9 - classify(2, 2, 3) returns 2\n# another value, returned 5"
    )
    due = due.replace(
        "ok 10 - classify(5, 4, 3) returns 1", "not ok 10 - classify(5, 4, 3) returns 1\n# another value, returned 4"
    )
    yield all(printed(folder, *one) == (due, 1) for one in compilers())


def an_assert_or_assume_that_fails_is_told(folder: str) -> Iterator[bool]:
    put(folder, {"a.c": "int f(int x) { assert(x != 3); assume(x != 4); return x; }\n", "in": "1\n2\n"})
    run(folder, ["harness", "f", "in", "a.c", "-o", "tests.c"])
    with open(os.path.join(folder, "tests.c"), encoding="utf-8") as file:
        text = file.read()
    put(folder, {"tests.c": text.replace("x != 3", "x != 1").replace("x != 4", "x != 2")})
    due = (
        "1..2\nnot ok 1 - f(1) returns 1\n# an assert failed, returned 0\n"
        "not ok 2 - f(2) returns 2\n# an assume failed, returned 0\n"
    )
    yield all(printed(folder, *one) == (due, 1) for one in compilers())


def variables_have_their_first_values_again(folder: str) -> Iterator[bool]:
    source = (
        "static int calls, table[3] = {1, 2};\nconst int step = 1;\nunsigned char last = 7;\n"
        "int f(int x) { calls += step; table[1] += x; last++; return calls * 1000 + table[1] * 100 + last; }\n"
    )
    yield prints(
        folder,
        {"a.c": source, "in": "0\n1\n"},
        "f",
        "in",
        ["a.c"],
        "1..2\nok 1 - f(0) returns 1208\nok 2 - f(1) returns 1308\n",
    )


def two_sources_with_macros_and_answers(folder: str) -> Iterator[bool]:
    one = (
        "#include <missing.h>\n#define LIMIT 3\n#define T unsigned /* x */ char\nstatic T next(void);\nextern int16_t more();\n"
        "int g(int x) { int y = next(); return x + y + LIMIT; }\n"
    )
    two = (
        "#define LIMIT 4\n#define INT8_MAX 9\nint more_of(int a, int b);\nint16_t more(void);\n"
        "long main(int x) { int y = g(x); int z = more(); return y + z + LIMIT + INT8_MAX; }\n"
    )
    given = '[{"args": [1], "answers": [258, -32768]}, {"args": [-1]}]'
    yield prints(
        folder,
        {"one.c": one, "two.c": two, "in": given},
        "main",
        "in",
        ["one.c", "two.c"],
        "1..2\nok 1 - main(1) with answers 258 -32768 returns -32749\nok 2 - main(-1) returns 15\n",
    )


def values_of_all_widths(folder: str) -> Iterator[bool]:
    source = "uint64_t f(int8_t a, uint64_t b) { return b + a; }\n"
    yield prints(
        folder,
        {"a.c": source, "in": "-1 0\n255 18446744073709551615\n-128 -9223372036854775808\n"},
        "f",
        "in",
        ["a.c"],
        "1..3\nok 1 - f(-1, 0) returns 18446744073709551615\nok 2 - f(255, 18446744073709551615) returns 18446744073709551614\n"
        "ok 3 - f(-128, -9223372036854775808) returns 9223372036854775680\n",
    )


def entries_without_a_value_and_runs_without_an_end(folder: str) -> Iterator[bool]:
    source = "void f(int x) { assume(x < 9); while (x > 3) { ; } if (x > -99) { f(x - 1); } }\nvoid g(int x) { if (x) { return; } assert(x); }\n"
    yield prints(
        folder,
        {"a.c": source, "in": "9\n5\n3\n"},
        "f",
        "in",
        ["a.c"],
        "1..3\nok 1 - f(9) # SKIP blocked\nok 2 - f(5) # SKIP cut\nok 3 - f(3) # SKIP too-deep\n",
    )
    yield prints(
        folder,
        {"a.c": source, "in": "0\n5\n"},
        "g",
        "in",
        ["a.c"],
        "1..2\nok 1 - g(0) # SKIP trapped assert\nok 2 - g(5)\n",
    )
    yield prints(folder, {"a.c": source, "in": ""}, "g", "in", ["a.c"], "1..0\n")


def inputs_of_any_form(folder: str) -> Iterator[bool]:
    """Lines of least, a trace file and a file of inputs give the same tests."""
    put(
        folder,
        {
            "a.c": "int f(int x) { return x; }\n",
            "lines": "3\n7\n",
            "least": "goal 1 least args 3\ngoal 2 least args 7\n",
            "traces": "fshell traces 1\nargs 3 edges 0\nargs 7 edges 0\n",
        },
    )
    made = [run(folder, ["harness", "f", form, "a.c"]).stdout for form in ("lines", "least", "traces")]
    yield "ok" in made[0] and made[1:] == made[:1] * 2


def junit(folder: str, compiler: str = "gcc") -> tuple[ET.Element, int]:
    """The report of a harness in a folder as JUnit's XML, and its status."""
    subprocess.run(
        [compiler, "-Wall", "-Wextra", "-Werror", "-fwrapv", "-o", "tests", "tests.c"], cwd=folder, check=True
    )
    ran = subprocess.run(
        [os.path.join(folder, "tests"), "--junit"], cwd=folder, capture_output=True, text=True, timeout=20
    )
    return ET.fromstring(ran.stdout), ran.returncode


def junit_is_printed_beside_tap(folder: str) -> Iterator[bool]:
    """A case an input; names of a user's own with marks of XML, a skipped one, and one that fails."""
    source = "int f(int x) { assert(x != 3); return x > 4 ? 1 : 0; }\n"
    put(folder, {"a.c": source, "in": '[{"args": [3]}, {"args": [4], "id": "<\\"&ä"}, {"args": [5]}]'})
    run(folder, ["harness", "f", "in", "a.c", "-o", "tests.c"])
    top, status = junit(folder)
    (suite,) = top
    yield status == 0 and {name: suite.get(name) for name in ("name", "tests", "failures", "errors", "skipped")} == {
        "name": "f",
        "tests": "3",
        "failures": "0",
        "errors": "0",
        "skipped": "1",
    }
    yield [one.get("name") for one in suite] == ["f(3)", 'f(4) returns 0 {"id": "<\\"&\\u00e4"}', "f(5) returns 1"]
    yield [[(part.tag, part.get("message")) for part in one] for one in suite] == [
        [("skipped", "trapped assert")],
        [],
        [],
    ]
    with open(os.path.join(folder, "tests.c"), encoding="utf-8") as file:
        text = file.read()
    put(folder, {"tests.c": text.replace("x > 4", "x > 5")})
    top, status = junit(folder)
    yield status == 1 and top[0].get("failures") == "1"
    yield [(one.get("name"), one[0].get("message")) for one in top[0] if one.find("failure") is not None] == [
        ("f(5) returns 1", "another value, returned 0")
    ]
    told = subprocess.run([os.path.join(folder, "tests"), "--xml"], capture_output=True, text=True)
    yield told.returncode == 2 and told.stdout.startswith("usage: ")


def counted(folder: str, source: str) -> dict[int, int]:
    """The counts of a source's lines by gcov, for the run of the harness in a folder."""
    subprocess.run(["gcc", "--coverage", "-O0", "-fwrapv", "-o", "tests", "tests.c"], cwd=folder, check=True)
    subprocess.run([os.path.join(folder, "tests")], cwd=folder, check=False, capture_output=True)
    subprocess.run(["gcov", "tests.gcda"], cwd=folder, check=True, capture_output=True)
    with open(os.path.join(folder, f"{source}.gcov"), encoding="utf-8") as file:
        rows = [line.split(":", 2) for line in file]
    return {
        int(line): 0 if "#" in count else int(count.strip(" *"))
        for count, line, _ in rows
        if count.strip() != "-" and int(line)
    }


def gcc_counts_the_lines_of_the_source(folder: str) -> Iterator[bool]:
    """They are what fshell lcov says, where both count a line."""
    put(folder, {"tri.c": example("triangle/tri.c"), "sides.txt": example("triangle/sides.txt")})
    run(folder, ["harness", "classify", "sides.txt", "tri.c", "-o", "tests.c"])
    theirs = counted(folder, "tri.c")
    traced = run(folder, ["lcov", "classify", "sides.txt", "tri.c"]).stdout
    ours = {int(line): int(count) for line, count in re.findall(r"^DA:(\d+),(\d+)", traced, re.MULTILINE)}
    both = set(ours) & set(theirs)
    yield len(both) >= 15 and all(ours[line] == theirs[line] for line in both) and any(ours[line] for line in both)


def no_path_is_absolute(folder: str) -> Iterator[bool]:
    """A source by its whole path is named from the file's folder."""
    put(folder, {"in": "1\n", "src/a.c": "int f(int x) { return x; }\n", "out/none": ""})
    ended = run(folder, ["harness", "f", "in", os.path.join(folder, "src", "a.c"), "-o", "out/tests.c"])
    with open(os.path.join(folder, "out", "tests.c"), encoding="utf-8") as file:
        text = file.read()
    yield ended.returncode == 0 and folder not in text and '#line 1 "../src/a.c"' in text and ' "tests.c"\n' in text


TRIED = [(("gcc",), function) for function in (
    examples_pass, a_changed_constant_fails, an_assert_or_assume_that_fails_is_told, variables_have_their_first_values_again,
    two_sources_with_macros_and_answers, values_of_all_widths, entries_without_a_value_and_runs_without_an_end,
    junit_is_printed_beside_tap)] + [((), inputs_of_any_form), ((), no_path_is_absolute), (("gcc", "gcov"), gcc_counts_the_lines_of_the_source)]  # fmt: skip
