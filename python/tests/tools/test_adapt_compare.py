"""The cases of `fshell adapt --compare`: what it says of runs that agree, that differ and that have no meaning, by which builds, on
which inputs; the report that it writes, and that a campaign over what was written names it. What is due is worked out by hand.
"""

import hashlib
import io
import json
import os
import shutil
import subprocess
import sys
from collections.abc import Iterator
from contextlib import redirect_stdout
from typing import Any

from tests import environment
from tests.tools import Case, put, run
from tests.tools.test_adapt import adapted, one_build

NEEDS = ("pycparser", "gcc", "clang")
FIRST = "adapt is no part of what is proved: read and compare what it writes\nwrote new/a.c\n"
BUILT = "built by gcc -O0, gcc -O2, clang -O0, clang -O2; half of the inputs random, half boundaries\nwrote new/compare.json\n"
SOURCE = {"a.c": "int f(int x) { return x; }\n"}
# of which the optimised original is another program than the one that is adapted
PLANTED = {
    "a.c": "static int n;\nint f(void) {\n#ifdef __OPTIMIZE__\n  n = 4;\n#endif\n  return 3;\n}\n",
}
NOTHING = "adapt: there is no function that isn't static, takes integers alone and gives one or nothing, so nothing can be compared\n"


CASES = [
    Case("adapt --compare: runs that agree", ["adapt", "a.c", "-o", "new", "--compare", "3"], SOURCE, 0,
         f"{FIRST}{BUILT}compared 6 runs, 0 differ\n", "", None, NEEDS),
    Case("adapt --compare: nothing to compare", ["adapt", "a.c", "-o", "new", "--compare", "3"],
         {"a.c": "static int f(int x) { return x; }\n"}, 2, None, NOTHING, None, NEEDS),
    *(Case(f"adapt --compare: {word or 'nothing'} is no number of runs", ["adapt", "a.c", "-o", "new", "--compare", word], SOURCE, 2, "",
           None, needs=NEEDS) for word in ("-5", "0", "x", "1.5", "1000001", "")),
    Case("adapt --compare: beside --check-overflow", ["adapt", "a.c", "-o", "new", "--compare", "3", "--check-overflow"], SOURCE, 2, "",
         "adapt: --compare compares what is written without --check-overflow and --check-conversions\n", needs=NEEDS),
]  # fmt: skip
# sources, and of how many of four runs C gives the end no meaning
ROWS = [
    ("int main(void) { return 3; }\nint f(int x) { return main() + x; }\n", 0),
    ("static int g(int x) { if (x == 2000000) return 4; }\nint f(int x) { return g(x); }\n", 4),
    ("static unsigned char a[4];\nstatic int get(const unsigned char *p, int i) { return p[i]; }\n"
     "int f(void) { return get(a, -1); }\nint g(void) { return get(a, 4); }\n", 4),
    ("int f(void) { int z = 0; return 7 % z; }\nint g(void) { int w = 32; return 1 << w; }\n", 4),
    ("#include <stdlib.h>\nint f(void) { int *p = malloc(4); if (!p) return 0; *p = 1; free(p); return *p; }\n", 4),
    ("#include <string.h>\nstatic char *kept;\nstatic void keep(void) { char a[4] = {1}; kept = a; }\nint f(void) { keep(); return *kept; }\n", 4),
    ("#include <assert.h>\nvoid f(void) { assert(0); }\n", 0),
    ("static char a[8], b[8];\nstatic int within(const char *p, unsigned long n) { return p + n < a + 8; }\n"
     "int f(unsigned long n) { return within(a, n % 5000 + 16); }\n", 4),
    ("static char a[8], b[8];\nstatic int order(const char *p, const char *q) { return q - p > 0; }\n"
     "int f(void) { return order(a, b); }\n", 4),
    ("static char a[8];\nstatic int within(const char *p, unsigned n) { return p + n <= a + 8 && p + 4 - (p + n) < 9; }\n"
     "int f(unsigned n) { return within(a, n % 9); }\n", 0),
    ("typedef struct { int n; } FILE;\nstatic FILE own;\nint f(int x) { own.n += x; return own.n; }\n", 0),
]  # fmt: skip


def runs_without_a_meaning_are_counted_apart(folder: str) -> Iterator[bool]:
    """Each by its source: a main of its own, no value, outside of an array, a division and a shift, freed memory, a local that is
    gone, an assert that fails, pointers that are compared or subtracted outside of one object, and within it, and names that a header of the library has too.
    """
    for number, (text, apart) in enumerate(ROWS):
        place = os.path.join(folder, str(number))
        put(place, {"a.c": text})
        with one_build():
            status, out, err = adapted([os.path.join(place, "a.c"), "-o", os.path.join(place, "new"), "--compare", "2"])
        told = f", of {apart} C gives the end no meaning" if apart else ""
        yield (status, err) == (0, "") and out.endswith(f"\ncompared 4 runs, 0 differ{told}\n")
        yield "\nbuilt by gcc -O0; half of the inputs random, half boundaries\n" in out


def pointers_that_leave_their_memory_have_no_meaning(folder: str) -> Iterator[bool]:
    """What is formed by a number that no array has, by clang at -O0; signed operations that wrap there have one."""
    text = "static char a[8];\nstatic int is(const char *p, unsigned long n) { p = p + n; return p != 0; }\n"
    put(folder, {"a.c": text + "int f(unsigned long n) { return is(a, n | 1ul << 63); }\n"})
    put(folder, {"b.c": "int f(int x, int y) { return x * y + (x << (y & 31)) - x; }\n"})
    for name, told in (("a.c", ", of 4 C gives the end no meaning"), ("b.c", "")):
        words = ["adapt", name, "-o", "new", "--compare", "2"]
        yield run(folder, words).stdout.endswith(f"\ncompared 4 runs, 0 differ{told}\n")


def a_loop_without_an_end_is_compared_up_to_there(folder: str) -> Iterator[bool]:
    """The runs end by their time, which is no difference, and C gives them a meaning."""
    put(folder, {"a.c": "static int n;\nint f(int x) { for (;;) { n = x; } return 1; }\n"})
    with one_build():
        status, out, _ = adapted([os.path.join(folder, "a.c"), "-o", os.path.join(folder, "new"), "--compare", "1"])
    yield status == 0 and "\ncompared 2 runs, 0 differ\n" in out and report(folder)["calls"] == 0


def with_path(folder: str, path: str, *words: str) -> subprocess.CompletedProcess[str]:
    """How fshell adapt ends with PATH as the only folder of programs; the program itself is the one that is known already."""
    words = (sys.executable, environment.TOOLS, "adapt", "a.c", "-o", "new", *words)
    program = subprocess.run([os.path.join(environment.ROOT, "bin", "program")], capture_output=True, text=True)
    known = os.environ.get("FSHELL") or program.stdout.rstrip("\n")
    env = {**os.environ, "PATH": path, "FSHELL": known}
    return subprocess.run(words, cwd=folder, env=env, capture_output=True, text=True)


def linked(folder: str, *names: str) -> str:
    """A folder with links to programs."""
    path = os.path.join(folder, "bin")
    os.makedirs(path, exist_ok=True)
    for name in names:
        os.symlink(os.path.realpath(shutil.which(name) or name), os.path.join(path, name))
    return path


def a_compiler_that_isnt_there(folder: str) -> Iterator[bool]:
    """Gcc alone, and clang alone, each told in a line and in the report."""
    for here, other in (("gcc", "clang"), ("clang", "gcc")):
        place = os.path.join(folder, here)
        put(place, SOURCE)
        ended = with_path(place, linked(place, here, "as", "ld"), "--compare", "2")
        told = f"built by {here} -O0, {here} -O2; half of the inputs random, half boundaries\nnot built by {other}: it isn't there\n"
        due = f"{FIRST}{told}wrote new/compare.json\ncompared 4 runs, 0 differ\n"
        yield (ended.returncode, ended.stdout, ended.stderr) == (0, due, "")
        yield report(place)["missing"] == {other: "it isn't there"}


def a_compiler_without_sanitizers(folder: str) -> Iterator[bool]:
    """A compiler that refuses the sanitizers' words is used without them, which is told; one that refuses the source isn't."""
    put(folder, SOURCE)
    path = linked(folder, "as", "ld")
    refusing = 'case "$*" in *-fsanitize*) echo "error: no sanitizer" >&2; exit 1;; esac\n'
    for name, lines in (
        ("gcc", refusing),
        ("clang", 'case "$*" in *original*) echo "error: no C" >&2; exit 1;; esac\n'),
    ):
        with open(os.path.join(path, name), "w", encoding="ascii") as file:
            file.write(f'#!/bin/sh\n{lines}exec {shutil.which(name)} "$@"\n')
        os.chmod(os.path.join(path, name), 0o755)
    ended = with_path(folder, path, "--compare", "1")
    due = f"{FIRST}built by gcc -O0, gcc -O2; half of the inputs random, half boundaries\n"
    due += "not built by clang: error: no C\n"
    due += "".join(
        f"gcc {level} has no sanitizer address and no undefined and no pointer-compare\n" for level in ("-O0", "-O2")
    )
    yield (ended.returncode, ended.stdout) == (0, due + "wrote new/compare.json\ncompared 2 runs, 0 differ\n")
    yield not any("sanitize" in flag for one in report(folder)["builds"] for flag in one["original"])


def report(folder: str) -> Any:
    """The report of a folder in which `new` was written."""
    with open(os.path.join(folder, "new", "compare.json"), encoding="utf-8") as file:
        return json.load(file)


def sums(folder: str, *names: str) -> dict[str, str]:
    """The sums of files by their names from `new`."""
    found = {}
    for name in names:
        with open(os.path.join(folder, "new", name), "rb") as file:
            found[name] = hashlib.sha256(file.read()).hexdigest()
    return found


def the_report_says_what_was_compared(folder: str) -> Iterator[bool]:
    """Files with their sums, headers too; words, builds, inputs, and differences with the calls that lead to them."""
    put(folder, {"a.c": '#include "a.h"\n' + PLANTED["a.c"], "a.h": "static const int whole = 1;\n"})
    ended = run(folder, ["adapt", "a.c", "-o", "new", "-D", "X=1", "--compare", "2"])
    told = "".join(
        f"input {number}, the original by gcc -O2: f(): n is 4, by the original of gcc -O0 0\n"
        for number in range(1, 5)
    )
    yield (ended.returncode, ended.stdout) == (
        1,
        f"{FIRST.replace('new/a.c', 'new/a.h new/a.c')}{told}{BUILT}compared 4 runs, 4 differ\n",
    )
    found = report(folder)
    yield found["form"] == "fshell compare 1"
    yield found["originals"] == sums(folder, "../a.h", "../a.c") and found["written"] == sums(folder, "a.h", "a.c")
    yield found["flags"] == ["-DX=1"] and found["missing"] == {} and found["without_meaning"] == {}
    builds = [(one["compiler"], one["level"]) for one in found["builds"]]
    yield builds == [("gcc", "-O0"), ("gcc", "-O2"), ("clang", "-O0"), ("clang", "-O2")]
    watched = "-fsanitize=address,undefined,pointer-compare,pointer-subtract"
    yield all(watched in one["original"] and one["compiler"] in one["version"] for one in found["builds"])
    # (clang sees pointers that wrap only where it isn't told that signed operations do)
    yield ["-fwrapv" in one["original"] for one in found["builds"]] == [True, True, False, True]
    yield found["inputs"] == {"random": 2, "boundary": 2} and found["calls"] == 4 * 6
    yield [(one["input"], one["kind"]) for one in found["differences"]] == [
        (1, "random"),
        (2, "random"),
        (3, "boundary"),
        (4, "boundary"),
    ]
    yield all(one["calls"] == ["f()"] * 6 and len(one["answers"]) == 40 for one in found["differences"])


def a_wrong_word_in_what_was_written_is_found(folder: str) -> Iterator[bool]:
    """What was written, with one constant changed behind adapt's back: each build shows it, at the call that tells it."""
    from fshell_tools.adapt import main, pipeline
    from fshell_tools.adapt.command.compare import compared as compare
    from fshell_tools.adapt.common.refusals import Refusals

    put(folder, {"a.c": "static int n;\nint f(unsigned char x) { n = x; return x < 255 ? 1 : 2; }\n"})
    source = os.path.join(folder, "a.c")
    made = pipeline.adapt(main.words([source]), Refusals())
    assert made
    for old, new, due in (("x < 255", "x < 254", "f(254): the result is 2, by the original of gcc -O0 1"),
                          ("n = x", "n = x & 127", "f(255): n is 127, by the original of gcc -O0 255")):  # fmt: skip
        wrong = {path: text.replace(old, new) for path, text in made.texts.items()}
        yield wrong != made.texts
        with one_build():
            told = [one.told for one in compare(made.writer, [source], wrong, [], 12).differences]
        yield any(one.endswith(f", what was written by gcc -O0: {due}") for one in told)
    with one_build():
        yield not compare(made.writer, [source], made.texts, [], 12).differences


def boundaries_are_among_the_inputs(folder: str) -> Iterator[bool]:
    """Each boundary of each parameter comes, by the entries' types and the file's arrays, and those of answers."""
    from fshell_tools.adapt import main, pipeline
    from fshell_tools.adapt.command.compare_inputs import Inputs
    from fshell_tools.adapt.command.compare_texts import Texts
    from fshell_tools.adapt.common.refusals import Refusals

    text = "unsigned char rx(void);\nstatic int row[10];\nint f(signed char a, unsigned long b) { row[a] = rx(); return b; }\nint g(_Bool c) { return c; }\n"
    put(folder, {"a.c": text})
    with redirect_stdout(io.StringIO()):
        made = pipeline.adapt(main.words([os.path.join(folder, "a.c")]), Refusals())
    assert made
    inputs = Inputs(Texts(made.writer))
    given = [inputs.at_boundaries(number) for number in range(8)]
    calls = [call for one in given for call in one.calls]
    yield {call[1] for call in calls if call[0] == 0} == {0, 1, -1, -128, 127, -127, 126, 9, 10, 11}
    # (2^64 - 1 and 2^64 - 2 are words of 64 bits)
    yield {call[2] for call in calls if call[0] == 0} == {0, 1, -1, -2, 9, 10, 11}
    yield {call[1] for call in calls if call[0] == 1} == {0, 1}
    yield {word for one in given for word in one.answers} == {0, 1, 255, 254, 9, 10, 11}


def a_campaign_names_the_report(folder: str) -> Iterator[bool]:
    """With its inputs and differences; that there is none, that it is of other files, or no report, is told too."""
    put(
        folder,
        {
            "a.c": '#include "a.h"\nint f(int x) { if (x > LIMIT) { return 1; } return 0; }\n',
            "a.h": "#define LIMIT 6\n",
        },
    )
    words = ["campaign", "-o", "all", "--jobs", "1"]
    yield run(folder, ["adapt", "a.c", "-o", "new"]).returncode == 0
    none = "new was written by fshell adapt, compared with the original on no inputs (fshell adapt --compare)\n"
    ended = run(folder, [*words, "f", "cover @CONDITIONEDGE", "new/a.c"])
    yield ended.returncode == 0 and none in ended.stdout
    with one_build():
        yield adapted([os.path.join(folder, "a.c"), "-o", os.path.join(folder, "new"), "--compare", "2"])[0] == 0
    line = ("new was written by fshell adapt, compared with the original on 2 random and 2 boundary inputs, 0 differ, of 0 C gives the end no "
            "meaning: new/compare.json, by gcc -O0\n")  # fmt: skip
    yield line in run(folder, words).stdout
    with open(os.path.join(folder, "all", "report.json"), encoding="utf-8") as file:
        yield json.load(file)["compared"] == [{"folder": "new", "path": "new/compare.json", "random": 2, "boundary": 2, "differences": 0,
                                               "without_meaning": 0, "builds": ["gcc -O0"]}]  # fmt: skip
    put(folder, {"a.h": "#define LIMIT 6 \n"})
    yield "new was written by fshell adapt, new/compare.json is of other files; run fshell adapt --compare again\n" in run(
        folder, words
    ).stdout
    put(folder, {"new/compare.json": "{}\n"})
    yield "new was written by fshell adapt, new/compare.json is no report of fshell adapt --compare\n" in run(
        folder, words
    ).stdout


TRIED = [
    *((NEEDS, one) for one in (runs_without_a_meaning_are_counted_apart, pointers_that_leave_their_memory_have_no_meaning, a_loop_without_an_end_is_compared_up_to_there,
                               a_compiler_that_isnt_there, a_compiler_without_sanitizers, the_report_says_what_was_compared,
                               a_wrong_word_in_what_was_written_is_found, boundaries_are_among_the_inputs)),
    ((*NEEDS, "parallel"), a_campaign_names_the_report),
]  # fmt: skip
