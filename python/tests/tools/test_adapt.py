"""The cases of fshell adapt: what it writes of small sources and what it refuses of them, by the tables of python/tests/tools/adapt_tables/, one for
each row of docs/ADAPT.md; the command itself; and the modules of examples/modules, all the way.

A case of a table begins with `== NAME`, behind which words for adapt may stand after a `|`. Its source follows, or several, each
behind `-- file NAME`; then `-- becomes [NAME]` with what is written, `-- refused` with the lines that are told, or `-- agrees`, where what is written
isn't looked at, but runs as the original on 12 random inputs under gcc. What is written must be accepted by the program; python/tests/models/gcc/adapted_programs also compares its runs with those of the original.
"""

import contextlib
import glob
import io
import os
import re
import resource
import subprocess
import sys
import time
from collections.abc import Callable, Iterator, Sequence
from unittest import mock

from tests import environment
from tests.tools import Case, is_there, put, run

PROGRAM = os.environ.get("FSHELL", environment.LAUNCHER)
TABLES = sorted(glob.glob(os.path.join(environment.HERE, "tools", "adapt_tables", "*.txt")))
MODULES = os.path.join(environment.ROOT, "examples", "modules")
NEEDS = ("pycparser", "gcc")
FIRST = "adapt is no part of what is proved: read and compare what it writes\n"
SOURCE = {"a.c": "int f(int x) { return x; }\n"}
CASES = [
    Case("adapt: a source that isn't there", ["adapt", "none.c"], {}, 2, FIRST, "adapt: none.c can't be read\n", needs=NEEDS),
    Case("adapt: the original itself", ["adapt", "a.c", "-o", "."], SOURCE, 2, FIRST,
         "adapt: ./a.c is the original itself; name another folder (-o)\n", needs=NEEDS),
    Case("adapt: all refusals at once, and nothing is written", ["adapt", "a.c"], {"a.c": "float f;\nint g(int x) {\n  double p = x;\n  return 0;\n}\n"},
         3, FIRST, "a.c:1: f: a floating point number; use integers in fixed point\n"
         "a.c:3: p: a floating point number; use integers in fixed point\n"
         "2 refused, nothing is written\n", needs=NEEDS),
    Case("adapt: sources without code", ["adapt", "a.c", "b.c", "-o", "new"], {"a.c": "/* nothing */\n", "b.c": ""}, 0,
         FIRST + "wrote new/a.c new/b.c\n", "", None, NEEDS),
    Case("adapt: a source by another name", ["adapt", "a", "-o", "new"], {"a": "int f(int x) { return y; }\n"}, 3, FIRST,
         "a:1: the compiler says: 'y' undeclared (first use in this function); correct it\n1 refused, nothing is written\n", needs=("pycparser", "gcc")),
    Case("adapt: a source whose name has a line feed", ["adapt", "a\nb.c"], {"a\nb.c": "int f(int x) { return x; }\n"}, 2, "",
         "adapt: the name of a source has a line feed\n", needs=NEEDS),
    Case("adapt: a harness of an entry that isn't there", ["adapt", "a.c", "-o", "new", "--harness", "g", "in"], {**SOURCE, "in": "1\n"}, 2, None,
         "adapt: g is no function of the sources that takes integers alone and gives one or nothing\n", None, NEEDS),
    Case("adapt: inputs that are refused", ["adapt", "a.c", "-o", "new", "--harness", "f", "in"], {**SOURCE, "in": "1 2\n"}, 2, None,
         "adapt: fshell runs: error 51 Shape input 1\n", None, NEEDS),
]  # fmt: skip
# each module with adapt's words, an entry, and the program's options
Given = tuple[str, Sequence[str], str, Sequence[str]]  # a module, words for fshell adapt, its entry, and bounds
WAYS: list[Given] = [
    ("can.c", [], "can_receive", ["--turns", "3", "--answers", "4"]),
    ("uart.c", [], "uart_poll", ["--turns", "2", "--answers", "4"]),
    ("pid.c", ["--input", "sensor_read", "--input", "actuator_write"], "pid_step", []),
    ("menu.c", ["--input", "display_show"], "menu_edit", ["--turns", "3"]),
    ("modbus.c", ["--input", "line_write"], "modbus_obey", ["--turns", "3"]),
]
QUERY = "cover @CONDITIONEDGE"


def without_gcc(folder: str) -> Iterator[bool]:
    """The one line where no compiler is there."""
    put(folder, SOURCE)
    words = [sys.executable, environment.TOOLS, "adapt", "a.c"]
    ended = subprocess.run(words, cwd=folder, env={**os.environ, "PATH": folder}, capture_output=True, text=True)
    told = "adapt: neither gcc nor clang is there, whose preprocessor reads the sources (Debian's package gcc)\n"
    yield (ended.returncode, ended.stderr) == (2, told)


def without_pycparser(folder: str) -> Iterator[bool]:
    """The one line where the package isn't there."""
    put(folder, {**SOURCE, "pycparser.py": "raise ModuleNotFoundError(name='pycparser')\n"})
    ended = run(folder, ["adapt", "a.c"], env={**os.environ, "PYTHONPATH": folder})
    yield (ended.returncode, ended.stderr) == (2, "adapt: pycparser isn't there (Debian's package python3-pycparser)\n")


def nothing_is_left_half_written(folder: str) -> Iterator[bool]:
    """Where a file may have 10 bytes at most, as on a full disk."""
    put(folder, SOURCE)
    ended = run(folder, ["adapt", "a.c", "-o", "new"], preexec_fn=lambda: resource.setrlimit(resource.RLIMIT_FSIZE, (10, 10)))  # fmt: skip
    yield (ended.returncode, ended.stderr) == (2, "adapt: a copy for the program: File too large\n")
    yield not os.path.exists(os.path.join(folder, "new"))


def many_blocks_on_a_line(folder: str) -> Iterator[bool]:
    """Blocks that close on one line take time as there are many, and no more: 8,192 take at most 14 times what 1,024 take."""
    from fshell_tools.adapt.main import main

    times = []
    for count in (1024, 8192):
        put(folder, {"a.c": "int f(int x) { " + "{ x++; } " * count + "return x; }\n"})
        begun = time.process_time()
        with contextlib.redirect_stdout(io.StringIO()):
            yield main([os.path.join(folder, "a.c"), "-o", os.path.join(folder, "new")]) == 0
        times.append(time.process_time() - begun)
    yield times[1] < 14 * times[0]


# gcc 12 takes declarations right behind a label, which C11 hasn't (6.8.1p1)
LABELS = """int g(int x) { switch (x & 3) { case 1: int a = x, b = 4; return a * b; case 2: static int n; n++; return n; default: typedef int t; } return 0; }
static int *at(int *p, int i) { return p + i; }
int h(int x) { int a[4] = {x}; int *q = a; switch (x) { case 3: int *p = at(q, 1); return *p; default: int b[2] = {1, 2}; return b[x & 1]; } }
"""


def labels_stand_before_statements(folder: str) -> Iterator[bool]:
    """What is written is C11, by clang where it is there, and by gcc; and each declaration is where it was."""
    put(folder, {"a.c": LABELS})
    yield run(folder, ["adapt", "a.c", "-o", "new"]).returncode == 0
    with open(os.path.join(folder, "new", "a.c"), encoding="utf-8") as file:
        made = file.read()
    due = (
        "case 1: ; int a = x; int b = 4;",
        "g_n++; return g_n;",
        "default: ; }",
        "case 3: ; int p = ",
        "default: ; int b[2] = {1, 2};",
    )
    yield all(text in made for text in due)
    for compiler in ("gcc", "clang") if is_there("clang") else ("gcc",):
        words = [compiler, "-std=c11", "-pedantic-errors", "-fsyntax-only", "-w", "-include", "assert.h", "new/a.c"]
        yield subprocess.run(words, cwd=folder).returncode == 0


NEEDED = """#include <string.h>
#include <stdlib.h>
int next(void); unsigned char rx(void);
enum { SIZE = 6 };
static unsigned char buf[SIZE], out[17];
static int fact(int n) { return n < 2 ? 1 : n * fact(n - 1); }
static int sum(const unsigned char *p, int n) { int s = 0; while (n--) s += *p++; return s; }
int f(int n) {
  for (int i = 0, k = 1; i < SIZE; i++, k++) { buf[i] = rx(); }
  if (n > 3) { buf[0] = next(); } else { buf[1] = next(); buf[2] = next(); }
  memcpy(out, buf, sizeof buf);
  memset(out, 0, 17);
  int k = 10;
  while (k > 0) { n ^= k; k -= 2; }
  return buf[0] + out[1] + n;
}
int g(int n) { return fact(n) + sum(buf, n & 3); }
int h(int n) { int *p = malloc(4), *q = malloc(4); if (!p || !q) return 0; *p = n; *q = 3; return *p + *q; }
"""
# by hand: 17 turns of memset's loop, f above it; six answers of the loop and two of the longer branch; malloc, what it asks whether it fails
NEEDS_OF = """bounds of f: --turns 17 --frames 2 --answers 8
  bounds = { turns = 17, frames = 2, answers = 8 }
  turns 17: the loop at a.c:3
  answers 8: rx 6, next 2
bounds of g: --frames 2 --answers 0
  bounds = { frames = 2, answers = 0 }
  loops without a constant count: a.c:7
  functions that call themselves: fact
bounds of h: --frames 3 --answers 1
  bounds = { frames = 3, answers = 1 }
  answers 1: malloc_fails 1
"""


def bounds_are_those_that_suffice(folder: str) -> Iterator[bool]:
    """What --bounds prints, and by the program that these bounds suffice and that none is too great."""
    put(folder, {"a.c": NEEDED})
    yield run(folder, ["adapt", "a.c", "-o", "new", "--bounds"]).stdout == FIRST + "wrote new/a.c\n" + NEEDS_OF
    for entry, turns, frames, answers, end in (
        ("f", 17, 2, 8, "suffice"), ("f", 16, 2, 8, "left"), ("f", 17, 1, 8, "left"), ("f", 17, 2, 7, "left"),
        ("h", 0, 3, 1, "suffice"), ("h", 0, 2, 1, "left"), ("h", 0, 3, 0, "left"),
    ):  # fmt: skip
        words = ["bounds", entry, "new/a.c", "--turns", turns, "--frames", frames, "--answers", answers]
        yield run(folder, [str(word) for word in words]).stdout.startswith(f"bounds {end}")


# ---- the tables


def cases(text: str) -> Iterator[tuple[str, list[str], dict[str, str], dict[str, str]]]:
    """The cases of a table: each with its name, words, files, and what is expected, by kind and file."""
    for part in re.split(r"^== ", text, flags=re.MULTILINE)[1:]:
        head, rest = part.split("\n", 1)
        name, _, words = head.partition(" | ")
        pieces = re.split(r"^-- (file|becomes|refused|agrees) ?(\S*)\n", rest, flags=re.MULTILINE)
        files = {"a.c": pieces[0]} if pieces[0].strip() else {}
        expected = dict[str, str]()
        for kind, file, body in zip(pieces[1::3], pieces[2::3], pieces[3::3]):
            (files if kind == "file" else expected)[file or ("a.c" if kind == "becomes" else kind)] = (
                body.strip("\n") + "\n"
            )
        yield name, words.split(), files, expected


def adapted(words: list[str]) -> tuple[int, str, str]:
    """The status of adapt, and both texts."""
    from fshell_tools.adapt.main import main

    out, err = io.StringIO(), io.StringIO()
    with contextlib.redirect_stdout(out), contextlib.redirect_stderr(err):
        status = main(words)
    return status, out.getvalue(), err.getvalue()


def one_build() -> contextlib.AbstractContextManager[object]:
    """Within, --compare builds by gcc at -O0 alone, which takes seconds less for each row of the tables."""
    from fshell_tools.adapt.command import compare_builds

    return mock.patch.object(compare_builds, "EVERY", compare_builds.EVERY[:1])


def outcome(words: Sequence[str], files: dict[str, str], folder: str, runs: int = 0) -> dict[str, str]:
    """What adapt makes of a case: what is written by file, or what is refused. Some runs may be compared with the original's."""
    put(folder, files)
    sources = [name for name in files if name.endswith(".c")]
    with one_build():
        status, out, err = adapted([*sources, *words, "-o", "out", *(["--compare", str(runs)] if runs else [])])
    if status == 3:
        return {"refused": "".join(line + "\n" for line in err.splitlines()[:-1])}
    made = {} if not status or "nothing can be compared" in err else {"adapt": f"{status} {out} {err}"}
    paths = out.splitlines()[1].split()[1:] if len(out.splitlines()) > 1 else []
    for path in paths:
        with open(path, encoding="utf-8") as file:
            made[os.path.basename(path)] = file.read().strip("\n") + "\n"
    accepted = subprocess.run([PROGRAM, "goals", "cover EDGES(ID)", *paths], capture_output=True, text=True)
    return made if accepted.returncode == 0 else {**made, "the program": accepted.stderr}


def table(path: str, folder: str, runs: int = 0) -> Iterator[bool]:
    """Whether each case of a table is right."""
    with open(path, encoding="utf-8") as file:
        found = list(cases(file.read()))
    here = os.getcwd()
    for number, (name, words, files, expected) in enumerate(found):
        own = os.path.join(folder, str(number))
        os.makedirs(own)
        os.chdir(own)
        try:
            made = outcome(words, files, own, 12 if "agrees" in expected else runs)
            if "agrees" in expected and "refused" not in made:
                made = {**{kind: text for kind, text in made.items() if kind not in files}, "agrees": "\n"}
        finally:
            os.chdir(here)
        if made != expected:
            print(f"{os.path.basename(path)}: {name}: {made!r}, not {expected!r}")
        yield made == expected


def of_table(path: str) -> Callable[[str], Iterator[bool]]:
    """The case of a table: whether each of its rows is right."""

    def made(folder: str) -> Iterator[bool]:
        return table(path, folder)

    made.__name__ = f"the table {os.path.basename(path)}"
    return made


# ---- the modules


def way(folder: str, module: str, words: Sequence[str], entry: str, bounds: Sequence[str]) -> Iterator[bool]:
    """A module from the original through adapt and generate to a page and to tests of the original, which must pass."""
    source = os.path.join(MODULES, module)
    names = [name for name in ("can.h" if module == "can.c" else None, module) if name]
    made = [f"made/{name}" for name in names]
    yield run(folder, ["adapt", source, *words, "-o", "made"]).stdout == FIRST + f"wrote {' '.join(made)}\n"
    report = subprocess.run(
        [PROGRAM, "generate", entry, QUERY, *made, *bounds], cwd=folder, capture_output=True, text=True
    )
    yield report.returncode == 0 and int(report.stdout.splitlines()[-1].split()[1]) > 10
    put(folder, {"report.txt": report.stdout})
    yield run(folder, ["inputs", "report.txt", "-o", "in.json"]).returncode == 0
    yield run(folder, ["adapt", source, *words, "-o", "made", "--harness", entry, "in.json"]).returncode == 0
    # (no warning is told but those of the original itself: modbus.c has a list with too few values)
    flags = ["-fwrapv", "--coverage", "-Wall", "-Wextra", "-Werror", "-Wno-missing-field-initializers"]
    compiled = subprocess.run(
        ["gcc", *flags, "-o", "tests", "made/tests.c"], cwd=folder, capture_output=True, text=True
    )
    tests = (
        subprocess.run(["./tests"], cwd=folder, capture_output=True, text=True) if compiled.returncode == 0 else None
    )
    yield tests is not None and tests.returncode == 0 and tests.stdout.count("\nok ") > 2
    with open(os.path.join(folder, "made", "tests.c"), encoding="utf-8") as file:
        yield folder not in file.read()
    yield counted(folder, module)
    if is_there("jinja2") and is_there("graph"):
        shown = [word for name in made for word in ("--source", name)]
        yield run(folder, ["page", "report.txt", "-o", "page.html", *shown, "--entry", entry]).returncode == 0
        yield os.path.getsize(os.path.join(folder, "page.html")) > 1000


def counted(folder: str, module: str) -> bool:
    """Whether gcov counts lines of the original that the tests took."""
    if not is_there("gcov"):
        return True
    told = subprocess.run(["gcov", "-n", "tests.gcda"], cwd=folder, capture_output=True, text=True).stdout
    share = re.search(rf"^File '[^\n]*{re.escape(module)}'\nLines executed:([\d.]+)% of (\d+)", told, re.MULTILINE)
    return share is not None and float(share[1]) > 20 and int(share[2]) > 30


STUBBED = {
    "bus.h": "#include <stdint.h>\ntypedef uint8_t byte;\nint bus_write(byte to, byte value);\nint bus_read(byte from, byte *value);\n",
    "sum.c": '#include "bus.h"\nint add(byte a, byte b)\n{\n  byte c = 0;\n  if (!bus_read(a, &c))\n    return -1;\n'
    "  return bus_write(a, b + c) ? b + c : -2;\n}\n",
    "main.c": '#include "bus.h"\nint add(byte a, byte b);\nstatic int tries;\nint twice(int a)\n{\n  if (a < 0 || a > 99)\n    return 0;\n  tries++;\n'
    "  int first = add((byte) a, 1);\n  return first + add((byte) a, 2);\n}\n",
}


def stubs_with_arguments_answer_the_original(folder: str) -> Iterator[bool]:
    """Several sources, of which the tests include one: stubs, as fshell driver writes them, get their values from the inputs."""
    put(folder, STUBBED)
    yield run(folder, ["driver", "-", "main.c", "sum.c", "--stubs", "stubs.c"]).returncode == 0
    sources = ["main.c", "sum.c", "stubs.c"]
    told = run(folder, ["adapt", *sources, "-o", "made"]).stdout.splitlines()[-1].split()[1:]
    report = subprocess.run([PROGRAM, "generate", "twice", QUERY, *told], cwd=folder, capture_output=True, text=True)
    put(folder, {"report.txt": report.stdout})
    # (two parts of the first condition, one of each other one, two edges each)
    yield report.stdout.splitlines()[-1] == "covered 8 refuted 0 undecided 0 of 8"
    run(folder, ["inputs", "report.txt", "-o", "in.json"])
    ended = run(folder, ["adapt", *sources, "-o", "made", "--harness", "twice", "in.json"])
    yield ended.stdout.splitlines()[-1] == "wrote made/tests.c: compile it with -fwrapv sum.c stubs.c"
    words = [
        "gcc",
        "-fwrapv",
        "-Wall",
        "-Wextra",
        "-Werror",
        "--coverage",
        "-o",
        "tests",
        "made/tests.c",
        "sum.c",
        "stubs.c",
    ]
    yield subprocess.run(words, cwd=folder).returncode == 0
    tests = subprocess.run(["./tests"], cwd=folder, capture_output=True, text=True)
    yield tests.returncode == 0 and tests.stdout.count("\nok ") >= 3
    # (another original: the value that is written is another one, so that what the entry returns differs)
    put(
        folder,
        {
            "sum.c": '#include "bus.h"\nint add(byte a, byte b)\n{\n  byte c = 0;\n  bus_read(a, &c);\n  return b - c;\n}\n'
        },
    )
    yield subprocess.run(words, cwd=folder).returncode == 0
    yield subprocess.run(["./tests"], cwd=folder, capture_output=True).returncode == 1


def of_module(given: Given) -> Callable[[str], Iterator[bool]]:
    """The case of a module: whether its whole way is right."""
    name, words, entry, bounds = given

    def made(folder: str) -> Iterator[bool]:
        return way(folder, name, words, entry, bounds)

    made.__name__ = f"the module {name}"
    return made


def a_changed_original_fails(folder: str) -> Iterator[bool]:
    """The tests of an original with another constant fail."""
    with open(os.path.join(MODULES, "pid.c"), encoding="utf-8") as file:
        text = file.read()
    put(folder, {"pid.c": text, "in.txt": "700 80 0\n-5 3 1\n"})
    words = ["adapt", "pid.c", *WAYS[2][1], "-o", "made"]
    yield run(folder, [*words, "--harness", "pid_step", "in.txt"]).returncode == 0
    put(folder, {"pid.c": text.replace("FIXED(-10, 0)", "FIXED(-11, 0)").replace("FIXED(1, 50)", "FIXED(1, 40)")})
    compiled = subprocess.run(["gcc", "-fwrapv", "-w", "-o", "tests", "made/tests.c"], cwd=folder)
    tests = subprocess.run(["./tests"], cwd=folder, capture_output=True, text=True)
    yield compiled.returncode == 0 and tests.returncode == 1 and "\nnot ok" in tests.stdout


TRIED = [(NEEDS, without_gcc), (NEEDS, many_blocks_on_a_line), (NEEDS, labels_stand_before_statements), (NEEDS, bounds_are_those_that_suffice),
         (NEEDS, nothing_is_left_half_written), ((), without_pycparser), *((NEEDS, of_table(path)) for path in TABLES),
         *((NEEDS, of_module(given)) for given in WAYS), (NEEDS, a_changed_original_fails), (NEEDS, stubs_with_arguments_answer_the_original)]  # fmt: skip
