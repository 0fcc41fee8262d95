"""The cases of fshell rte: planted faults that C11 and gcc's sanitizer name too, a module that has none, and which operation is which."""

import itertools
import json
import os
import subprocess
from collections.abc import Callable, Iterator, Sequence
from typing import Any

from tests import environment
from tests.models.gcc import loading
from tests.tools import Case, put, run, told

GRAPH = ("graph",)
BAD = """int table[4] = {1, 2, 3, 4};
int ratio(int a, int b) {
  return a / b;
}
int f(unsigned char a, unsigned char n) {
  int s = 0;
  if (n < 5) {
    s = table[n];
  }
  if (a <= 32 && n > 0) {
    s += 1u << a;
  }
  assert(a != 77);
  return s + ratio(100, n);
}
"""
# each fault is repaired where it was planted: 0 for n, 4 as an index of 4 elements, a shift by 32 bits, and 77
GOOD = (
    BAD.replace("n < 5", "n < 4")
    .replace("a <= 32", "a < 32")
    .replace("a != 77", "a <= 255")
    .replace("return s + ratio(100, n)", "return n ? s + ratio(100, n) : s")
)
# C11 6.5.5p5, 6.5.6p8, 6.5.7p3, 7.2.1.1: the operation, and which inputs end there though those before didn't
PLANTED: dict[str, tuple[str, str, Callable[[int, int], bool]]] = {
    "a.c:3:12": ("division a / b", "trapped zero-divisor", lambda a, n: n == 0 and a != 77),
    "a.c:8:14": ("index table[n]", "trapped index", lambda a, n: n == 4),
    "a.c:11:13": ("shift 1u << a", "trapped shift", lambda a, n: a == 32 and n not in (0, 4)),
    "a.c:13:3": ("assert(a != 77)", "trapped assert", lambda a, n: a == 77 and n != 4),
}
SUFFICE = "the bounds suffice: no run at all leaves them\n"
MISSING = (
    "not looked at: signed overflow (fshell adapt --check-overflow); "
    "assumes that fail and calls that are too deep (--ends any)"
)
LOOP = "int f(int n) {\n  int s = 8;\n  for (int i = 0; i < n; i++) {\n    s = 8 / (i + 1);\n  }\n  return s;\n}\n"
DEAD = "int f(unsigned char n) {\n  if (n > 300) {\n    return 1 / n;\n  }\n  return 0;\n}\n"
STRICT = "int a[4];\nint in(void);\nint f(unsigned char x) {\n  if (x < 4) {\n    a[x] = in();\n  }\n  return 0;\n}\n"
# where x is 0, the body of h may come before the division or not; what stands on other lines doesn't hang on that
TWO_TRAPS = """int a[4];
int h(int y) {
  return a[y & 3];
}
int f(int x, unsigned char y) {
  int s = 9 / (y + 1);
  s += 8 / x + h(y);
  return s + a[y & 3];
}
"""
# the same in a declaration, in the head of a loop, and in a condition
IN_OTHER_FORMS = """int a[4] = {2, 3, 4, 5};
int h(int y) {
  return a[y & 3];
}
int f(int x, unsigned char y) {
  int s = 8 / x + h(y);
  if (a[y & 3] > 1) {
    for (int i = 8 % y + h(y); i < 3; i++) {
      s += a[i & 3];
    }
    s += a[y & 1];
  }
  if (7 / (y - 3) > h(y)) {
    s += a[y & 2];
  }
  return s + a[y & 3];
}
"""
VALUE = "int g = 1;\nint h(void) {\n  g = 5;\n  return 1;\n}\nint f(unsigned char y) {\n  int k = g + h();\n  return 8 / (y + 1) + k;\n}\n"
# C may read g before h sets it (6.5p3)
OTHER_FAILS = """int g;
int h(void) { g = 1; return 0; }
int f(unsigned char n) {
  while (n > 2) {
    n = n - 1;
  }
  return 1 / g + h();
}
"""
CONSTANTS = """enum { FOUR = 4 };
int t[8];
int f(int x, long z, int y) {
  int a = x / FOUR;
  a += t[7] + 5 / y + t[8 - 1] + (x >> 31);
  a = (int)(z >> 40) + 7 % y;
  a >>= 3;
  return a;
}
"""
# each constant is the first that may fail (C11 6.5.5p5, p6, 6.5.6p8, 6.5.7p3): none of these is `never` by its text
CONSTANTS_THAT_FAIL = """int t[8];
int f(unsigned char k, int x, long z) {
  if (k == 0) { return x % -1; }
  if (k == 1) { return t[8]; }
  if (k == 2) { return x << 32; }
  if (k == 3) { return z >> 64 == 0; }
  if (k == 4) { return x / 0; }
  if (k == 5) { return (x < z) << 32; }
  if (k == 6) { return 1 << 32; }
  if (k == 7) { return (int)z >> 40; }
  return t[7] + (int)(z << 63) + (int)(1L << 40);
}
"""
ENDS = "int deep(int n) {\n  return deep(n);\n}\nint f(int x) {\n  assume(x != 3);\n  return x == 5 ? deep(x) : 0;\n}\n"


def one(name: str, text: str, words: Sequence[str], status: int, stdout: str | None) -> Case:
    """A case of one source."""
    return Case(
        f"rte: {name}", ["rte", "f", "a.c", "-o", "d", *words], {"a.c": text}, status, stdout, written=None, needs=GRAPH
    )


CASES = [
    one("a run that leaves the bounds", LOOP, ["--turns", "2"], 1, None),
    one("what isn't reached", DEAD, [], 1, told("a.c:3:14: not reached: division 1 / n", SUFFICE[:-1], MISSING, "rows 1: 1 not reached")),
    one("nothing that can fail", "int f(int x) {\n  return x;\n}\n", [], 0, told(SUFFICE[:-1], MISSING, "rows 0")),
    one("a constant expression", "int f(int x) {\n  int a[8 / 2] = {1};\n  return a[x & 3];\n}\n", [], 0,
        told("a.c:3:11: never: index a[x & 3]", SUFFICE[:-1], MISSING, "rows 1: 1 never")),
    one("an order of evaluation in which nothing fails", STRICT, [], 0,
        told("a.c:5:6: never: index a[x]", SUFFICE[:-1], MISSING, "rows 1: 1 never")),
    one("the order of evaluation of a statement in which something fails", TWO_TRAPS, [], 1, told(
        "a.c:3:11: open: index a[y & 3]: C leaves the order of evaluation open at a.c:7:8 (strict)",
        "a.c:6:13: never: division 9 / (y + 1)", "a.c:7:10: fails: division 8 / x: trapped zero-divisor by the input args 0 0",
        "  to repeat it: d/failures 1", "a.c:8:15: never: index a[y & 3]", SUFFICE[:-1],
        "failures are repeated by gcc -w -fsanitize=undefined -fno-sanitize-recover=all -fwrapv -o d/failures d/failures.c", MISSING, "rows 4: 2 never, 1 fails, 1 open")),
    one("the order of evaluation on which a value hangs", VALUE, [], 1, told(
        "a.c:8:12: open: division 8 / (y + 1): C leaves the order of evaluation open at a.c:7:11 (value)",
        SUFFICE[:-1], "no refuted goal is called unreachable: C leaves the order of evaluation open at a.c:7:11 (value)",
        MISSING, "rows 1: 1 open")),
    one("another order of evaluation fails, and runs leave the bounds", OTHER_FAILS, ["--turns", "1"], 1, None),
    one("constants", CONSTANTS, [], 1, told(
        "a.c:4:13: never: division x / FOUR: by its constant alone", "a.c:5:9: never: index t[7]: by its constant alone",
        "a.c:5:17: fails: division 5 / y: trapped zero-divisor by the input args 0 0 0", "  to repeat it: d/failures 1",
        "a.c:5:24: never: index t[8 - 1]: by its constant alone", "a.c:5:37: never: shift x >> 31: by its constant alone",
        "a.c:6:15: never: shift z >> 40: by its constant alone", "a.c:6:26: never: remainder 7 % y",
        "a.c:7:5: never: shift a >>= 3: by its constant alone", SUFFICE[:-1],
        "failures are repeated by gcc -w -fsanitize=undefined -fno-sanitize-recover=all -fwrapv -o d/failures d/failures.c",
        MISSING, "rows 8: 7 never, 1 fails")),
    one("constants that fail", CONSTANTS_THAT_FAIL, [], 1, None),
    Case("rte: no such entry", ["rte", "g", "a.c", "-o", "d"], {"a.c": DEAD}, 2, "", "rte: no function is called g\n", needs=GRAPH),
    Case("rte: no such file", ["rte", "f", "no.c", "-o", "d"], {}, 2, "", "rte: no.c: No such file or directory\n", needs=GRAPH),
    Case("rte: what isn't read", ["rte", "f", "a.c", "-o", "d"], {"a.c": "int f(void) { return *p; }\n"}, 2, "",
         "rte: fshell graph: error 20 Syntax a.c:1\n", needs=GRAPH),
    Case("rte: an entry with an array", ["rte", "f", "a.c", "-o", "d"], {"a.c": "int f(int p[2]) { return p[0]; }\n"}, 2, "", None,
         needs=GRAPH),
]  # fmt: skip


def wrong_words(folder: str) -> Iterator[bool]:
    """What isn't called as it is told is one line behind the usage, and status 2."""
    for words in ("", "f", "f a.c", "f a.c -o d --ends returned", "f a.c -o d --turns x"):
        ended = run(folder, ["rte", *words.split()])
        yield ended.returncode == 2 and ended.stdout == "" and ended.stderr.splitlines()[-1].startswith(
            "fshell rte: error: "
        )
        yield not os.path.exists(os.path.join(folder, "d"))


def report(folder: str, name: str = "d") -> Any:
    """The JSON of a folder."""
    with open(os.path.join(folder, name, "rte.json"), encoding="utf-8") as file:
        return json.load(file)


def program(folder: str, *words: str) -> subprocess.CompletedProcess[str]:
    """How the program ends in a folder."""
    return subprocess.run([environment.LAUNCHER, *words], cwd=folder, capture_output=True, text=True)


def planted_faults_are_red(folder: str) -> Iterator[bool]:
    """Each is told at its place with an input of the set that C11 gives by hand, which `runs` ends so."""
    put(folder, {"a.c": BAD})
    ended = run(folder, ["rte", "f", "a.c", "-o", "d"])
    rows = report(folder)["rows"]
    yield ended.returncode == 1 and [row["place"] for row in rows] == list(PLANTED)
    for row in rows:
        what, end, is_right = PLANTED[row["place"]]
        args = row["input"]["args"]
        yield (row["what"], row["verdict"], row["end"]) == (what, "fails", end) and is_right(*args)
        put(folder, {"in": " ".join(map(str, args)) + "\n"})
        yield program(folder, "runs", "f", "in", "a.c").stdout.startswith(f"input 1 {end} ")
        yield f"{row['place']}: fails: {what}: {end} by the input args {args[0]} {args[1]}\n" in ended.stdout
    with open(os.path.join(folder, "d", "inputs.json"), encoding="utf-8") as file:
        yield [made["args"] for made in json.load(file)] == [row["input"]["args"] for row in rows]


def gcc_says_the_same(folder: str) -> Iterator[bool]:
    """gcc's sanitizer stops each of these inputs at the same line and column, and an assert by itself."""
    put(folder, {"a.c": BAD, "m.c": "#include <assert.h>\n#include <stdlib.h>\n#include \"a.c\"\n"
                 "int main(int c, char **v) { return f(atoi(v[1]), atoi(v[2])) == -1; }\n"})  # fmt: skip
    run(folder, ["rte", "f", "a.c", "-o", "d"])
    words = ["gcc", "-w", "-fwrapv", "-fsanitize=undefined", "-fno-sanitize-recover=all", "m.c", "-o", "m"]
    subprocess.run(words, cwd=folder, check=True)
    for row in report(folder)["rows"]:
        args = [str(arg) for arg in row["input"]["args"]]
        ended = subprocess.run(["./m", *args], cwd=folder, capture_output=True, text=True)
        is_assert = row["operations"][0]["kind"] == "assert"
        due = "a.c:13: f: Assertion `a != 77' failed" if is_assert else f"{row['place']}: runtime error: "
        yield ended.returncode != 0 and due in ended.stderr


def certificates_stand_alone(folder: str) -> Iterator[bool]:
    """The repaired module has no fault: each certificate is accepted by a process of its own, and none lacks but the exit's."""
    put(folder, {"a.c": GOOD})
    ended = run(folder, ["rte", "f", "a.c", "-o", "d"])
    places = ["a.c:3:12: never: division a / b", "a.c:8:14: never: index table[n]", "a.c:11:13: never: shift 1u << a",
              "a.c:13:3: never: assert(a <= 255)"]  # fmt: skip
    yield (ended.returncode, ended.stdout, ended.stderr) == (
        0,
        told(*places, SUFFICE[:-1], MISSING, "rows 4: 4 never"),
        "",
    )
    yield program(folder, "check-bounds", "f", "d/bounds.cert", "a.c").returncode == 0
    query = "cover NODES(ID)$"
    goals = [line.split(" ", 2)[1:] for line in program(folder, "goals", query, "a.c").stdout.splitlines()[1:]]
    graph = program(folder, "graph", "a.c").stdout
    (exit_node,) = [line.split()[-1] for line in graph.splitlines() if line.startswith("function 1 f ")]
    for number, text in goals:
        path = f"d/certificates/{number}.cert"
        is_exit = text.startswith(f"n{exit_node}@")
        yield os.path.exists(os.path.join(folder, path)) != is_exit
        yield is_exit or program(folder, "check", "f", query, number, path, "a.c", "--ends", "trapped").returncode == 0


def a_folder_goes_on(folder: str) -> Iterator[bool]:
    """What is there is checked again; what is wrong is made anew, and another question is refused."""
    put(folder, {"a.c": GOOD, "b.c": DEAD})
    first = run(folder, ["rte", "f", "a.c", "-o", "d"])
    for name in ("bounds.cert", "certificates/1.cert"):
        path = os.path.join(folder, "d", name)
        with open(path, encoding="ascii") as file:
            good = file.read()
        for bad in (good.replace("\n", "\n1 ", 2), ""):
            put(folder, {os.path.join("d", name): bad})
            again = run(folder, ["rte", "f", "a.c", "-o", "d"])
            yield (again.returncode, again.stdout) == (0, first.stdout)
            with open(path, encoding="ascii") as file:
                yield file.read() == good
    for words in (["f", "a.c", "--turns", "5"], ["ratio", "a.c"], ["f", "b.c"], ["f", "a.c", "--ends", "any"]):
        ended = run(folder, ["rte", *words, "-o", "d"])
        yield (ended.returncode, ended.stdout) == (2, "") and len(ended.stderr.splitlines()) == 1
    put(folder, {"a.c": BAD})
    ended = run(folder, ["rte", "f", "a.c", "-o", "d"])
    yield ended.returncode == 2 and "changed since" in ended.stderr


def an_input_that_is_wrong_isnt_told(folder: str) -> Iterator[bool]:
    put(folder, {"a.c": BAD})
    first = run(folder, ["rte", "f", "a.c", "-o", "d"])
    made = json.loads(json.dumps(report(folder)))
    with open(os.path.join(folder, "d", "generated.json"), encoding="utf-8") as file:
        value = json.load(file)
    for row in value["inputs"]:
        row["args"] = [1, 5]  # which returns
    put(folder, {"d/generated.json": json.dumps(value) + "\n"})
    again = run(folder, ["rte", "f", "a.c", "-o", "d"])
    yield first.returncode == again.returncode == 1 and "args 1 5" not in again.stdout
    yield len(made["rows"]) == 4 and " never" not in again.stdout


def bounds_that_are_left(folder: str) -> Iterator[bool]:
    """8 / (i + 1) divides by no 0, but a run with n above 2 has more turns; so nothing is said beyond the bounds."""
    put(folder, {"a.c": LOOP})
    ended = run(folder, ["rte", "f", "a.c", "-o", "d", "--turns", "2"])
    lines = ended.stdout.splitlines()
    yield ended.returncode == 1 and lines[0] == "a.c:4:11: never within the bounds: division 8 / (i + 1)"
    yield lines[1].startswith("the bounds don't suffice: turn 3 of the loop at a.c:3, by the input args ")
    yield lines[-1] == "rows 1: 1 never within the bounds" and not os.path.exists(
        os.path.join(folder, "d", "bounds.cert")
    )


def an_order_restricts_its_statement(folder: str) -> Iterator[bool]:
    """Also where it is a declaration, the begin of a loop or a condition; of an `if` the whole is the statement."""
    put(folder, {"a.c": IN_OTHER_FORMS})
    run(folder, ["rte", "f", "a.c", "-o", "d"])
    rows = {row["place"].removeprefix("a.c:"): row for row in report(folder)["rows"]}
    fails, open_ones = {"6:13", "8:20", "13:9"}, {"3:11", "14:11"}
    yield {place for place, row in rows.items() if row["verdict"] == "fails"} == fails
    yield {place for place, row in rows.items() if row["verdict"] == "open"} == open_ones
    yield {place for place, row in rows.items() if row["verdict"] == "never"} == {"7:8", "9:13", "11:11", "16:15"}
    yield rows["14:11"]["why"] == "C leaves the order of evaluation open at a.c:13:7 (strict)"


def constants_that_fail(folder: str) -> Iterator[bool]:
    """Of a constant that may fail nothing is said by the text: a run ends at each of these, by hand."""
    put(folder, {"a.c": CONSTANTS_THAT_FAIL})
    run(folder, ["rte", "f", "a.c", "-o", "d"])
    rows = report(folder)["rows"]
    yield [row["input"]["args"][0] for row in rows if row["verdict"] == "fails"] == list(range(8))
    yield [row["verdict"] for row in rows[8:]] == ["never"] * 3


def another_order_fails(folder: str) -> Iterator[bool]:
    """Within the bounds another order of evaluation divides by 0, so nothing is said of these either."""
    put(folder, {"a.c": OTHER_FAILS})
    ended = run(folder, ["rte", "f", "a.c", "-o", "d", "--turns", "1"])
    (row,) = report(folder)["rows"]
    why = "C leaves the order of evaluation open at a.c:7:10 (value)"
    yield (ended.returncode, row["verdict"], row["why"]) == (1, "open", why)
    yield "the bounds don't suffice" in ended.stdout


def any_ends(folder: str) -> Iterator[bool]:
    """With any ends an assume that fails and a call that is too deep are told too."""
    put(folder, {"a.c": ENDS})
    ended = run(folder, ["rte", "f", "a.c", "-o", "d", "--ends", "any", "--frames", "64"])
    rows = {row["place"]: row for row in report(folder)["rows"]}
    yield ended.returncode == 1 and set(rows) == {"a.c:2:10", "a.c:5:3", "a.c:6:19"}
    yield (rows["a.c:5:3"]["verdict"], rows["a.c:5:3"]["end"], rows["a.c:5:3"]["input"]["args"]) == (
        "fails",
        "blocked",
        [3],
    )
    yield rows["a.c:5:3"]["what"] == "assume(x != 3)"
    yield (rows["a.c:2:10"]["what"], rows["a.c:2:10"]["end"], rows["a.c:2:10"]["input"]["args"]) == (
        "call deep(n)",
        "too-deep",
        [5],
    )
    yield (rows["a.c:6:19"]["what"], rows["a.c:6:19"]["verdict"]) == ("call deep(x)", "never")


def a_budget_that_is_spent(folder: str) -> Iterator[bool]:
    """3 is odd, so 17 alone has 3 * 17 = 51 (in 32 bits); one move of the search doesn't find it, and a greater budget goes on."""
    put(folder, {"a.c": "int f(int x) {\n  assert(x * 3 != 51);\n  return x;\n}\n"})
    first = run(folder, ["rte", "f", "a.c", "-o", "d", "--budget", "1"])
    yield first.returncode == 1 and first.stdout.startswith(
        "a.c:2:3: open: assert(x * 3 != 51): its budget was spent\n"
    )
    second = run(folder, ["rte", "f", "a.c", "-o", "d"])
    yield second.returncode == 1 and second.stdout.startswith(
        "a.c:2:3: fails: assert(x * 3 != 51): trapped assert by the input args 17\n"
    )


# operations of one step, with their verdicts by hand: x is 0; y & 7 is above 3; y is -1, where y & 7 is 7; the rest never
APART = """int t[4] = {1, 2, 3, 4};
int id(int x) { return x; }
int f(int x, int y) {
  return 4 / x + t[y & 7] + t[4 / (y + 1) & 3] + (y >> (x & 31)) + 9 % 4;
}
int g(int x, int y) {
  x %= y + 3 << (y & 1);
  return 4 / id(x) + t[id(y) & 3] + x % 7;
}
int h(int x, int y) {
  assert(8 / x != y % 5);
  t[x & 3] = 1 << y;
  return 0;
}
int twice(int y) {
  return t[y] + t[y] + t[y & 3];
}
"""
OF_APART = {
    "twice": [("16:11", "fails"), ("16:25", "never")],
    "f": [("4:12", "fails"), ("4:19", "fails"), ("4:30", "never"), ("4:33", "open"), ("4:53", "never"), ("4:70", "never")],
    "g": [("7:5", "fails"), ("7:14", "never"), ("8:12", "fails"), ("8:23", "open"), ("8:39", "never")],
    "h": [("11:3", "fails"), ("11:12", "fails"), ("11:21", "never"), ("12:4", "never"), ("12:16", "fails")],
}  # fmt: skip


def operations_of_one_step(folder: str) -> Iterator[bool]:
    """They are told apart where their operands are plain: one that fails has an input of its own, at which no other one fails."""
    put(folder, {"a.c": APART})
    for entry, due in OF_APART.items():
        ended = run(
            folder,
            ["rte", entry, "a.c", "-o", entry, "--confirm"] if entry != "g" else ["rte", entry, "a.c", "-o", entry],
        )
        rows = report(folder, entry)["rows"]
        yield [(row["place"].removeprefix("a.c:"), row["verdict"]) for row in rows] == due
        yield (ended.returncode, ended.stderr) == (1, "")
        yield run(folder, ["rte", entry, "a.c", "-o", entry]).stdout.count(": ") > 5
    yield report(folder, "twice")["rows"][0]["what"] == "one of index t[y], index t[y] (a.c:16:18)"
    whys = [row["why"] for entry in "fg" for row in report(folder, entry)["rows"] if row["verdict"] == "open"]
    yield whys == [
        "it fails only where another operation of the same step does",
        "another operation of the same step fails",
    ]


def what_is_told_apart_is_right(folder: str) -> Iterator[bool]:
    """By all inputs of a small range, each evaluated by hand in C's way: whose operations fail alone, and which never do."""
    put(folder, {"a.c": APART})
    run(folder, ["rte", "f", "a.c", "-o", "f"])
    rows = {row["place"].removeprefix("a.c:"): row for row in report(folder, "f")["rows"]}
    fails: dict[str, Callable[[int, int], bool]] = {
        "4:12": lambda x, y: x == 0,
        "4:19": lambda x, y: y & 7 > 3,
        "4:33": lambda x, y: y == -1,
    }
    for place in ("4:12", "4:19"):
        args = rows[place]["input"]["args"]
        yield [one for one, of in fails.items() if of(*args)] == [place]
    # its certificates stand in a folder of its own, and are accepted by a process of its own
    one = rows["4:30"]
    with open(os.path.join(folder, "f", one["folder"], "campaign.json"), encoding="utf-8") as file:
        query = json.load(file)["query"]
    yield one["folder"].startswith("apart/") and len(one["goals"]) == 2
    for goal in one["goals"]:
        path = os.path.join("f", one["folder"], "certificates", f"{goal}.cert")
        yield program(folder, "check", "f", query, str(goal), path, "a.c", "--ends", "trapped").returncode == 0


# ---- which operation is done at which node: each line has an input, by hand, that ends at the operation whose mark is told

FORMS = """int t[4] = {1, 2, 3, 4};
int id(int x) { return x; }
int f(int k, int x) {
  int v[2] = {12, 13};
  if (k == 1 && 7 / x > 2 || k == 1 && 9 % x) { k = 50; }
  if (!(k == 2 && 8 / x)) { v[0] = 3; }
  if (k == 3) { v[1] = id(5 / x) + id(3); }
  if (k == 4) { v[0] = x ? 1 : 6 % x; }
  if (k == 5) { v[0] = x && id(1 << x); }
  if (k == 6) { t[x] += 2; }
  if (k == 7) { t[1] /= x; }
  if (k == 8) { for (int i = 0; i < 4 >> x; i++) { v[0]++; } }
  if (k == 9) { switch (5 / x) { case 4 / 2: v[0] = 1; } }
  if (k == 10) { while (t[x]) { return id(t[x]); } }
  if (k == 11) { do { v[0] = 1; } while (3 % x); }
  if (k == 12) { return (x ? 2 : 3) / x; }
  if (k == 13) { assert(4 / x != 4); }
  if (k == 14) { int p = id(3), q = 5 / x; }
  if (k == 15) {} else if (k == 16 && id(8 / x) > 1) { v[0] = 1; }
  if (k == 17) { int p = 7 % x, q = k / x; }
  if (k == 18) { v[0] = x > 1 ? t[x] : x ? 1 << x : k % x; }
  return v[1];
}
"""
AT = [(1, 0, "5:19"), (2, 0, "6:21"), (3, 0, "7:29"), (4, 0, "8:34"), (5, 32, "9:34"), (6, 4, "10:18"), (7, 0, "11:22"),
      (8, 32, "12:39"), (9, 0, "13:27"), (10, 4, "14:26"), (11, 0, "15:44"), (12, 0, "16:37"), (13, 0, "17:27"), (13, 1, "17:18"),
      (14, 0, "18:39"), (16, 0, "19:44"), (17, 0, "20:28"),
      (18, 4, "21:34"), (18, -1, "21:46"), (18, 0, "21:55")]  # fmt: skip


def found_by(folder: str, text: str, ends: str = "trapped") -> tuple[list[Any], Any]:
    """The operations of a source, and its automaton."""
    put(folder, {"a.c": text})
    from fshell_tools.core import graph
    from fshell_tools.rte import failing_operations

    here = os.getcwd()
    os.chdir(folder)
    try:
        made = graph.of_sources(["a.c"])
        return failing_operations.of_sources(made, "f", ["a.c"], ends), made
    finally:
        os.chdir(here)


def ends_of(folder: str, graph: Any, inputs: Sequence[Sequence[int]]) -> Iterator[tuple[str, int]]:
    """How the run of each input ends, and at which node."""
    put(folder, {"in": "".join(" ".join(map(str, args)) + "\n" for args in inputs)})
    for line in program(folder, "runs", "f", "in", "a.c").stdout.splitlines():
        words, _, edges = line.partition(" edges")
        last = edges.split()[-1:]
        yield " ".join(words.split()[2:]), graph.edges[int(last[0])].target if last else graph.function("f").entry


def operations_have_their_nodes(folder: str) -> Iterator[bool]:
    """A run that an operation ends by hand stands at one of its nodes, and where several have it, all are of the same statement."""
    operations, graph = found_by(folder, FORMS)
    from fshell_tools.rte.failing_operations import CAUSES

    yield [one.place for one in operations if one.place == "a.c:13:36"] == []  # (4 / 2 is constant)
    for (k, x, due), (end, node) in zip(AT, ends_of(folder, graph, [(k, x) for k, x, _ in AT])):
        there = [one for one in operations if node in one.nodes and one.kind in CAUSES.get(end, ())]
        yield f"a.c:{due}" in [one.place for one in there]
        yield len({one.line for one in there}) == 1
        yield [one.place for one in there] == [f"a.c:{due}"]  # (also where a statement has several steps)


def each_trap_has_its_operation(folder: str) -> Iterator[bool]:
    """Over all inputs of a small range no run is trapped where no operation of that kind is known."""
    operations, graph = found_by(folder, FORMS)
    from fshell_tools.rte.failing_operations import CAUSES

    inputs = list(itertools.product(range(0, 19), (-2, -1, 0, 1, 2, 4, 31, 32)))
    ends = [(end, node) for end, node in ends_of(folder, graph, inputs) if end.startswith("trapped")]
    yield len(ends) > 20
    yield all(any(node in one.nodes and one.kind in CAUSES[end] for one in operations) for end, node in ends)


# statements behind an `else`, and what is done in their conditions and arguments
BEHIND_ELSE = """int id(int x) { return x; }
int f(int k, int x) {
  int r = 0;
  if (k < 0) { r = 1; } else { r = 2; }
  switch (k == 1 ? 100 / x : 0) { case 1: r = 3; break; default: r = 4; }
  if (k < 0) { r = 1; } else if (k == 0) { r = 2; } else { r = 5; }
  if (k == 2 && id(9 % x) > 1) { r = 3; } else r = 6;
  if (k == 3) { r = id(7 / x); }
  if (r) { if (k) { r = 1; } else { r = 2; } } else { r = 3; }
  while (k == 4 && r < id(6 / x)) { r++; }
  if (k == 6) { r = 2; } else switch (k) { case 5: r = 5 / x; }
  if (k == 7) r = 4 / x;
  return r;
}
"""


def behind_an_else(folder: str) -> Iterator[bool]:
    """A statement behind an `else` is one of its own: each division there fails where x is 0, by hand, and none is `never`."""
    put(folder, {"a.c": BEHIND_ELSE})
    run(folder, ["rte", "f", "a.c", "-o", "d"])
    rows = report(folder)["rows"]
    places = ["5:24", "7:22", "8:26", "10:29", "11:58", "12:21"]
    yield [(row["place"], row["verdict"]) for row in rows] == [(f"a.c:{place}", "fails") for place in places]
    yield [(row["input"]["args"][0], row["input"]["args"][1]) for row in rows] == [(k, 0) for k in (1, 2, 3, 4, 5, 7)]


def edges_are_those_of_the_program(folder: str) -> Iterator[bool]:
    """An automaton that differs in one field of one edge from what the sources are read as is refused, whichever it is."""
    import dataclasses

    from fshell_tools.core import graph as graphs
    from fshell_tools.core.program import Failure
    from fshell_tools.order import statements, tokens
    from fshell_tools.rte import lowering

    put(folder, {"a.c": BEHIND_ELSE})
    here = os.getcwd()
    os.chdir(folder)
    try:
        graph = graphs.of_sources(["a.c"])
        words = tokens.of_sources(["a.c"])
        unit = statements.unit_of(words)
    finally:
        os.chdir(here)
    yield len(lowering.of_unit(unit, graph, words).steps) == len(graph.edges)
    changes: list[dict[str, Any]] = [
        {"source": 9}, {"target": 1}, {"line": 3}, {"column": 4}, {"kind": "FOR"}, {"operation": "skip"}, {"reads": ("r",)},
        {"writes": ("k",)},
    ]  # fmt: skip
    for number, edge in enumerate(graph.edges):
        for change in changes:
            other = dataclasses.replace(edge, **change)
            if other == edge:
                continue
            graph.edges[number] = other
            try:
                lowering.of_unit(unit, graph, words)
                yield False
            except Failure as failure:
                yield f"edge {number} at " in str(failure)
        graph.edges[number] = edge
    last = graph.edges.pop()
    try:
        lowering.of_unit(unit, graph, words)
        yield False
    except Failure as failure:
        yield "more or fewer edges" in str(failure)
    graph.edges.append(last)


def a_step_without_operation(folder: str) -> Iterator[bool]:
    """Where a run ends at a node of which no such operation is known, no row of that function is `never`, and those of others are."""
    from fshell_tools.core.reports import Input
    from fshell_tools.core.verdicts import Limits
    from fshell_tools.rte.rows import Rows
    from fshell_tools.rte.search import Failed, Known

    operations, graph = found_by(
        folder,
        "int t[4];\nint g(int y) { return t[y & 3]; }\nint f(int x) {\n  int a = t[x & 3] + t[1];\n  return 8 / x + g(a);\n}\n",
    )
    (division,) = [one for one in operations if one.kind == "division"]
    (node,) = division.nodes
    refuted = {number for one in operations for number in one.nodes} - {node}
    for end in ("trapped zero-divisor", "trapped index", "trapped assert"):
        known = Known({one: one for one in range(len(graph.nodes))}, refuted, {node: Failed(Input((0,), ()), end)}, {})
        rows = Rows(graph, operations, known, Limits(suffice=True)).rows()
        verdicts = {row.place: row.verdict for row in rows}
        if end == "trapped zero-divisor":
            yield verdicts == {"a.c:2:24": "never", "a.c:4:12": "never", "a.c:4:23": "never", "a.c:5:12": "fails"}
        else:
            yield verdicts == {
                "a.c:2:24": "never",
                "a.c:4:12": "open",
                "a.c:4:23": "open",
                "a.c:5:12": "open",
                "a.c:5": "fails",
            }


# ---- what was never set (C11 6.3.2.1p2, 6.9.1p12): of each program its rows by hand, with the inputs that fail

Inputs = Callable[[int], bool] | None
UNSET: list[tuple[str, str, list[tuple[str, str, str, Inputs]]]] = [
    ("one arm", "int f(int i) {\n  int x;\n  if (i > 3) { x = 1; }\n  return x;\n}\n",
     [("4:10", "read of x", "fails", lambda i: i <= 3)]),
    ("both arms", "int f(int i) {\n  int x;\n  if (i > 3) { x = 1; } else { x = 2; }\n  return x;\n}\n", []),
    ("the same condition", "int f(int i) {\n  int x;\n  if (i > 3) { x = 1; }\n  if (i > 4) { return x; }\n  return 0;\n}\n",
     [("4:23", "read of x", "never", None)]),
    ("a condition", "int f(int i) {\n  int x;\n  if (i > 3) { x = 1; }\n  if (i < 9 && x) { i = 1; }\n  return i;\n}\n",
     [("4:16", "read of x", "fails", lambda i: i <= 3)]),
    ("arguments", "int id(int y) { return y; }\nint f(int i) {\n  int x;\n  if (i != 5) { x = 1; }\n  return id(x);\n}\n",
     [("5:13", "read of x", "fails", lambda i: i == 5)]),
    ("a compound assignment", "int f(int i) {\n  int x;\n  x += i;\n  return x;\n}\n", [("3:3", "read of x", "fails", lambda i: True)]),
    ("a step", "int f(int i) {\n  int x;\n  if (i == 2) { x = 1; }\n  x++;\n  return x;\n}\n", [("4:3", "read of x", "fails", lambda i: i != 2)]),
    ("an index", "int t[4];\nint f(int i) {\n  int x;\n  if (i == 2) { x = 1; }\n  t[x & 3] = i;\n  return t[2];\n}\n",
     [("5:4", "index t[x & 3]", "never", None), ("5:5", "read of x", "fails", lambda i: i != 2), ("6:11", "index t[2]", "never", None)]),
    ("a step that is trapped", "int f(int i) {\n  int x;\n  if (i) { x = 1; }\n  return 8 / x;\n}\n",
     [("4:12", "division 8 / x", "fails", lambda i: i == 0), ("4:14", "read of x", "fails", lambda i: i == 0)]),
    ("a loop that always sets", "int f(int i) {\n  int x;\n  for (int k = 0; k < 2; k++) { x = k; }\n  return x + i;\n}\n",
     [("4:10", "read of x", "never", None)]),
    ("a new object each turn", "int f(int i) {\n  int s = 0;\n  for (int k = 0; k < 2; k++) {\n    int x;\n    if (k == 0 || i == 4) { x = 1; }\n    s += x;\n  }\n  return s;\n}\n",
     [("6:10", "read of x", "fails", lambda i: i != 4)]),
    ("an object around the turns", "int f(int i) {\n  int s = 0;\n  int x;\n  for (int k = 0; k < 2; k++) {\n    if (k == 0) { x = 1; }\n    s += x;\n  }\n  return s + i;\n}\n",
     [("6:10", "read of x", "never", None)]),
    ("a switch passes by the declaration", "int f(int i) {\n  switch (i) { case 1: int x = 3; break; case 2: return x; default: x = 2; }\n  return 0;\n}\n",
     [("2:57", "read of x", "open", None)]),
    ("its own initializer", "int f(int i) {\n  int x = x + i;\n  return x;\n}\n", [("2:11", "read of x", "open", None)]),
    ("its own initializer, each turn", "int f(int i) {\n  while (i > 0) {\n    int x = 1;\n    { int x = x + 1; i = 0; }\n    i = x - 1;\n  }\n  return i;\n}\n",
     [("4:15", "read of x", "open", None)]),
    ("a name declared twice", "int f(int i) {\n  int x = 1;\n  int s;\n  {\n    int x;\n    if (i > 3) { x = 2; }\n    s = x;\n  }\n  return x + s;\n}\n",
     [("7:9", "read of x", "open", None)]),
    ("a function that recurs", "int f(unsigned char i) {\n  int x;\n  if (i > 0) { x = f(i - 1); }\n  return x;\n}\n",
     [("4:10", "read of x", "open", None)]),
    ("elements", "int f(int i) {\n  int a[2];\n  a[0] = i;\n  return a[1];\n}\n",
     [("2:7", "reads of elements of a", "open", None), ("3:4", "", "never", None), ("4:11", "", "never", None)]),
    ("elements that are lent", "int g(int p[2]) { return p[0]; }\nint f(int i) {\n  int a[2];\n  return g(a) + i;\n}\n",
     [("1:27", "", "never", None), ("3:7", "reads of elements of a", "open", None)]),
    ("elements with a list", "int f(int i) {\n  int a[2] = {1};\n  return a[i & 1];\n}\n", [("3:11", "", "never", None)]),
    ("no return", "int g(int i) {\n  if (i > 3) { return 1; }\n}\nint f(int i) {\n  g(i);\n  return g(i + 1);\n}\n",
     [("6:10", "use of the result of g", "fails", lambda i: i + 1 <= 3 or i == 2**31 - 1)]),
    ("no return that isn't used", "int g(int i) {\n  if (i > 3) { return 1; }\n}\nint f(int i) {\n  g(i);\n  return i;\n}\n", []),
    ("no return by another call", "int g(int i) {\n  if (i > 3) { return 1; }\n}\nint f(int i) {\n  g(i);\n  return g(5);\n}\n",
     [("6:10", "use of the result of g", "open", None)]),
    ("a return behind each test", "int g(int i) {\n  if (i > 3) { return 1; }\n  if (i <= 3) { return 2; }\n}\nint f(int i) {\n  return g(i);\n}\n",
     [("6:10", "use of the result of g", "never", None)]),
    ("a loop without an end", "int f(int i) {\n  while (1) {\n    if (i < 1000) { return i; }\n    i = 0;\n  }\n}\n", []),
    ("the entry ends without a value", "int f(int i) {\n  if (i > 3) { return 1; }\n}\n", [("1:5", "use of the result of f", "fails", lambda i: i <= 3)]),
    ("the last call", "void h(void) {}\nint f(int i) {\n  if (i > 3) { return 1; }\n  h();\n}\n", [("2:5", "use of the result of f", "fails", lambda i: i <= 3)]),
    ("a switch without default", "int f(int i) {\n  switch (i & 1) { case 0: return 3; case 1: return 4; }\n}\n",
     [("1:5", "use of the result of f", "never", None)]),
]  # fmt: skip


def what_was_never_set(folder: str) -> Iterator[bool]:
    """Each read that may be of an object that was never set has a row, and each result that may be none; others have none."""
    for number, (_, text, due) in enumerate(UNSET):
        put(folder, {f"{number}.c": text})
        ended = run(folder, ["rte", "f", f"{number}.c", "-o", f"d{number}"])
        rows = report(folder, f"d{number}")["rows"]
        found = [(row["place"].partition(":")[2], row["verdict"]) for row in rows]
        yield found == [(place, verdict) for place, _, verdict, _ in due]
        yield ended.returncode == int(any(verdict != "never" for _, _, verdict, _ in due))
        for row, (_, what, _, is_right) in zip(rows, due):
            yield what in row["what"]
            yield is_right is None or is_right(*row["input"]["args"])


def main_needs_no_return(folder: str) -> Iterator[bool]:
    """The result of `main` is 0 where it ends without a `return` (C11 5.1.2.2.3)."""
    put(folder, {"a.c": "int main(void) {\n}\n"})
    ended = run(folder, ["rte", "main", "a.c", "-o", "d"])
    yield (ended.returncode, report(folder)["rows"]) == (0, [])


def certificates_of_what_was_never_set(folder: str) -> Iterator[bool]:
    """A read that is never of an unset object has certificates that `check` accepts in a process of its own."""
    for number, (_, text, due) in enumerate(UNSET[:3]):
        put(folder, {"a.c": text})
        run(folder, ["rte", "f", "a.c", "-o", str(number)])
    (row,) = report(folder, "2")["rows"]
    with open(os.path.join(folder, "2", row["folder"], "campaign.json"), encoding="utf-8") as file:
        query = json.load(file)["query"]
    yield len(row["goals"]) == 1 and row["verdict"] == "never"
    path = os.path.join("2", row["folder"], "certificates", f"{row['goals'][0]}.cert")
    yield program(folder, "check", "f", query, str(row["goals"][0]), path, "a.c", "--ends", "any").returncode == 0


def what_isnt_looked_at(folder: str) -> Iterator[bool]:
    """Each report says what it leaves out: the text, rte.json, rte.sarif and the page."""
    put(folder, {"a.c": "int g(int x) { return x; }\n" + DEAD})
    missing = MISSING.removeprefix("not looked at: ").split("; ")
    others = "functions that f doesn't call (g)"
    ways = [(list[str](), [*missing, others]), (["--ends", "any", "--frames", "64"], [missing[0], others])]
    for words, due in ways:
        ended = run(folder, ["rte", "f", "a.c", "-o", f"d{len(words)}", *words])
        yield f"not looked at: {'; '.join(due)}\n" in ended.stdout
        yield report(folder, f"d{len(words)}")["not_looked_at"] == due
        with open(os.path.join(folder, f"d{len(words)}", "rte.sarif"), encoding="utf-8") as file:
            yield json.load(file)["runs"][0]["properties"] == {"notLookedAt": due}


def random_programs(folder: str) -> Iterator[bool]:
    """Of ten programs of models/gcc/error_verdicts each row is as gcc's sanitizers and the marks at reads say, over all inputs."""
    made = loading.load("error_verdicts")
    for seed in range(1, 11):
        agree, _, wrong = made.tried(seed, ["gcc"])
        yield agree > 0 and wrong == []


TRIED = [(("graph", "gcc"), random_programs), (GRAPH, what_was_never_set), (GRAPH, main_needs_no_return), (GRAPH, certificates_of_what_was_never_set),
         (GRAPH, what_isnt_looked_at), (GRAPH, wrong_words), (GRAPH, constants_that_fail), (GRAPH, another_order_fails), (GRAPH, behind_an_else),
         (GRAPH, edges_are_those_of_the_program), (GRAPH, a_step_without_operation),
         (GRAPH, planted_faults_are_red), (("graph", "gcc"), gcc_says_the_same),
         (GRAPH, certificates_stand_alone), (GRAPH, a_folder_goes_on), (GRAPH, an_input_that_is_wrong_isnt_told),
         (GRAPH, bounds_that_are_left), (GRAPH, an_order_restricts_its_statement), (GRAPH, any_ends), (GRAPH, a_budget_that_is_spent),
         (("graph", "gcc"), operations_of_one_step), (GRAPH, what_is_told_apart_is_right), (GRAPH, operations_have_their_nodes),
         (GRAPH, each_trap_has_its_operation)]  # fmt: skip
