"""The cases of fshell adapt --check-overflow and --check-conversions with fshell rte: what is written of each form and where its operator
stands, the modules of examples/rte with the verdicts that their comments say, which gcc's sanitizers confirm and certificates show, and
what is made of the rows: SARIF, a page, a C file that repeats failures."""

import json
import os
import re
import subprocess
from collections.abc import Callable, Iterator
from typing import Any

from tests import environment
from tests.tools import example, put, run
from tests.tools.test_rte import program, report

ADAPT = ("graph", "pycparser", "gcc")
# each form with what is written, and the places of the operators, by hand: line, column, what, and the operation
FORMS = """#include <stdint.h>
#define TWICE(x) ((x) + (x))
enum { GREATEST = 2147483647 };
static int t[4];
int f(int a, long b, uint8_t u, unsigned w) {
  int c = a + (a) * 3;
  c += a - -a;
  c++; --c;
  c = a << u | u << 8;
  b = b * a -
      u;
  t[u & 3]++;
  t[a + 1] -= a;
  w += w << 3; w++;
  c = u * u + 1 - 'a';
  c = GREATEST + 1;
  u += 1;
  for (int i = 0; i < 3; i++) { c -= i; }
  if (u > 1 && c * c > 4) { c = TWICE(a); }
  return (a > 0 ? -c : c) / (u + 1);
}
"""
WRITTEN = """#include <stdint.h>

enum { GREATEST = 2147483647 };
static int t[4];
int f(int a, long b, uint8_t u, unsigned w) {
  int c = checked_add_int(a, checked_multiply_int(a, 3));
  c = checked_add_int(c, checked_subtract_int(a, checked_negate_int(a)));
  c = checked_add_int(c, 1); c = checked_subtract_int(c, 1);
  c = checked_shift_int(a, u) | u << 8;
  b = checked_subtract_long(checked_multiply_long(b, a),
  u);
  t[u & 3] = checked_add_int(t[u & 3], 1);
  int index_1 = checked_add_int(a, 1); t[index_1] = checked_subtract_int(t[index_1], a);
  w += w << 3; w++;
  c = u * u + 1 - 'a';
  c = checked_add_int(GREATEST, 1);
  u += 1;
  for (int i = 0; i < 3; i = checked_add_int(i, 1)) { c = checked_subtract_int(c, i); }
  if (u > 1 && checked_multiply_int(c, c) > 4) { c = checked_add_int(a, a); }
  return (a > 0 ? checked_negate_int(c) : c) / (u + 1);
}
"""
PLACES = [
    "6:13 overflow a + a * 3", "6:19 overflow a * 3", "7:5 overflow c += a - (-a)", "7:10 overflow a - (-a)", "7:12 overflow -a",
    "8:4 overflow c++", "8:8 overflow --c", "9:9 shift a << u", "10:13 overflow b * a - u", "10:9 overflow b * a",
    "12:11 overflow t[u & 3]++", "13:7 overflow a + 1", "13:12 overflow t[a + 1] -= a", "16:16 overflow GREATEST + 1",
    "18:27 overflow i++", "18:35 overflow c -= i", "19:18 overflow c * c", "19:3 overflow a + a", "20:19 overflow -c",
]  # fmt: skip
NARROW = """#include <stdint.h>
static uint8_t kept;
static uint8_t half(uint8_t x) { return x / 2; }
int g(int a, unsigned b) {
  uint8_t u = a;
  int8_t s = -1;
  uint16_t w = 70000;
  u++;
  u += b;
  kept = a & 255;
  s = half(a) + (int8_t) a;
  a = b;
  return b;
}
"""
NARROWED = """#include <stdint.h>
static uint8_t kept;
static uint8_t half(uint8_t x) { return x / 2; }
int g(int a, unsigned b) {
  uint8_t u = checked_uint8(a);
  int8_t s = -1;
  uint16_t w = checked_uint16(70000);
  u = checked_uint8(u + 1);
  u = checked_uint8(u + b);
  kept = a & 255;
  s = checked_int8(half(checked_uint8(a)) + (int8_t) a);
  a = checked_int32(b);
  return checked_int32(b);
}
"""
# parts of a union, and bit-fields, whose values are those of their widths
PARTS = """union u { unsigned int word; unsigned char b[4]; unsigned short h; };
static union u v;
struct bits { unsigned a : 3; int b : 5; unsigned long long c : 20; };
static struct bits s;
void f(int n) {
  v.b[1] = n;
  v.h = n + 1;
  v.b[0] += n;
  v.b[2]++;
  v.b[3] = n & 255;
  v.word = n;
}
int g(int n) {
  s.a = n;
  s.b = n;
  s.a++;
  s.a = n & 7;
  s.c = n;
  return s.a + s.b;
}
"""
PARTS_WRITTEN = """static uint32_t v_w;
static uint8_t s_a; static int8_t s_b; static int32_t s_c;
void f(int n) {
  v_w = v_w & ~((uint32_t) 0xffu << 8) | (uint32_t) (uint8_t) checked_uint8(n) << 8;
  v_w = v_w & ~((uint32_t) 0xffffu) | (uint32_t) (uint16_t) checked_uint16(n + 1);
  v_w = v_w & ~((uint32_t) 0xffu) | (uint32_t) (uint8_t) checked_uint8((unsigned char) v_w + n);
  v_w = v_w & ~((uint32_t) 0xffu << 16) | (uint32_t) (uint8_t) checked_uint8((unsigned char) (v_w >> 16) + 1) << 16;
  v_w = v_w & ~((uint32_t) 0xffu << 24) | (uint32_t) (uint8_t) (n & 255) << 24;
  v_w = checked_uint32(n);
}
int g(int n) {
  s_a = checked_uint3(n);
  s_b = checked_int5(n);
  s_a = checked_uint3(s_a + 1);
  s_a = (n & 7) & 0x7;
  s_c = checked_uint20(n);
  return s_a + s_b;
}
"""


def adapted(folder: str, text: str, *words: str) -> tuple[str, list[dict[str, Any]]]:
    """What adapt writes of a source, and the rows of its table."""
    put(folder, {"a.c": text})
    ended = run(folder, ["adapt", "a.c", "-o", "ad", *words])
    if ended.returncode:
        return ended.stderr, []
    with open(os.path.join(folder, "ad", "a.c"), encoding="utf-8") as file:
        written = file.read()
    with open(os.path.join(folder, "ad", "overflow.json"), encoding="utf-8") as file:
        return written, json.load(file)["calls"]


def without_blanks(text: str) -> list[str]:
    """The lines of a text, each with one blank in place of several."""
    return [" ".join(line.split()) for line in text.splitlines()]


def each_form_is_a_call(folder: str) -> Iterator[bool]:
    """What can overflow is a call, what can't stays as it is; and each call is told at its operator in the original."""
    written, rows = adapted(folder, FORMS, "--check-overflow")
    for one, due in zip(without_blanks(written), without_blanks(WRITTEN), strict=True):
        yield one == due
    told = [f"{row['place'].removeprefix('a.c:')} {row['what']} {row['text']}" for row in rows]
    yield told == PLACES
    yield adapted(folder, FORMS, "--check-overflow") == (written, rows)
    put(
        folder,
        {
            "overflow.h": "int own(int x) { return x + 1; }\n",
            "b.c": '#include "overflow.h"\nint f(int x) { return own(x); }\n',
        },
    )
    ended = run(folder, ["adapt", "b.c", "-o", "two", "--check-overflow"])
    yield (ended.returncode, ended.stderr) == (2, "adapt: two files are named overflow.h\n")
    for row in rows:
        line = written.splitlines()[row["line"] - 1]
        yield line[row["column"] - 1 :].startswith(row["function"] + "(")


def conversions_are_calls(folder: str) -> Iterator[bool]:
    """With --check-conversions a conversion that may lose the value is a call, and a cast isn't."""
    written, rows = adapted(folder, NARROW, "--check-conversions")
    yield without_blanks(written) == without_blanks(NARROWED)
    yield {row["what"] for row in rows} == {"conversion"} and rows[0]["place"] == "a.c:5:15"
    parts, _ = adapted(folder, PARTS, "--check-conversions")
    yield [line for line in without_blanks(parts) if line] == without_blanks(PARTS_WRITTEN)
    adapted(folder, NARROW, "--check-conversions")
    ended = run(folder, ["rte", "g", "ad/overflow.h", "ad/a.c", "-o", "d"])
    found = {row["place"]: row["verdict"] for row in report(folder)["rows"] if "place" in row}
    # 70000 never fits, so nothing behind it is reached
    yield ended.returncode == 1 and (found["a.c:5:15"], found["a.c:7:16"], found["a.c:12:7"]) == (
        "fails",
        "fails",
        "not reached",
    )


def words_that_go_together(folder: str) -> Iterator[bool]:
    put(folder, {"a.c": FORMS})
    ended = run(folder, ["adapt", "a.c", "-o", "ad", "--check-overflow", "--compare", "3"])
    yield ended.returncode == 2 and ended.stderr == (
        "adapt: --compare compares what is written without --check-overflow and --check-conversions\n"
    )
    yield not os.path.exists(os.path.join(folder, "ad"))
    put(folder, {"b.c": "int f(unsigned x) { return x / 2; }\n"})
    yield run(folder, ["adapt", "b.c", "-o", "new", "--check-overflow"]).returncode == 0
    yield not {"overflow.h", "overflow.json"} & set(os.listdir(os.path.join(folder, "new")))  # (nothing can overflow)


def a_broken_table_is_told(folder: str) -> Iterator[bool]:
    adapted(folder, "int f(int a) {\n  return a + 1;\n}\n", "--check-overflow")
    for text in ("", "[]", '{"functions": 1, "calls": []}'):
        put(folder, {"ad/overflow.json": text})
        ended = run(folder, ["rte", "f", "ad/overflow.h", "ad/a.c", "-o", "d"])
        yield (ended.returncode, ended.stdout, ended.stderr) == (
            2,
            "",
            "rte: ad/overflow.json isn't what fshell adapt wrote\n",
        )
    # without the table the asserts of the header are rows
    os.remove(os.path.join(folder, "ad", "overflow.json"))
    ended = run(folder, ["rte", "f", "ad/overflow.h", "ad/a.c", "-o", "e"])
    yield ended.returncode == 1 and ended.stdout.startswith("ad/overflow.h:5:3: fails: assert(")


# ---- the modules of examples/rte


def verdicts_of(text: str) -> dict[int, str]:
    """What the comments behind lines say of their operations; a line without one has operations that never fail."""
    return {number: found[1] for number, line in enumerate(text.splitlines(), 1)
            if (found := re.search(r"/\* (never|fails|not reached|open) \*/", line))}  # fmt: skip


def eight_of_each_verdict(folder: str) -> Iterator[bool]:
    """And sixteen that are open, eight of them since C leaves the order open by which they are called."""
    text = example("rte/gauge.c")
    put(folder, {"gauge.c": text})
    ended = run(folder, ["rte", "gauge", "gauge.c", "-o", "d"])
    due = verdicts_of(text)
    rows = report(folder)["rows"]
    yield ended.returncode == 1 and "rows 40: 8 never, 8 fails, 8 not reached, 16 open\n" in ended.stdout
    yield all(row["verdict"] == due[int(row["place"].split(":")[1])] for row in rows)
    yield {int(row["place"].split(":")[1]) for row in rows} == set(due)


def scale(folder: str) -> tuple[bool, list[dict[str, Any]], str]:
    """The rows of examples/rte/scale.c."""
    put(folder, {"scale.c": example("rte/scale.c")})
    made = run(folder, ["adapt", "scale.c", "-o", "ad", "--check-overflow"])
    ended = run(folder, ["rte", "measure", "ad/overflow.h", "ad/scale.c", "-o", "d", "--confirm"])
    return made.returncode == 0 and ended.returncode == 1, report(folder)["rows"], ended.stdout


# what was planted, by hand: the line, the kind, gcc's word, and which inputs reach it (raw, channel, count)
PLANTED: dict[int, tuple[str, str, Callable[[int, int, int], bool]]] = {
    18: ("index", "runtime error: index 4 out of bounds", lambda raw, channel, count: channel == 4),
    19: ("overflow", "runtime error: signed integer overflow", lambda raw, channel, count: channel == 3 and raw * 40000 > 2147483647),
    31: ("division", "runtime error: division by zero", lambda raw, channel, count: count == 0),
    39: ("shift", "runtime error: shift exponent 32 is too large", lambda raw, channel, count: count == 32),
}  # fmt: skip


def planted_faults_are_red(folder: str) -> Iterator[bool]:
    """Each at its line, with an input of the set that C11 gives by hand; the original, compiled by gcc with its sanitizers, says the
    same of that input at that line. All other operations are green."""
    went, rows, stdout = scale(folder)
    fails = {int(row["place"].split(":")[1]): row for row in rows if row["verdict"] == "fails"}
    yield went and set(fails) == set(PLANTED) == {
        line for line, one in verdicts_of(example("rte/scale.c")).items() if one == "fails"
    }
    put(folder, {"m.c": '#include <stdlib.h>\n#include "scale.c"\nint main(int c, char **v) '
                 "{ return measure(atoi(v[1]), atoi(v[2]), atoi(v[3])) == -1; }\n"})  # fmt: skip
    words = ["gcc", "-w", "-fsanitize=undefined", "-fno-sanitize-recover=all", "m.c", "-o", "m"]
    yield subprocess.run(words, cwd=folder, check=False).returncode == 0
    for line, (kind, word, is_right) in PLANTED.items():
        row, args = fails[line], fails[line]["input"]["args"]
        yield row["operations"][0]["kind"] == kind and is_right(*args)
        ended = subprocess.run(["./m", *map(str, args)], cwd=folder, capture_output=True, text=True)
        yield ended.returncode != 0 and f"scale.c:{line}:" in ended.stderr and word in ended.stderr
        yield row["gcc"] in word.replace("runtime error: ", "") or row["gcc"].startswith(
            word.replace("runtime error: ", "")
        )
        yield f"  to repeat it: d/failures {row['failure']}\n  gcc: {row['gcc']}\n" in stdout
    yield len(rows) == 12 and all(row["verdict"] == "never" for row in rows if row not in fails.values())
    # all rows are told as the original has them, by the map beside what was written
    yield all(row["place"].startswith("scale.c:") for row in rows) and fails[18][
        "what"
    ] == "index channels.gain[channel]"
    run(folder, ["page", "d", "-o", "p.html"])
    with open(os.path.join(folder, "p.html"), encoding="utf-8") as file:
        yield re.findall("<h2>(.*?)</h2>", file.read()) == ["scale.c"]


def green_rows_are_certified(folder: str) -> Iterator[bool]:
    """Each certificate of each green row is accepted by `check`, and that of the bounds by `check-bounds`, each in a process of its
    own that is told nothing else; a certificate of another goal isn't."""
    _, rows, _ = scale(folder)
    sources = ["ad/overflow.h", "ad/scale.c"]
    yield program(folder, "check-bounds", "measure", "d/bounds.cert", *sources).returncode == 0
    tried = set()
    for row in rows:
        inner = row.get("folder", "")
        with open(os.path.join(folder, "d", inner, "campaign.json"), encoding="utf-8") as file:
            query = json.load(file)["query"]
        for goal in row["goals"] if row["verdict"] == "never" else []:
            path = os.path.join("d", inner, "certificates", f"{goal}.cert")
            words = ["check", "measure", query, str(goal), path, *sources, "--ends", "trapped"]
            if (inner, goal) not in tried:
                yield program(folder, *words).returncode == 0
            tried.add((inner, goal))
    yield len(tried) >= 8 and {inner for inner, _ in tried} == {"", "overflow"}
    words[3] = str(goal + 1)
    yield program(folder, *words).returncode != 0


def failures_are_repeated(folder: str) -> Iterator[bool]:
    """failures.c is compiled by the command that is told, alone, and each number ends as its row says."""
    put(folder, {"a.c": "int in(void);\nint t[3];\nint f(int x) {\n  assert(x != 7);\n  int y = in();\n  if (x == 8) {\n    return t[y];\n  }\n"
                 "  if (x == 9) {\n    return 5 % y;\n  }\n  return 0;\n}\n"})  # fmt: skip
    ended = run(folder, ["rte", "f", "a.c", "-o", "d"])
    how = next(line for line in ended.stdout.splitlines() if line.startswith("failures are repeated by "))
    yield subprocess.run(how.removeprefix("failures are repeated by ").split(), cwd=folder).returncode == 0
    due = {
        "assert": "a.c:4: an assert failed",
        "index": "out of bounds for type 'int [3]'",
        "remainder": "division by zero",
    }
    rows = report(folder)["rows"]
    yield [row["operations"][0]["kind"] for row in rows] == list(due)
    for row in rows:
        said = subprocess.run(["d/failures", str(row["failure"])], cwd=folder, capture_output=True, text=True)
        yield said.returncode != 0 and due[row["operations"][0]["kind"]] in said.stdout + said.stderr
    for word in ("0", "4", "x", ""):
        yield subprocess.run(["d/failures", word], cwd=folder, capture_output=True).returncode == 2


def other_programs_read_it(folder: str) -> Iterator[bool]:
    """SARIF has a result for each row that isn't green, at its place, with the level of its rule."""
    put(folder, {"gauge.c": example("rte/gauge.c")})
    run(folder, ["rte", "gauge", "gauge.c", "-o", "d"])
    rows = [row for row in report(folder)["rows"] if row["verdict"] != "never"]
    with open(os.path.join(folder, "d", "rte.sarif"), encoding="utf-8") as file:
        log = json.load(file)
    (one,) = log["runs"]
    yield log["version"] == "2.1.0" and one["originalUriBaseIds"]["SRCROOT"][
        "uri"
    ] == f"file://{os.path.realpath(folder)}/"
    levels = {"fails": "error", "open": "warning", "not reached": "note"}
    yield len(one["results"]) == len(rows) == 32
    for result, row in zip(one["results"], rows):
        place = result["locations"][0]["physicalLocation"]
        told = f"{place['artifactLocation']['uri']}:{place['region']['startLine']}:{place['region']['startColumn']}"
        yield (told, result["level"]) == (row["place"], levels[row["verdict"]])
        yield result["message"]["text"].startswith(f"{row['verdict']}: {row['what']}")
        yield one["tool"]["driver"]["rules"][result["ruleIndex"]]["id"] == result["ruleId"]


def a_page_has_each_row(folder: str) -> Iterator[bool]:
    """Each row with its verdict by a word, a sign and a colour of its own; a mark at each line; commands that check, as they stand."""
    put(folder, {"gauge.c": example("rte/gauge.c")})
    run(folder, ["rte", "gauge", "gauge.c", "-o", "d"])
    ended = run(folder, ["page", "d", "-o", "p.html"])
    counts = "8 fails, 16 open, 0 never within the bounds, 8 not reached, 8 never"
    yield (ended.returncode, ended.stdout) == (0, f"p.html: 40 operations, {counts}\n")
    with open(os.path.join(folder, "p.html"), encoding="utf-8") as file:
        text = file.read()
    yield "http" not in text.replace("http-equiv", "") and text.count('<tr id="row-') == 40
    for mark, sign in (("never", "✓"), ("fails", "✗"), ("within", "⊘"), ("open", "?"), ("unreached", "∅")):
        yield f'.tag.{mark}::before {{ content: "{sign}' in text and text.count(f'class="tag {mark} of-{mark}"') == {
            "open": 16,
            "within": 0,
        }.get(mark, 8)
    commands = [line for line in re.findall(r"<pre>(.*?)</pre>", text) if line.startswith("fshell check")][:3]
    for line in commands:
        plain = line.replace("&#39;", "'").replace("&gt;", ">").replace("&lt;", "<").replace("&amp;", "&")
        said = subprocess.run(
            plain.replace("fshell", environment.LAUNCHER, 1), cwd=folder, shell=True, capture_output=True
        )
        yield said.returncode == 0
    yield len(commands) == 3
    ended = run(folder, ["page", "d", "d", "-o", "q.html"])
    yield (ended.returncode, ended.stderr) == (2, "page: a folder of fshell rte is a page of its own\n")
    put(folder, {"d/rte.json": "{}"})
    ended = run(folder, ["page", "d", "-o", "q.html"])
    yield (ended.returncode, ended.stderr) == (2, "page: d has no whole rte.json\n")


def colours_have_contrast(folder: str) -> Iterator[bool]:
    from tests.tools.test_page import contrast

    with open(
        os.path.join(environment.ROOT, "python", "fshell_tools", "coverage", "page", "rte.html"), encoding="utf-8"
    ) as file:
        text = file.read()
    themes = [
        dict(re.findall(r"--([a-z]+): (#[0-9a-f]{6});", rest))
        for rest in re.findall(r"color-scheme: (?:light|dark);(.*?)[}{]", text, re.DOTALL)
    ]
    yield len(themes) == 2
    for theme in themes:
        for mark in ("never", "fails", "within", "open", "unreached"):
            yield contrast(theme[mark], theme["on"]) >= 4.5 and contrast(theme[mark], theme["ground"]) >= 3
        yield contrast(theme["text"], theme["ground"]) >= 4.5 and contrast(theme["quiet"], theme["ground"]) >= 4.5


def a_stopped_run_goes_on(folder: str) -> Iterator[bool]:
    """What was found stays where a run is killed, with any number of jobs; the rows are those of a run that wasn't."""
    put(folder, {"gauge.c": example("rte/gauge.c")})
    whole = run(folder, ["rte", "gauge", "gauge.c", "-o", "whole"]).stdout.replace("whole/", "d/")
    for seconds in (0.3, 0.8):
        command = [os.path.join(environment.ROOT, "bin", "fshell"), "rte", "gauge", "gauge.c", "-o", "d", "--jobs", "2"]
        try:
            subprocess.run(command, cwd=folder, capture_output=True, timeout=seconds)
        except subprocess.TimeoutExpired:
            pass
    again = run(folder, ["rte", "gauge", "gauge.c", "-o", "d", "--jobs", "1"])
    yield again.stdout == whole
    with open(os.path.join(folder, "d", "machine", "jobs"), encoding="ascii") as file:
        yield file.read() == "1\n"
    yield run(folder, ["rte", "gauge", "gauge.c", "-o", "e", "--jobs", "0"]).returncode == 2


GRAPH = ("graph",)
# by hand: the location of each operation in the original, whose first function begins on line 1
MODEL_IN_FRONT = """int f(int n) {
  int s = abs(n);
  s += 100 / (n - 5);
  return s + n * 7;
}
"""
ON_ONE_LINE = "int g(int x) { if (x) { return 2; } } int f(int n) { return n + g(n); }\n"


def models_keep_lines(folder: str) -> Iterator[bool]:
    """A model of the library in front takes no statement off its line, and each checked operation has its own location, also behind a
    function that ends without a `return`."""
    for text, due in ((MODEL_IN_FRONT, ["3:5", "3:15", "3:17", "4:12", "4:16"]), (ON_ONE_LINE, ["1:63"])):
        put(folder, {"a.c": text})
        run(folder, ["adapt", "a.c", "-o", "ad", "--check-overflow"])
        with open(os.path.join(folder, "ad", "a.c"), encoding="utf-8") as file:
            lines = file.read().splitlines()
        yield len(lines) == text.count("\n") and all("return" not in line for line in lines[1:3])
        run(folder, ["rte", "f", "ad/overflow.h", "ad/a.c", "-o", f"d{len(due)}"])
        with open(os.path.join(folder, f"d{len(due)}", "rte.json"), encoding="utf-8") as file:
            rows = json.load(file)["rows"]
        places = [row["place"] for row in rows if row["operations"][0]["kind"] in ("overflow", "division", "call")]
        yield [place for place in places if place != "a.c:1:1"] == [f"a.c:{one}" for one in due]


TRIED = [(ADAPT, models_keep_lines), (ADAPT, each_form_is_a_call), (ADAPT, conversions_are_calls), (ADAPT, words_that_go_together), (ADAPT, a_broken_table_is_told),
         (GRAPH, eight_of_each_verdict), ((*ADAPT, "jinja2"), planted_faults_are_red), (ADAPT, green_rows_are_certified),
         (("graph", "gcc"), failures_are_repeated), (GRAPH, other_programs_read_it), (("graph", "jinja2"), a_page_has_each_row),
         ((), colours_have_contrast), (GRAPH, a_stopped_run_goes_on)]  # fmt: skip
