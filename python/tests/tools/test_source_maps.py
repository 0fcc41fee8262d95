"""The cases of the map beside what fshell adapt writes: every report shows the user's own files, lines, texts and names."""

import json
import os
import re
import shutil
from collections.abc import Callable, Iterator, Sequence

from tests import environment
from tests.tools import captured, example, put, run
from tests.tools.test_page import DATA

HEADER = "#define LIMIT 30\n#define WITHIN(x, low, high) ((x) >= (low) && (x) <= (high))\ntypedef enum { OFF, ON = 4 } mode_t;\ntypedef struct { int level; mode_t mode; } tank_t;\n"
TANK = """#include "tank.h"

static tank_t tank; /* what is measured */
int sensor(void);
static int tries;

static int next(const tank_t *from, int more)
{
  return from->level + more;
}

int step(int rate)
{
  if (rate > LIMIT) /* too fast */
    return -1;
  tank.level = next(&tank, rate);
  switch (tank.mode) {
  case OFF:
    if (WITHIN(tank.level, 3, LIMIT))
      tank.mode = ON;
    break;
  case ON:
    while (tries++ < 3 &&
           sensor() > tank.level)
      tank.level += 2;
    break;
  default:
    break;
  }
  for (int i = 0; i < 2; i++)
    tank.level -= i;
  return tank.level ? 1 : 0;
}
"""
# the conditions by hand: the line of the part, and its text
CONDITIONS = [
    ("14", "rate > LIMIT"), ("18", "case OFF"), ("22", "case ON"), ("19", "WITHIN(tank.level, 3, LIMIT)"), ("19", "WITHIN(tank.level, 3, LIMIT)"),
    ("23", "tries++ < 3"), ("24", "sensor() > tank.level"), ("30", "i < 2"), ("32", "tank.level"),
]  # fmt: skip
FILES = {"src/tank.h": HEADER, "src/tank.c": TANK}
QUERY = "cover @CONDITIONEDGE"
NEEDS = ("gcc", "pycparser")


def adapted(folder: str, files: dict[str, str] = FILES, source: str = "src/tank.c") -> list[str]:
    """The sources that fshell adapt writes, in the program's order."""
    put(folder, files)
    return run(folder, ["adapt", source, "-o", "made"]).stdout.splitlines()[-1].split()[1:]


def guards(told: str) -> list[tuple[str, str]]:
    """The line and the text of each guard of truth that fshell explain tells, in their order."""
    return re.findall(r"^  e\d+ \S+?:(\d+):\d+ \w+: (.*?) is true(?:, in|$)", told, re.MULTILINE)


def explain_shows_what_the_user_wrote(folder: str) -> Iterator[bool]:
    sources = adapted(folder)
    told = run(folder, ["explain", QUERY, *sources]).stdout
    yield sorted(guards(told)) == sorted(CONDITIONS)
    yield "made/" not in told and set(re.findall(r"(\S+?):\d+:\d+ ", told)) == {"src/tank.c"}
    # the statement behind each: that of the user, with its head whole
    statements = {line: text for line, text in re.findall(r":(\d+):\d+ \w+: .* is true, in (.*)", told)}
    yield statements["14"] == "if (rate > LIMIT)" and statements["30"] == "for (int i = 0; i < 2; i++)"
    yield statements["23"] == statements["24"] == "while (tries++ < 3 && sensor() > tank.level)"
    yield statements["18"] == "switch (tank.mode)" and statements["32"] == "return tank.level ? 1 : 0"
    told = run(folder, ["explain", "cover ID", *sources]).stdout
    yield "src/tank.c:16:3 step: calls next, in tank.level = next(&tank, rate)" in told


def columns_are_those_of_the_user(folder: str) -> Iterator[bool]:
    """Where the word of a condition stands: `rate` behind `if (`, `WITHIN` likewise, `tank.level` behind `return `."""
    told = run(folder, ["explain", QUERY, *adapted(folder)]).stdout
    places = dict(re.findall(r" src/tank.c:(\d+):(\d+) ", told))
    yield (places["14"], places["19"], places["24"], places["32"]) == ("7", "9", "12", "10")


def a_condition_with_an_assignment_begins_at_its_bracket(folder: str) -> Iterator[bool]:
    source = "typedef int word;\nint in(void);\nint f(int x)\n{\n  word w;\n  if ((w = in()) != x && -w < 9)\n    return w;\n  return 0;\n}\n"
    told = run(folder, ["explain", QUERY, *adapted(folder, {"f.c": source}, "f.c")]).stdout
    yield re.findall(r" f.c:6:(\d+) f: (.*?) is true", told) == [("7", "(w = in()) != x"), ("26", "-w < 9")]


def each_report_names_the_original(folder: str) -> Iterator[bool]:
    """lcov, MC/DC, the page and a harness; the lines of the whole are those of the user's own file."""
    sources = adapted(folder)
    put(folder, {"in.json": '[{"args": [40]}, {"args": [5], "answers": []}, {"args": [0]}]'})
    own = os.path.join(folder, "src", "tank.c")
    traced = run(folder, ["lcov", "step", "in.json", *sources]).stdout
    yield re.findall("^SF:(.*)", traced, re.MULTILINE) == [own]
    yield {"DA:14,3", "DA:15,1", "DA:16,2", "DA:20,1"} <= set(traced.splitlines()) and "FN:12,step" in traced
    told = run(folder, ["mcdc", "step", *sources, "--inputs", "in.json"]).stdout
    yield "src/tank.c:14:7 step: if (rate > LIMIT)" in told and "condition 1: sensor() > tank.level: " in told and "made/" not in told
    text = run(folder, ["harness", "step", "in.json", *sources]).stdout
    yield '#line 1 "src/tank.c"' in text
    put(folder, {"report": run(folder, ["generate", "step", QUERY, *sources]).stdout})
    shown = [word for name in sources for word in ("--source", name)]
    yield run(folder, ["page", "report", "-o", "page.html", *shown, "--entry", "step"]).returncode == 0
    with open(os.path.join(folder, "page.html"), encoding="utf-8") as file:
        page = file.read()
    data = json.loads(captured(DATA, page))
    labels = {data["labels"][goal["l"][0]] for goal in data["goals"]}
    yield labels == {f"{line} {text}: {truth}" for line, text in CONDITIONS for truth in ("true", "false")}
    yield 'title="src/tank.c"' in page and "/* what is measured */" in page and "tank_level" not in page
    yield '<a href="#l1:12">step</a>' in page


def bounds_and_orders_name_the_original(folder: str) -> Iterator[bool]:
    source = (
        "typedef struct { int n; } box_t;\nstatic box_t box;\nint in(void);\nstatic int up(void) { box.n++; return box.n; }\n"
        "int f(int x) {\n  while (in() > x)\n    box.n += x;\n  return box.n;\n}\n"
    )
    sources = adapted(folder, {"box.c": source}, "box.c")
    put(folder, {"report": run(folder, ["generate", "f", "cover @LINE(7)", *sources, "--turns", "0"]).stdout})
    told = run(folder, ["explain", "report", *sources, "--entry", "f"]).stdout
    yield "turn 1 of the loop at box.c:6, by" in told and "made/" not in told
    for name in ("can.c", "can.h"):
        shutil.copy(os.path.join(environment.ROOT, "examples", "modules", name), folder)
    told = run(folder, ["order", "can_receive", *adapted(folder, {}, "can.c")]).stdout
    place = [int(captured(pattern, told)) for pattern in (r"\Acan\.c:(\d+):\d+: warning: end: ", r"\Acan\.c:\d+:(\d+)")]
    with open(os.path.join(folder, "can.c"), encoding="utf-8") as file:
        line = file.read().split("\n")[place[0] - 1]
    yield line[place[1] - 1 :].startswith("axles[i] = (int16_t) signal_value(")


def without_a_map_all_is_as_before(folder: str) -> Iterator[bool]:
    sources = adapted(folder)
    os.remove(os.path.join(folder, "made", "fshell.map"))
    told = run(folder, ["explain", QUERY, *sources]).stdout
    yield "made/tank.c:14:7 step: rate > 30 is true, in if (rate > 30)" in told and "src/" not in told
    # (sources that nobody wrote of others have none)
    put(folder, {"never.c": example("never/never.c")})
    yield "never.c:2:7 f: x > 10 is true" in run(folder, ["explain", QUERY, "never.c"]).stdout


def a_bad_map_is_told_in_a_line(folder: str) -> Iterator[bool]:
    sources = adapted(folder)
    path = os.path.join(folder, "made", "fshell.map")
    with open(path, encoding="utf-8") as file:
        text = file.read()
    value = json.loads(text)
    rest = "; run fshell adapt again, or take the map away\n"

    def ended() -> tuple[int, str, str]:
        told = run(folder, ["explain", QUERY, *sources])
        return told.returncode, told.stdout, told.stderr

    no_map = (2, "", "explain: made/fshell.map: it is no map of sources" + rest)
    for bad in (
        "",
        "{",
        "[]",
        '{"form": "fshell map 2", "files": {}}',
        text.replace('"places":[[', '"places":[[-1,2,3,4],[', 1),
        text.replace('"original":', '"origin":', 1),
        text.replace('"names":{', '"names":{"a":1,', 1),
    ):
        put(folder, {"made/fshell.map": bad})
        yield ended() == no_map
    put(folder, {"made/fshell.map": text, "made/tank.c": "int step(int rate) { return rate ? 1 : 0; }\n"})
    yield ended() == (2, "", "explain: made/fshell.map: made/tank.c isn't what was written with it" + rest)
    adapted(folder)
    put(folder, {"src/tank.c": TANK + "\n"})
    yield ended() == (2, "", "explain: made/fshell.map: src/tank.c has changed since made/tank.c was written" + rest)
    os.remove(os.path.join(folder, "src", "tank.c"))
    yield ended() == (2, "", "explain: made/fshell.map: src/tank.c: No such file or directory" + rest)
    # a map that doesn't name a source says nothing of it
    put(folder, {"made/fshell.map": json.dumps({**value, "files": {}})})
    yield ended()[0] == 0


def no_word_of_adapt_is_shown(folder: str, name: str, words: Sequence[str]) -> Iterator[bool]:
    """Each condition of a module of examples/ stands on its line of the original, as explain tells it."""
    path = os.path.join(environment.ROOT, "examples", "modules")
    for other in os.listdir(path):
        shutil.copy(os.path.join(path, other), folder)
    sources = run(folder, ["adapt", name, *words, "-o", "made"]).stdout.splitlines()[-1].split()[1:]
    told = run(folder, ["explain", "cover @CONDITIONEDGE", *sources]).stdout
    with open(os.path.join(folder, name), encoding="utf-8") as file:
        lines = [" ".join(re.sub(r"/\*.*?\*/", " ", line).split()) for line in file]
    found = guards(told)
    yield len(found) > 20
    for line, text in found:
        here = " ".join(lines[int(line) - 1 : int(line) + 3])
        yield text in here
    yield not re.search(r"\b(value|truth|again|index|pointer)_\d+\b", told) and "made/" not in told


def of_module(name: str, words: Sequence[str]) -> Callable[[str], Iterator[bool]]:
    """The case of a module: whether all that is told of it is as the user wrote it."""

    def made(folder: str) -> Iterator[bool]:
        yield from no_word_of_adapt_is_shown(folder, name, words)

    made.__name__ = f"the module {name} as it was written"
    return made


SHAPES = [
    ("if (u->a[{n}] > {n})", ["u->a[{n}] > {n}"]),
    ("if (u->m == FULL && u->n < TOP({n}))", ["u->m == FULL", "u->n < TOP({n})"]),
    ("while (u->n++ < {n} || in() == {n})", ["u->n++ < {n}", "in() == {n}"]),
    ("for (int i = 0; i < (int) u->n; i++)", ["i < (int) u->n"]),
    ("if (!(u->n & {n}u))", ["u->n & {n}u"]),
    ("if ((u->a[1] = in()) != u->a[2])", ["(u->a[1] = in()) != u->a[2]"]),
]


def long_module(count: int) -> tuple[str, list[tuple[str, str]]]:
    """A module of so many functions, and the conditions that were written into it: the line and the text of each."""
    lines = [
        "#include <stdint.h>",
        "#define TOP(x) ((x) + 7)",
        "typedef enum { EMPTY, FULL = 9 } fill_t;",
        "typedef struct { int a[64]; unsigned n; fill_t m; } unit_t;",
        "static unit_t units[2], unit;",
        "int in(void);",
        "",
    ]
    found = []
    for number in range(1, count + 1):
        head, parts = SHAPES[number % len(SHAPES)]
        lines += [
            f"/* the part {number} */",
            f"static int part_{number}(unit_t *u)",
            "{",
            "  unsigned before = u->n; /* kept */",
            "",
            "  " + head.format(n=number),
        ]
        found += [(str(len(lines)), part.format(n=number)) for part in parts]
        lines += [f"    u->a[{number}]++;", "  u->n = before;", f"  return u->a[{number}];", "}", ""]
    calls = [f"  sum += part_{number}(&unit);" for number in range(1, count + 1)]
    lines += [
        "int all(int x)",
        "{",
        "  int sum = x;",
        "  unit.n = (unsigned) x;",
        "  unit.m = (fill_t) in();",
        *calls,
        "  units[0] = unit;",
        "  return sum + units[0].a[1];",
        "}",
        "",
    ]
    return "\n".join(lines), found


def a_module_of_four_hundred_lines(folder: str) -> Iterator[bool]:
    text, due = long_module(36)
    yield text.count("\n") > 400
    sources = adapted(folder, {"long.c": text}, "long.c")
    yield guards(run(folder, ["explain", QUERY, *sources]).stdout) == due


def the_project_reports_the_original(folder: str) -> Iterator[bool]:
    """Places, texts and statements of examples/module in its reports are those of its files."""
    shutil.copytree(
        os.path.join(environment.ROOT, "examples", "module"),
        os.path.join(folder, "m"),
        ignore=shutil.ignore_patterns("fshell.out"),
    )
    yield run(os.path.join(folder, "m"), ["run"]).returncode == 0
    out = os.path.join(folder, "m", "fshell.out", "report")
    with open(os.path.join(out, "report.json"), encoding="utf-8") as file:
        value = json.load(file)
    texts = {}
    for goal in value["goals"]:
        if goal["file"] not in texts:
            with open(os.path.join(folder, "m", goal["file"]), encoding="utf-8") as file:
                texts[goal["file"]] = file.read().split("\n")
        told = re.search(r" (\S+?):(\d+):(\d+) \w+: (.*?) is (?:true|false)(?:, in|$)", goal["told"])
        if told:
            yield told[1] == goal["file"] and int(told[2]) == goal["line"]
            yield told[4].split(" ")[0] in texts[told[1]][int(told[2]) - 1]
    conditions = value["conditions"]
    yield len(conditions) > 20 and all("value_" not in one["text"] + one["statement"] for one in conditions)
    with open(os.path.join(out, "coverage.info"), encoding="utf-8") as file:
        yield {os.path.basename(name) for name in re.findall("^SF:(.*)", file.read(), re.MULTILINE)} == {
            "sensors.c",
            "control.c",
            "alarm.c",
        }


NONE: list[str] = []
TRAPS = """static int a[3] = {1, 2, 3}, b[2];
static int at(const int *p, unsigned i) { return p[i]; }
int f(unsigned i) {
  if (i > 2) return 0;
  if (at(a, i) == 3) return 1;
  return at(b, i & 1);
}
int g(unsigned i) {
  if (at(a, i) == 3) return 1;
  return at(b, 0);
}
int h(unsigned i) { return i == 3; }
"""


def traps_that_are_added_are_listed(folder: str) -> Iterator[bool]:
    """The map names the line with the access by a pointer, with C's clause. By the inputs below 3 that `f` lets through no run comes to the
    trap; `g` comes to it by each other one (6.5.6p8), so a campaign of it says that nothing refuted is called unreachable. Nothing is
    listed of a source without a map."""
    from fshell_tools.core import translation_traps

    put(folder, {"a.c": TRAPS, "plain.c": "int f(int x) { return x; }\n"})
    yield run(folder, ["adapt", "a.c", "-o", "new"]).returncode == 0
    found = translation_traps.listed(["new/a.c"], folder)
    yield [(one.file, one.line, one.is_fault) for one in found] == [("new/a.c", 2, True)] and "6.5.6p8" in found[
        0
    ].clause
    yield translation_traps.listed(["plain.c"], folder) == []
    yield translation_traps.reachable("f", ["new/a.c"], [], folder) == []
    yield translation_traps.reachable("g", ["new/a.c"], [], folder) == found
    due = "the translation traps at new/a.c:2 (an index outside of its object, a null pointer, or one to an object that is gone)"
    yield found[0].text == due
    told = f"no refuted goal is called unreachable: {due}\n"
    for entry, is_told in (("f", False), ("g", True)):
        words = ["campaign", entry, "cover @CONDITIONEDGE", "new/a.c", "-o", entry, "--jobs", "1"]
        yield (told in run(folder, words).stdout) == is_told


WAYS = [("can.c", NONE), ("uart.c", NONE), ("pid.c", ["--input", "sensor_read", "--input", "actuator_write"]),
        ("menu.c", ["--input", "display_show"]), ("modbus.c", ["--input", "line_write"])]  # fmt: skip
TRIED = [(NEEDS, explain_shows_what_the_user_wrote), (NEEDS, columns_are_those_of_the_user), (NEEDS, a_condition_with_an_assignment_begins_at_its_bracket), ((*NEEDS, "jinja2"), each_report_names_the_original),
         (NEEDS, bounds_and_orders_name_the_original), (NEEDS, without_a_map_all_is_as_before), (NEEDS, a_bad_map_is_told_in_a_line), (NEEDS, traps_that_are_added_are_listed),
         *((NEEDS, of_module(name, words)) for name, words in WAYS), (NEEDS, a_module_of_four_hundred_lines), ((*NEEDS, "jinja2"), the_project_reports_the_original)]  # fmt: skip
