"""Lines of fshell lcov beside gcov, line by line: the examples, and ten modules that are written for it.

What differs is named in docs/TOOLS.md, and listed here by its reason; any other line has the same count in both.
"""

import os
import re
import subprocess
from collections.abc import Iterator, Sequence

from tests.tools import example, put, run

MODULES = {
    "can.c": ("can", """int next(void);
static int seen = 0;
static const int limits[4] = {0, 8, 16, 64};
static int on_data(int n) { seen += n; return n > 4 ? 4 : n; }
static int on_cm(int f, int h) {
  if (f < 0 || h < 0) return -1;
  return f + h;
}
int can(int kind, int f) {
  int r = 0;
  switch (kind) {
    case 1: r = on_data(f); break;
    case 2: r = on_cm(f, seen); break;
    case 3: case 4: r = limits[kind - 1]; break;
    case 5:
      r = next();
    case 6: r += 1;
    default: break;
  }
  return r;
}
"""),
    "wide.c": ("wide", """int add(int a, int b,
        int c)
{
  return a
         + b
         + c;
}
int wide(int a, int b)
{
  int sum = add(a,
                b,
                1);
  if (a > 3 &&
      b < 7 &&
      sum != 9)
  {
    sum =
        sum * 2;
  }
  else if (a == 0
           || b == 0)
    sum = 0;
  else
    sum--;
  return sum;
}
"""),
    "loops.c": ("loops", """int loops(int n) {
  int s = 0;
  int i;
  for (i = 0; i < n && i < 3; i++) s += i;
  for (i = 0;
       i < 3;
       i++)
  {
    if (i == n)
      continue;
    s++;
  }
  while (n > 0) { n--; if (n == 2) break; }
  do {
    s--;
  } while (s > 2);
  do s++; while (s < 1);
  for (;;) {
    if (s > 3) break;
    s++;
  }
  return s;
}
"""),
    "pick.c": ("pick", """enum { LOW = 1, HIGH = 9 };
int pick(int x, int y) {
  int a = x > LOW ? y : -y;
  int b = x > 0 && y > 0;
  int c = (x < HIGH ? 1 : 2) + (y < HIGH || x == y);
  int t[3] = {a, b, c};
  int i = t[x > 2 ? 1 : 2];
  return i > 0
    ? t[0]
    : t[1];
}
"""),
    "state.c": ("state_of", """int event(void);
static int state;
static void reset(void) { state = 0; }
static void step(int e)
{
  switch (state) {
  case 0:
    if (e == 1) { state = 1; }
    break;
  case 1:
    switch (e) {
    case 2: state = 2; break;
    case 3:
    case 4:
      reset();
      break;
    }
    break;
  default:
    if (e == 0) reset();
  }
}
int state_of(int n) {
  reset();
  for (int i = 0; i < n && i < 4; i++) { step(event()); }
  return state;
}
"""),
    "ends.c": ("ends", """static void nothing(void) {}
static void log_it(int x) { ; }
int ends(int x) {
  nothing();
  log_it(x);
  if (x > 5) { return 1; } else { ; }
  {
    int y = x * 2;
    if (y == 4) goto_end: return 2;
  }
  assert(x < 100);
  return 0;
}
"""),
    "rec.c": ("rec", """static int depth(int n) { return n <= 0 ? 0 : 1 + depth(n - 1); }
static int twice(int n) { return n + n; }
int rec(int n) {
  assume(n < 5);
  if (twice(depth(n)) == 4 && depth(n) > 1) return 7;
  if (twice(n) > 2) if (n < 4) return twice(twice(n)); else return 9;
  return depth(n); }
"""),
    "buffer.c": ("buffer", """int in(void);
static int ring[4];
static int head, tail;
static int put(int x) {
  int next = (head + 1) & 3;
  if (next == tail)
    return 0;
  ring[head] = x;
  head = next;
  return 1;
}
static int get(void) {
  int x;
  if (head == tail)
    return -1;
  x = ring[tail];
  tail = (tail + 1) & 3;
  return x;
}
int buffer(int n) {
  int lost = 0, last = 0;
  for (int i = 0; i < n && i < 4; ++i) {
    if (!put(in())) lost++; else if (n == 3) last = get();
  }
  return lost ? -lost : last;
}
"""),
    "macro.c": ("macro", """#define LIMIT 10
#define BOTH (x > LIMIT && y > LIMIT)
#define BUMP x += 1; y += 2
int macro(int x, int y) {
  if (BOTH) return LIMIT;
  BUMP;
  if (x == 5) { BUMP; }
  /* a comment */ if (y == 3) /* another */
    /* and one */ return 3; // and a last one
  return x /* within */ - y;
}
"""),
    "date2.c": ("valid", """static int leap(int y) { return (y % 4 == 0 && y % 100 != 0) || y % 400 == 0; }
static const int days[12] = {31, 28, 31, 30, 31, 30,
                             31, 31, 30, 31, 30, 31};
int valid(int y, int m, int d)
{
  int most;
  if (y < 1583) return 0;
  if (m < 1 || m > 12)
    return 0;
  most = days[m - 1];
  if (m == 2 && leap(y)) most++;
  return d >= 1 && d <= most;
}
"""),
}  # fmt: skip
# lines that only one of the two counts, or both in another way
NO_VALUE, SPREAD = "a declaration without a value", "an expression over several lines"
NESTED, ENDLESS = "a `switch` at a label's begin", "the jump back of a loop without a condition"
KNOWN = {("loops.c", 3): NO_VALUE, ("buffer.c", 13): NO_VALUE, ("date2.c", 6): NO_VALUE, ("window.c", 7): NO_VALUE,
         ("stack.c", 10): NO_VALUE, ("utf8.c", 25): NO_VALUE, ("version.c", 7): NO_VALUE, ("version.c", 8): NO_VALUE,
         ("wide.c", 4): SPREAD, ("wide.c", 5): SPREAD, ("wide.c", 6): SPREAD, ("wide.c", 14): SPREAD, ("wide.c", 15): SPREAD,
         ("pick.c", 8): SPREAD, ("pick.c", 10): SPREAD, ("state.c", 11): NESTED, ("stack.c", 12): ENDLESS}  # fmt: skip
EXAMPLES = {
    "programs/account.c": "account", "programs/checksum.c": "accept", "programs/control.c": "control", "programs/crc.c": "frame",
    "programs/date.c": "day_of_year", "programs/debounce.c": "presses", "programs/filter.c": "filter", "programs/gcd.c": "relation",
    "programs/lights.c": "lights", "programs/machine.c": "door", "programs/number.c": "parse", "programs/ring.c": "run",
    "programs/search.c": "place", "programs/sort.c": "middle", "programs/stack.c": "calculate", "programs/utf8.c": "character",
    "programs/version.c": "compare", "programs/window.c": "steady", "triangle/tri.c": "main_loop", "average/average.c": "average",
    "first/a.c": "f", "clamp/clamp.c": "clamp", "counting/count.c": "count", "counting/both.c": "both", "counting/upto.c": "upto",
    "never/never.c": "f", "criteria/fee.c": "fee", "first_hour/heater.c": "control"}  # fmt: skip
LABEL = re.compile(r"\s*(case\b[^:]*|default|\w+)\s*:\s*(/\*.*)?$")

# how many times each line was reached, and each line's branches, in order of size
Counts = tuple[dict[int, int], dict[int, list[int]]]


def gcov_of_all(folder: str, tests: str = "tests.c", flags: Sequence[str] = ()) -> dict[str, Counts]:
    """gcc's counts of all sources of a harness, by their names: of each line, and the counts of its branches in order of size."""
    command = ["gcc", "-O0", "--coverage", "-fwrapv", "-fno-builtin", "-w", *flags, "-o", "tests", tests]
    subprocess.run(command, cwd=folder, check=True)
    subprocess.run(["./tests"], cwd=folder, capture_output=True)
    made = next(one for one in os.listdir(folder) if one.endswith(".gcda"))
    subprocess.run(["gcov", "-b", "-c", made], cwd=folder, capture_output=True, check=True)
    os.remove(os.path.join(folder, made))
    found = {}
    for name in [one for one in os.listdir(folder) if one.endswith(".gcov")]:
        found[name.removesuffix(".gcov")] = counts_of_gcov(os.path.join(folder, name))
        os.remove(os.path.join(folder, name))
    return found


def counts_of_gcov(path: str) -> Counts:
    """The counts of a file that gcov wrote."""
    lines, branches, at = dict[int, int](), dict[int, list[int]](), 0
    with open(path, encoding="utf-8") as file:
        for line in file:
            count = re.match(r" *(\d+|#####|-)\*?: *(\d+):", line)
            if count:
                at = int(count[2])
                if count[1] != "-":
                    lines[at] = int(count[1].replace("#####", "0"))
            elif line.startswith("branch"):
                branches.setdefault(at, []).append(int((re.findall(r"taken (\d+)", line) or [0])[0]))
    return lines, {line: sorted(counts) for line, counts in branches.items()}


def ours(text: str) -> Counts:
    """The counts of a tracefile: of each line, and the counts of its branches in order of size."""
    lines = {int(line): int(count) for line, count in re.findall(r"^DA:(\d+),(\d+)", text, re.MULTILINE)}
    branches = dict[int, list[int]]()
    for line, count in re.findall(r"^BRDA:(\d+),\d+,\d+,(\d+|-)", text, re.MULTILINE):
        branches.setdefault(int(line), []).append(0 if count == "-" else int(count))
    return lines, {line: sorted(counts) for line, counts in branches.items()}


def both(folder: str, entry: str, name: str, others: Sequence[str] = ()) -> tuple[Counts, Counts, set[int]]:
    """The counts of a source by fshell lcov and by gcc, of the inputs that are made for all of its steps."""
    sources = [*others, name]
    put(folder, {"made": run(folder, ["generate", entry, "cover ID", *sources, "--budget", "300000"]).stdout})
    run(folder, ["inputs", "made", "-o", "in", "--to", "json"])
    run(folder, ["lcov", entry, "in", *sources, "-o", "out"])
    run(folder, ["harness", entry, "in", *sources, "-o", "tests.c"])
    with open(os.path.join(folder, "out"), encoding="utf-8") as file:
        record = next(part for part in file.read().split("end_of_record") if f"/{name}\n" in part)
    heads = {int(line) for line in re.findall(r"^FN:(\d+),", record, re.MULTILINE)}
    return ours(record), gcov_of_all(folder)[name], heads


def may_differ(name: str, line: int, text: str, heads: set[int], in_ours: int | None, in_gcov: int | None) -> bool:
    """Whether one of the differences that docs/TOOLS.md names is that of a line."""
    if (name, line) in KNOWN:
        return True
    # gcc alone counts the head of a function, its closing brace, and a label behind which nothing stands on its line
    return in_ours is None and in_gcov is not None and (line in heads or text.strip() == "}" or bool(LABEL.match(text)))


def lines_are_those_of_gcc(folder: str) -> Iterator[bool]:
    """All examples and ten modules: each line has gcc's count, but for the differences that are named."""
    same = 0
    for path, entry in [*EXAMPLES.items(), *((name, entry) for name, (entry, _) in MODULES.items())]:
        name = os.path.basename(path)
        text = MODULES[path][1] if path in MODULES else example(path)
        others = ["quotient.c"] if name == "average.c" else []
        put(folder, {name: text, **{other: example(f"average/{other}") for other in others}})
        (lines, branches), (their_lines, their_branches), heads = both(folder, entry, name, others)
        rows = text.split("\n")
        for line in sorted(set(lines) | set(their_lines)):
            one, other = lines.get(line), their_lines.get(line)
            same += one == other
            if one != other and not may_differ(name, line, rows[line - 1], heads, one, other):
                print(f"lcov: {name}:{line}: {one} times, and {other} by gcc: {rows[line - 1]}")
                yield False
        # where both have the same number of branches on a line, their counts are the same
        yield all(
            counts == their_branches[line]
            for line, counts in branches.items()
            if len(counts) == len(their_branches.get(line, [])) and (name, line) not in KNOWN
        )
    yield same > 300


def labels_are_branches(folder: str) -> Iterator[bool]:
    """The test of a label isn't what is done on its line: kind 1 tests the label of line 12, whose statements aren't run."""
    put(folder, {"can.c": MODULES["can.c"][1], "in": "1 7\n"})
    yield run(folder, ["lcov", "can", "in", "can.c", "-o", "out"]).returncode == 0
    with open(os.path.join(folder, "out"), encoding="utf-8") as file:
        lines, branches = ours(file.read())
    # line 13 has no test in this run, which leaves the row of labels at the first
    yield (lines[12], lines[13], branches[12], branches[13]) == (1, 0, [0, 1], [0, 0])
    put(folder, {"in": "3 7\n"})
    yield run(folder, ["lcov", "can", "in", "can.c", "-o", "out"]).returncode == 0
    with open(os.path.join(folder, "out"), encoding="utf-8") as file:
        lines, branches = ours(file.read())
    yield (lines[12], lines[13], lines[14], branches[13]) == (0, 0, 1, [0, 1])


TRIED = [(("graph", "gcc", "gcov"), lines_are_those_of_gcc), (("graph",), labels_are_branches)]
