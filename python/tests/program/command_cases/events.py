"""The cases of `events`. What happens is worked out by hand, from docs/MEANING.md."""

from tests.program.command_cases import FOREVER, A, Case, Words, case, of_sources, of_streams, refused, usages

FILES = {"in.txt": "5\n11\n", "a.c": A}
TWO = (
    "input 1 returned 0\noutcome IF a.c:2:7 false settles\ndid RETURN a.c:5:3\n"
    "input 2 returned 1\noutcome IF a.c:2:7 true settles\ndid RETURN a.c:3:5\n"
)

LOOP = """\
int h(int v) { return v + 1; }
int f(int a, int b) {
  int s = 0;
  while (s < a) {
    if (b && s != 1 || h(s) > 2)
      s += 2;
    else
      s = h(s);
  }
  return s;
}
"""
CALL = ["entered h", "did RETURN k.c:1:16", "left h"]
PASS = ["again WHILE k.c:4:3", "outcome WHILE k.c:4:10 true settles"]
BEGIN = ["did DECL k.c:3:3 s", "enters WHILE k.c:4:3", "outcome WHILE k.c:4:10 true settles"]
END = ["again WHILE k.c:4:3", "outcome WHILE k.c:4:10 false settles", "did RETURN k.c:10:3"]
BY_CALL = ["outcome IF k.c:5:9 false", *CALL, "outcome IF k.c:5:24 false settles", *CALL, "did ASSIGN k.c:8:7 s"]
BY_TWO = ["outcome IF k.c:5:9 false", *CALL, "outcome IF k.c:5:24 true settles", "did ASSIGN k.c:6:7 s"]
AT_ONCE = ["outcome IF k.c:5:9 true", "outcome IF k.c:5:14 true settles", "did ASSIGN k.c:6:7 s"]

SWITCH = """\
int in(void);
int t[2];
void put(int v) { t[1] = v; }
int g(int n) {
  int a[2] = {n, 1};
  for (;;) {
    switch (in()) {
    case 1: put(n ? 5 : 6); break;
    case 2: in(); continue;
    default: ;
    }
  out: assume(n);
    return a[0] + t[1];
  }
}
"""
FIRST = ["did DECL k.c:5:3 a"] * 3 + ["enters FOR k.c:6:3", "always FOR k.c:6:3"]
VALUE = ["answered in", "valued SWITCH k.c:7:5"]
SECOND_CASE = [
    "outcome SWITCH k.c:8:5 false",
    "outcome SWITCH k.c:9:5 true settles",
    "answered in",
    "did CALL k.c:9:13",
    "did JUMP k.c:9:19",
]
FIRST_CASE = [
    "outcome SWITCH k.c:8:5 true settles",
    "outcome CALL k.c:8:17 true settles",
    "valued CALL k.c:8:13",
    "entered put",
    "did ASSIGN k.c:3:19 t",
    "left put",
    "did CALL k.c:8:13",
    "did JUMP k.c:8:29",
]
NO_CASE = ["outcome SWITCH k.c:8:5 false", "outcome SWITCH k.c:9:5 false settles", "did EMPTY k.c:10:14"]
LABEL = ["did LABEL k.c:12:3 out"]

NESTED = """\
int in(void);
int h(int v) { return v; }
int g(int v) { return h(v) + in(); }
int f(int x) { g(x); return x && h(0); }
"""
WITHIN = ["entered h", "did RETURN k.c:2:16", "left h"]
STATEMENT = ["entered g", *WITHIN, "answered in", "did RETURN k.c:3:16", "left g", "did CALL k.c:4:16"]
BOTH = [
    "outcome RETURN k.c:4:29 true",
    *WITHIN,
    "outcome RETURN k.c:4:34 false settles",
    "valued RETURN k.c:4:22",
    "did RETURN k.c:4:22",
]
ONE = ["outcome RETURN k.c:4:29 false settles", "valued RETURN k.c:4:22", "did RETURN k.c:4:22"]

FORMS = """\
int f(int x) {
  int i;
  do x--; while (!(x > 1));
  for (i = 0; i < 1; i++) { }
  switch (x) { default: break; }
  while (x ? x : i) x = x / (x - 2);
  assert(x);
  return x;
}
"""
STRAIGHT = ["valued SWITCH k.c:5:3", "straight SWITCH k.c:5:3", "did JUMP k.c:5:25"]
NAMED = "void e(void) { }\nint f(int x) { e(); return x; }\n"


def said(
    name: str,
    source: str,
    inputs: str,
    runs: list[tuple[str, list[str]]],
    options: Words = (),
    entry: str = "f",
) -> Case:
    """The end of each input and its events, in order."""
    lines = "".join(
        f"input {number} {end}\n" + "".join(f"{event}\n" for event in events)
        for number, (end, events) in enumerate(runs, 1)
    )
    return case(name, ["events", *options, entry, "in.txt", "k.c"], {"in.txt": inputs, "k.c": source}, lines)


CASES = [
    case("two inputs", ["events", "f", "in.txt", "a.c"], FILES, TWO),
    said("no inputs", A, "", []),
    said(
        "a loop, a condition of three parts and calls",
        LOOP,
        "3 0\n3 1\n0 7\n",
        [
            ("returned 4", [*BEGIN, *BY_CALL, *PASS, *BY_CALL, *PASS, *BY_TWO, *END]),
            ("returned 4", [*BEGIN, *AT_ONCE, *PASS, *AT_ONCE, *END]),
            ("returned 0", [*BEGIN[:2], *END[1:]]),
        ],
    ),
    said(
        "a switch in a loop without a condition, an array, a label, answers",
        SWITCH,
        '[{"args":[4],"answers":[2,7,1]},{"args":[0],"answers":[5]}]',
        [
            (
                "returned 9",
                [
                    *FIRST,
                    *VALUE,
                    *SECOND_CASE,
                    "again FOR k.c:6:3",
                    "always FOR k.c:6:3",
                    *VALUE,
                    *FIRST_CASE,
                    *LABEL,
                    "did ASSUME k.c:12:8",
                    "did RETURN k.c:13:5",
                ],
            ),
            ("blocked", [*FIRST, *VALUE, *NO_CASE, *LABEL]),
        ],
        entry="g",
    ),
    said(
        "calls within calls, each left by its name",
        NESTED,
        '[{"args":[1],"answers":[2]},{"args":[0]}]',
        [("returned 0", [*STATEMENT, *BOTH]), ("returned 0", [*STATEMENT, *ONE])],
    ),
    said(
        "a call that is a statement has two events at its last edge",
        NESTED,
        "1\n",
        [("cut", STATEMENT)],
        ["--steps", "7"],
    ),
    said("an edge less", NESTED, "1\n", [("cut", STATEMENT[:6])], ["--steps", "6"]),
    said("cut after two edges", LOOP, "3 0\n3 1\n", [("cut", BEGIN[:2])] * 2, ["--steps=2"]),
    said("as many edges as are allowed", LOOP, "0 7\n", [("returned 0", [*BEGIN[:2], *END[1:]])], ["--steps=4"]),
    said(
        "a negated condition, a loop with its step, a switch without a case, a choice in a condition, a trap",
        FORMS,
        "3\n",
        [
            (
                "trapped zero-divisor",
                [
                    "did DECL k.c:2:3 i",
                    "enters DO k.c:3:3",
                    "did ASSIGN k.c:3:6 x",
                    "outcome DO k.c:3:20 true settles",
                    "did ASSIGN k.c:4:8 i",
                    "enters FOR k.c:4:3",
                    "outcome FOR k.c:4:15 true settles",
                    "did EMPTY k.c:4:27",
                    "did ASSIGN k.c:4:22 i",
                    "again FOR k.c:4:3",
                    "outcome FOR k.c:4:15 false settles",
                    *STRAIGHT,
                    "enters WHILE k.c:6:3",
                    "outcome WHILE k.c:6:10 true settles",
                    "valued WHILE k.c:6:3",
                    "outcome WHILE k.c:6:10 true settles",
                ],
            ),
        ],
    ),
    said(
        "a function's empty body has the place of its first token",
        NAMED,
        "1\n",
        [("returned 1", ["entered e", "did EMPTY k.c:1:1", "left e", "did CALL k.c:2:16", "did RETURN k.c:2:21"])],
    ),
    refused(
        "more than ten million edges of whose events to tell",
        ["events", "f", "in.txt", "k.c"],
        {"in.txt": {"repeat": "1\n", "times": 101}, "k.c": FOREVER},
        "error 54 RunsTooLong limit 10000000",
        6,
    ),
    *usages(
        "events",
        {
            "no source is no command": ["f", "in.txt"],
            "it has no --ends": ["--ends", "any", "f", "in.txt", "a.c"],
            "it has no --json": ["--json", "f", "in.txt", "a.c"],
            "no edge at all": ["--steps", "0", "f", "in.txt", "a.c"],
            "an edge too many": ["--steps", "1000001", "f", "in.txt", "a.c"],
            "--steps twice": ["--steps", "5", "f", "in.txt", "a.c", "--steps", "5"],
        },
    ),
    *of_sources("events", ["in.txt"], {}),
    refused("inputs that aren't there", ["events", "f", "in.txt", "a.c"], {"a.c": A}, "error 7 ReadFault in.txt", 7),
    refused(
        "an entry that isn't defined goes before inputs that aren't there",
        ["events", "zz", "in.txt", "a.c"],
        {"a.c": A},
        "error 36 NoSuchEntry",
        3,
    ),
    refused(
        "an input with one argument too many",
        ["events", "f", "in.txt", "a.c"],
        {"in.txt": "5\n5 6\n", "a.c": A},
        "error 51 Shape input 2",
        5,
    ),
    *of_streams(["events", "f", "in.txt", "a.c"], FILES, TWO),
]
