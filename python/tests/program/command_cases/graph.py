"""The cases of `graph`."""

from tests.program.command_cases import NEVER, case, refused

CASES = [
    case(
        "a condition of two parts",
        ["graph", "never.c"],
        {"never.c": NEVER},
        (
            "functions 1 inputs 0 nodes 5 edges 6\nfunction 0 f entry 0 exit 1\nnode 0 f never.c:1 depth 0\n"
            "node 1 f never.c:6 depth 0\nnode 2 f never.c:5 depth 0\nnode 3 f never.c:2 depth 0\n"
            "node 4 f never.c:2 depth 0\nedge 0 from 0 to 4 never.c:2:7 IF guard true decision reads x\n"
            "edge 1 from 0 to 2 never.c:2:7 IF guard false decision outcome reads x\n"
            "edge 2 from 4 to 3 never.c:2:17 IF guard true decision outcome reads x\n"
            "edge 3 from 4 to 2 never.c:2:17 IF guard false decision outcome reads x\n"
            "edge 4 from 3 to 1 never.c:3:5 RETURN assign\nedge 5 from 2 to 1 never.c:5:3 RETURN assign\n"
        ),
    ),
    case(
        "each operation and each mark, in two sources",
        ["graph", "one.c", "two.c"],
        {
            "one.c": "int in(void);\nint limit = 1;\nint g(int v) {\n  return v + limit;\n}\n",
            "two.c": (
                "int f(int x) {\n  int a[2];\n  while (x > 1 && x) {\n    x = in();\n  }\n  assume(x);\n"
                "  a[0] = g(x);\n  assert(a[0]);\ndone: return a[1];\n}\n"
            ),
        },
        (
            "functions 2 inputs 1 nodes 16 edges 17\nfunction 0 g entry 0 exit 1\nfunction 1 f entry 2 exit 3\n"
            "input 0 in\nnode 0 g one.c:3 depth 0\nnode 1 g one.c:5 depth 0\nnode 2 f two.c:1 depth 0\n"
            "node 3 f two.c:10 depth 0\nnode 4 f two.c:3 depth 0\nnode 5 f two.c:6 depth 0\n"
            "node 6 f two.c:3 depth 1\nnode 7 f two.c:3 depth 1\nnode 8 f two.c:3 depth 1\n"
            "node 9 f two.c:3 depth 1\nnode 10 f two.c:4 depth 1\nnode 11 f two.c:7 depth 0\n"
            "node 12 f two.c:8 depth 0\nnode 13 f two.c:7 depth 0\nnode 14 f two.c:9 depth 0\n"
            "node 15 f two.c:9 depth 0\nedge 0 from 0 to 1 one.c:4:3 RETURN assign reads v limit\n"
            "edge 1 from 2 to 4 two.c:2:3 DECL clear writes a\nedge 2 from 4 to 6 two.c:3:3 WHILE skip enter\n"
            "edge 3 from 6 to 9 two.c:3:10 WHILE guard true decision reads x\n"
            "edge 4 from 6 to 5 two.c:3:10 WHILE guard false decision outcome reads x\n"
            "edge 5 from 9 to 7 two.c:3:19 WHILE guard true decision outcome reads x\n"
            "edge 6 from 9 to 5 two.c:3:19 WHILE guard false decision outcome reads x\n"
            "edge 7 from 7 to 10 two.c:4:5 ASSIGN answer in\n"
            "edge 8 from 10 to 8 two.c:4:5 ASSIGN assign writes x\n"
            "edge 9 from 8 to 6 two.c:3:3 WHILE skip back\n"
            "edge 10 from 5 to 11 two.c:6:3 ASSUME assume reads x\n"
            "edge 11 from 11 to 0 two.c:7:3 ASSIGN call g reads x\n"
            "edge 12 from 1 to 13 two.c:7:3 ASSIGN return g\n"
            "edge 13 from 13 to 12 two.c:7:3 ASSIGN assign writes a\n"
            "edge 14 from 12 to 14 two.c:8:3 ASSERT assert reads a\n"
            "edge 15 from 14 to 15 two.c:9:1 LABEL skip label done\n"
            "edge 16 from 15 to 3 two.c:9:7 RETURN assign reads a\n"
        ),
    ),
    case(
        "statements of each kind",
        ["graph", "--", "k.c"],
        {
            "k.c": (
                "void h(int x) {\n  do { ; } while (x);\n  for (; x; ) break;\n"
                "  switch (x) { case 1: ; default: x++; }\n  if (x) h(x); else return;\n}\n"
            )
        },
        (
            "functions 1 inputs 0 nodes 16 edges 20\nfunction 0 h entry 0 exit 1\nnode 0 h k.c:1 depth 0\n"
            "node 1 h k.c:6 depth 0\nnode 2 h k.c:3 depth 0\nnode 3 h k.c:2 depth 1\nnode 4 h k.c:2 depth 1\n"
            "node 5 h k.c:2 depth 1\nnode 6 h k.c:4 depth 0\nnode 7 h k.c:3 depth 1\nnode 8 h k.c:3 depth 1\n"
            "node 9 h k.c:3 depth 1\nnode 10 h k.c:5 depth 0\nnode 11 h k.c:4 depth 0\n"
            "node 12 h k.c:4 depth 0\nnode 13 h k.c:4 depth 0\nnode 14 h k.c:5 depth 0\n"
            "node 15 h k.c:5 depth 0\nedge 0 from 0 to 3 k.c:2:3 DO skip enter\n"
            "edge 1 from 3 to 4 k.c:2:8 EMPTY skip\n"
            "edge 2 from 4 to 5 k.c:2:19 DO guard true decision outcome reads x\n"
            "edge 3 from 4 to 2 k.c:2:19 DO guard false decision outcome reads x\n"
            "edge 4 from 5 to 3 k.c:2:3 DO skip back\nedge 5 from 2 to 7 k.c:3:3 FOR skip enter\n"
            "edge 6 from 7 to 8 k.c:3:10 FOR guard true decision outcome reads x\n"
            "edge 7 from 7 to 6 k.c:3:10 FOR guard false decision outcome reads x\n"
            "edge 8 from 8 to 6 k.c:3:15 JUMP skip\nedge 9 from 9 to 7 k.c:3:3 FOR skip back\n"
            "edge 10 from 6 to 13 k.c:4:3 SWITCH assign reads x\n"
            "edge 11 from 13 to 11 k.c:4:16 SWITCH guard true decision outcome\n"
            "edge 12 from 13 to 12 k.c:4:16 SWITCH guard false decision outcome\n"
            "edge 13 from 11 to 12 k.c:4:24 EMPTY skip\n"
            "edge 14 from 12 to 10 k.c:4:35 ASSIGN assign writes x reads x\n"
            "edge 15 from 10 to 14 k.c:5:7 IF guard true decision outcome reads x\n"
            "edge 16 from 10 to 15 k.c:5:7 IF guard false decision outcome reads x\n"
            "edge 17 from 14 to 0 k.c:5:10 CALL call h reads x\nedge 18 from 1 to 1 k.c:5:10 CALL return h\n"
            "edge 19 from 15 to 1 k.c:5:21 RETURN skip\n"
        ),
    ),
    case(
        "columns count bytes, and a variable that is read twice is named twice",
        ["graph", "u.c"],
        {"u.c": "int d(int a) {\n\tint b = a * a;\n  /* é */ return a + b;\n}\n"},
        (
            "functions 1 inputs 0 nodes 3 edges 2\nfunction 0 d entry 0 exit 1\nnode 0 d u.c:1 depth 0\n"
            "node 1 d u.c:4 depth 0\nnode 2 d u.c:3 depth 0\n"
            "edge 0 from 0 to 2 u.c:2:2 DECL assign writes b reads a a\n"
            "edge 1 from 2 to 1 u.c:3:12 RETURN assign reads a b\n"
        ),
    ),
    case(
        "an input function alone",
        ["graph", "e.c"],
        {"e.c": "int in(void);\n"},
        "functions 0 inputs 1 nodes 0 edges 0\ninput 0 in\n",
    ),
    case("no functions", ["graph", "e.c", "e.c"], {"e.c": "\n"}, "functions 0 inputs 0 nodes 0 edges 0\n"),
    case(
        "40,000 edges",
        ["graph", "k.c"],
        {"k.c": ["int f(void) {", {"repeat": ";\n", "times": 40000}, "}\n"]},
        [
            (
                "functions 1 inputs 0 nodes 40001 edges 40000\nfunction 0 f entry 0 exit 1\n"
                "node 0 f k.c:1 depth 0\nnode 1 f k.c:40001 depth 0\n"
            ),
            {"count": 39999, "text": "node #+1 f k.c:#+1 depth 0\n"},
            "edge 0 from 0 to 2 k.c:1:14 EMPTY skip\n",
            {"from": 2, "count": 39998, "text": "edge #-1 from # to #+1 k.c:#:1 EMPTY skip\n"},
            "edge 39999 from 40000 to 1 k.c:40000:1 EMPTY skip\n",
        ],
    ),
    refused(
        "one edge more than is allowed",
        ["graph", "k.c"],
        {"k.c": ["int f(void) {", {"repeat": ";", "times": 40001}, "}\n"]},
        "error 41 TooManyEdges limit 40000",
        6,
    ),
    refused("no sources are no command", ["graph"], {}, "error 2 Usage", 2),
    refused("it has no options", ["graph", "a.c", "--json"], {"a.c": NEVER}, "error 2 Usage", 2),
    refused(
        "a source that isn't there goes before a fault in one before it",
        ["graph", "a.c", "b.c"],
        {"a.c": "int f(void) {\n  return y;\n}\n"},
        "error 7 ReadFault b.c",
        7,
    ),
    refused(
        "a fault in the second source",
        ["graph", "a.c", "b.c"],
        {"a.c": NEVER, "b.c": "int g(void) {\n  return y;\n}\n"},
        "error 30 Unknown b.c:2",
        3,
    ),
    refused(
        "a source one byte above the limit",
        ["graph", "k.c"],
        {"k.c": {"repeat": " ", "times": 4194305}},
        "error 16 FileTooLong k.c",
        6,
    ),
    case("standard output is closed", ["graph", "never.c"], {"never.c": NEVER}, status=8, stdout_to="closed"),
    case(
        "standard output takes any smaller number of bytes and then fails",
        ["graph", "e.c"],
        {"e.c": "int in(void);\n"},
        {"first": "functions 0 inputs 1 nodes 0 edges 0\ninput 0 in\n"},
        status=8,
        each=[0, 47],
        stdout_room="n",
    ),
]
