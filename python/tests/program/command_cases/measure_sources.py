"""The cases of `measure` by its sources: C's meaning, and what is refused of them."""

from tests.program.command_cases import ALL, CALLEE, CALLER, ELEMENT, A, case, measured, unmeasured

CASES = [
    measured(
        "an index outside the array traps and covers nothing",
        ALL,
        "3\n4\n-1\n",
        (
            "goals 3 inputs 3\ninput 1 returned 0\ninput 2 trapped index\ninput 3 trapped index\n"
            "goal 1 covered 1 e0@h.c:2\ngoal 2 covered 1 e1@h.c:3\ngoal 3 covered 1 e2@h.c:4\nsuite 1\n"
            "covered 3 of 3\n"
        ),
        sources={"h.c": ELEMENT},
    ),
    measured(
        "an edge that only a trapped run took is missed",
        ALL,
        "4\n",
        (
            "goals 3 inputs 1\ninput 1 trapped index\ngoal 1 missed e0@h.c:2\ngoal 2 missed e1@h.c:3\n"
            "goal 3 missed e2@h.c:4\nsuite\ncovered 0 of 3\n"
        ),
        sources={"h.c": ELEMENT},
    ),
    measured(
        "the two traps of a division, and truncation toward zero",
        ALL,
        "-2147483648 -1\n7 0\n-7 2\n",
        (
            "goals 1 inputs 3\ninput 1 trapped overflow-divisor\ninput 2 trapped zero-divisor\n"
            "input 3 returned -3\ngoal 1 covered 3 e0@k.c:1\nsuite 3\ncovered 1 of 1\n"
        ),
        sources={"k.c": "int f(int a, int b) { return a / b; }\n"},
    ),
    measured(
        "a shift amount equal to the width traps; the greatest amount keeps the low bits",
        ALL,
        "32\n31\n",
        (
            "goals 1 inputs 2\ninput 1 trapped shift\ninput 2 returned -2147483648\ngoal 1 covered 2 e0@k.c:1\n"
            "suite 2\ncovered 1 of 1\n"
        ),
        sources={"k.c": "int f(int s) { return 1 << s; }\n"},
    ),
    unmeasured(
        "a comment that is never closed",
        ALL,
        "5\n",
        "error 11 OpenComment k.c:1",
        3,
        sources={"k.c": "int f(void) { /* x\n"},
    ),
    unmeasured(
        "a word outside the profile", ALL, "5\n", "error 21 OutOfProfile k.c:1", 3, sources={"k.c": "float x;\n"}
    ),
    unmeasured(
        "a name that isn't declared",
        ALL,
        "5\n",
        "error 30 Unknown k.c:1",
        3,
        sources={"k.c": "int f(void) { return y; }\n"},
    ),
    measured(
        "the same source once every accepted source is run",
        ALL,
        "5\n",
        "goals 1 inputs 1\ninput 1 returned 5\ngoal 1 covered 1 e0@k.c:1\nsuite 1\ncovered 1 of 1\n",
        sources={"k.c": "int f(int x) { return x; }\n"},
    ),
    measured(
        "a comment and a macro, with the lines of the text",
        ALL,
        "5\n11\n",
        (
            "goals 4 inputs 2\ninput 1 returned 0\ninput 2 returned 1\ngoal 1 covered 2 e0@k.c:4\n"
            "goal 2 covered 1 e1@k.c:4\ngoal 3 covered 2 e2@k.c:5\ngoal 4 covered 1 e3@k.c:7\nsuite 1 2\n"
            "covered 4 of 4\n"
        ),
        sources={
            "k.c": (
                "/* the bound */\n#define N 10\nint f(int x) {\n  if (x > N) {\n    return 1;\n  }\n  return 0;\n" "}\n"
            )
        },
    ),
    unmeasured(
        "a byte with which no token begins",
        ALL,
        "5\n",
        "error 10 UnknownByte k.c:1",
        3,
        sources={"k.c": "int f(void) { return @; }\n"},
    ),
    unmeasured(
        "a decimal number above the widest signed kind",
        ALL,
        "5\n",
        "error 13 LiteralTooWide k.c:1",
        3,
        sources={"k.c": "long f(void) { return 9223372036854775808; }\n"},
    ),
    unmeasured(
        "a missing semicolon", ALL, "5\n", "error 20 Syntax k.c:1", 3, sources={"k.c": "int f(void) { return 1 }\n"}
    ),
    measured(
        "a signed sum wraps",
        ALL,
        "2147483647 1\n",
        ("goals 1 inputs 1\ninput 1 returned -2147483648\ngoal 1 covered 1 e0@k.c:1\nsuite 1\n" "covered 1 of 1\n"),
        sources={"k.c": "int f(int a, int b) { return a + b; }\n"},
    ),
    measured(
        "two sources are one unit, in the order of the words",
        ALL,
        "9\n2\n",
        (
            "goals 8 inputs 2\ninput 1 returned 9\ninput 2 returned 0\ngoal 1 covered 1 e0@p1.c:1\n"
            "goal 2 covered 1 e1@p2.c:2\ngoal 3 covered 1 e2@p2.c:3\ngoal 4 covered 2 e3@p2.c:3\n"
            "goal 5 covered 1 e4@p2.c:4\ngoal 6 covered 1 e5@p2.c:4\ngoal 7 covered 1 e6@p2.c:4\n"
            "goal 8 covered 1 e7@p2.c:6\nsuite 1 2\ncovered 8 of 8\n"
        ),
        sources={"p1.c": CALLEE, "p2.c": CALLER},
    ),
    unmeasured(
        "a byte above 127 in a source",
        ALL,
        "1\n",
        "error 10 UnknownByte a.c:2",
        3,
        sources={"a.c": ["int f(int x) { return x; }\n", {"hex": "c3a4"}]},
    ),
    measured(
        "a loop, a call and a trap, in two sources",
        ALL,
        "4\n0\n",
        (
            "goals 15 inputs 2\ninput 1 returned 2\ninput 2 trapped zero-divisor\n"
            "goal 1 missed e0@quotient.c:2\ngoal 2 covered 1 e1@quotient.c:2\ngoal 3 missed e2@quotient.c:3\n"
            "goal 4 covered 1 e3@quotient.c:5\ngoal 5 covered 1 e4@average.c:2\n"
            "goal 6 covered 1 e5@average.c:3\ngoal 7 covered 1 e6@average.c:4\n"
            "goal 8 covered 1 e7@average.c:4\ngoal 9 covered 1 e8@average.c:4\n"
            "goal 10 covered 1 e9@average.c:5\ngoal 11 covered 1 e10@average.c:6\n"
            "goal 12 covered 1 e11@average.c:4\ngoal 13 covered 1 e12@average.c:8\n"
            "goal 14 covered 1 e13@average.c:8\ngoal 15 covered 1 e14@average.c:8\nsuite 1\ncovered 13 of 15\n"
        ),
        sources={
            "quotient.c": (
                "int quotient(int sum, int count) {\n  if (count < 0) {\n    return -1;\n  }\n"
                "  return sum / count;\n}\n"
            ),
            "average.c": (
                "int average(int last) {\n  int sum = 0;\n  int i = 0;\n  while (i < last) {\n    i = i + 1;\n"
                "    sum = sum + i;\n  }\n  return quotient(sum, i);\n}\n"
            ),
        },
        entry="average",
    ),
    unmeasured(
        "two macros that name each other",
        ALL,
        "5\n",
        "error 14 MacroLoop k.c:3",
        3,
        sources={"k.c": "#define A B\n#define B A\nint f(void) { return A; }\n"},
    ),
    measured(
        "ten inputs of a triangle classifier, with the suite that is kept",
        "in @FUNC(classify) cover @CONDITIONEDGE",
        "3 4 5\n0 4 5\n3 0 5\n3 4 0\n1 2 9\n9 1 2\n1 9 2\n2 2 2\n2 2 3\n5 4 3\n",
        (
            "goals 22 inputs 10\ninput 1 returned 1\ninput 2 returned 0\ninput 3 returned 0\n"
            "input 4 returned 0\ninput 5 returned 0\ninput 6 returned 0\ninput 7 returned 0\n"
            "input 8 returned 3\ninput 9 returned 2\ninput 10 returned 1\ngoal 1 covered 2 e11@tri.c:34\n"
            "goal 2 covered 1 e12@tri.c:34\ngoal 3 covered 3 e13@tri.c:34\ngoal 4 covered 1 e14@tri.c:34\n"
            "goal 5 covered 4 e15@tri.c:34\ngoal 6 covered 1 e16@tri.c:34\ngoal 7 covered 5 e18@tri.c:37\n"
            "goal 8 covered 1 e19@tri.c:37\ngoal 9 covered 6 e20@tri.c:37\ngoal 10 covered 1 e21@tri.c:37\n"
            "goal 11 covered 7 e22@tri.c:37\ngoal 12 covered 1 e23@tri.c:37\ngoal 13 covered 8 e25@tri.c:40\n"
            "goal 14 covered 1 e26@tri.c:40\ngoal 15 covered 8 e27@tri.c:40\ngoal 16 covered 9 e28@tri.c:40\n"
            "goal 17 covered 9 e30@tri.c:43\ngoal 18 covered 1 e31@tri.c:43\ngoal 19 missed e32@tri.c:43\n"
            "goal 20 covered 1 e33@tri.c:43\ngoal 21 missed e34@tri.c:43\ngoal 22 covered 1 e35@tri.c:43\n"
            "suite 1 2 3 4 5 6 7 8 9\ncovered 20 of 22\n"
        ),
        sources={
            "tri.c": (
                "#include <stdint.h>\n#include <assert.h>\n\n#define SIZE 4\n#define BAD 0\n\n"
                "enum { SCALENE = 1, ISOSCELES, EQUILATERAL };\n\nint next_side(void);\n\n"
                "static uint8_t ring[SIZE];\nstatic unsigned head;\nstatic unsigned count;\n\n"
                "/* Store one side, dropping it when the ring is full. */\nstatic int put(uint8_t v) {\n"
                "  if (count == SIZE) {\n    return 0;\n  }\n  ring[(head + count) % SIZE] = v;\n  count++;\n"
                "  return 1;\n}\n\nstatic uint8_t take(void) {\n  assert(count > 0);\n  uint8_t v = ring[head];\n"
                "  head = (head + 1) % SIZE;\n  count--;\n  return v;\n}\n\nint classify(int a, int b, int c) {\n"
                "  if (a <= 0 || b <= 0 || c <= 0) {\n    return BAD;\n  }\n"
                "  if (a + b <= c || b + c <= a || a + c <= b) {\n    return BAD;\n  }\n  if (a == b && b == c) {\n"
                "    return EQUILATERAL;\n  }\n  if (a == b || b == c || a == c) {\n    return ISOSCELES;\n  }\n"
                "  return SCALENE;\n}\n\nint main_loop(int n) {\n  for (int i = 0; i < n; i++) {\n"
                "    put((uint8_t) next_side());\n  }\n  if (count < 3) {\n    return BAD;\n  }\n"
                "  int a = take();\n  int b = take();\n  int c = take();\n  return classify(a, b, c);\n}\n"
            )
        },
        entry="classify",
    ),
    measured(
        "the index of a compound assignment is computed once",
        ALL,
        '[{"args":[3],"answers":[1,0]}]\n',
        (
            "goals 6 inputs 1\ninput 1 returned 10\ngoal 1 covered 1 e0@k.c:1\ngoal 2 covered 1 e1@k.c:1\n"
            "goal 3 covered 1 e2@k.c:1\ngoal 4 covered 1 e3@k.c:1\ngoal 5 covered 1 e4@k.c:1\n"
            "goal 6 covered 1 e5@k.c:1\nsuite 1\ncovered 6 of 6\n"
        ),
        sources={"k.c": "int in(void); int f(int x) { int a[2] = {5, 7}; a[in()] += x; return a[1]; }\n"},
        file="in.json",
    ),
    case(
        "each beginning of a source that ends before its last brace",
        ["measure", "f", ALL, "in.txt", "k.c"],
        {"in.txt": "5\n", "k.c": {"first": A}},
        status=3,
        stderr="error 20 Syntax k.c:1\n",
        each=[1, 61],
    ),
]
