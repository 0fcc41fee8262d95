"""The cases of `measure` at the limits of sources."""

from tests.program.command_cases import ALL, RECURSION, measured, unmeasured

CASES = [
    measured(
        "a recursion with 64 frames at the deepest returns",
        ALL,
        "62\n",
        (
            "goals 12 inputs 1\ninput 1 returned 0\ngoal 1 covered 1 e0@r.c:2\ngoal 2 covered 1 e1@r.c:2\n"
            "goal 3 covered 1 e2@r.c:3\ngoal 4 covered 1 e3@r.c:5\ngoal 5 covered 1 e4@r.c:5\n"
            "goal 6 covered 1 e5@r.c:5\ngoal 7 covered 1 e6@r.c:8\ngoal 8 covered 1 e7@r.c:8\n"
            "goal 9 missed e8@r.c:8\ngoal 10 covered 1 e9@r.c:8\ngoal 11 missed e10@r.c:9\n"
            "goal 12 covered 1 e11@r.c:11\nsuite 1\ncovered 10 of 12\n"
        ),
        sources={"r.c": RECURSION},
        entry="g",
    ),
    measured(
        "one frame more is too deep",
        ALL,
        "63\n",
        (
            "goals 12 inputs 1\ninput 1 too-deep\ngoal 1 missed e0@r.c:2\ngoal 2 missed e1@r.c:2\n"
            "goal 3 missed e2@r.c:3\ngoal 4 missed e3@r.c:5\ngoal 5 missed e4@r.c:5\ngoal 6 missed e5@r.c:5\n"
            "goal 7 missed e6@r.c:8\ngoal 8 missed e7@r.c:8\ngoal 9 missed e8@r.c:8\ngoal 10 missed e9@r.c:8\n"
            "goal 11 missed e10@r.c:9\ngoal 12 missed e11@r.c:11\nsuite\ncovered 0 of 12\n"
        ),
        sources={"r.c": RECURSION},
        entry="g",
    ),
    unmeasured(
        "an array that is one too long",
        ALL,
        "5\n",
        "error 34 ArrayLength limit 1024",
        6,
        sources={"k.c": "int a[1025];\n"},
    ),
    unmeasured(
        "seventeen arrays of 1,024 cells in one frame",
        ALL,
        "5\n",
        "error 37 StoreTooLarge limit 16384",
        6,
        sources={"k.c": ["int f(int x) {\n", {"count": 17, "text": "  int a#[1024];\n"}, "  return x;\n}\n"]},
    ),
    measured(
        "59 pairs of parentheses in a block are accepted",
        ALL,
        "",
        "goals 1 inputs 0\ngoal 1 missed e0@k.c:1\nsuite\ncovered 0 of 1\n",
        sources={
            "k.c": ["int f(void) { return ", {"repeat": "(", "times": 59}, "0", {"repeat": ")", "times": 59}, "; }\n"]
        },
    ),
    unmeasured(
        "one pair more is too deep",
        ALL,
        "5\n",
        "error 22 TooDeep limit 60",
        6,
        sources={
            "k.c": ["int f(void) { return ", {"repeat": "(", "times": 60}, "0", {"repeat": ")", "times": 60}, "; }\n"]
        },
    ),
    measured(
        "a statement of 256 tokens in a row is accepted",
        ALL,
        "1\n",
        "goals 1 inputs 1\ninput 1 returned 128\ngoal 1 covered 1 e0@k.c:1\nsuite 1\ncovered 1 of 1\n",
        sources={"k.c": ["int f(int x) { return x", {"repeat": "+x", "times": 127}, "; }\n"]},
    ),
    unmeasured(
        "one term more is too deep",
        ALL,
        "5\n",
        "error 22 TooDeep limit 256",
        6,
        sources={"k.c": ["int f(int x) { return x", {"repeat": "+x", "times": 128}, "; }\n"]},
    ),
    unmeasured(
        "a source one byte above the limit",
        ALL,
        "5\n",
        "error 16 FileTooLong k.c",
        6,
        sources={"k.c": {"repeat": " ", "times": 4194305}},
    ),
    unmeasured(
        "a source of blanks at the limit has no function",
        ALL,
        "5\n",
        "error 36 NoSuchEntry",
        3,
        sources={"k.c": {"repeat": " ", "times": 4194304}},
    ),
    unmeasured(
        "one token more than is allowed",
        ALL,
        "5\n",
        "error 15 TooManyTokens limit 200000",
        6,
        sources={"k.c": {"repeat": ";", "times": 200001}},
    ),
    unmeasured(
        "one edge more than is allowed",
        ALL,
        "5\n",
        "error 41 TooManyEdges limit 40000",
        6,
        sources={"k.c": ["int f(void) {", {"repeat": ";", "times": 40001}, "}\n"]},
    ),
    measured(
        "59 pairs of parentheses, run once",
        ALL,
        '[{"args":[]}]\n',
        "goals 1 inputs 1\ninput 1 returned 0\ngoal 1 covered 1 e0@k.c:1\nsuite 1\ncovered 1 of 1\n",
        sources={
            "k.c": (
                "int f(void) { return "
                "(((((((((((((((((((((((((((((((((((((((((((((((((((((((((((0)))))))))))))))))))))))))))))))"
                ")))))))))))))))))))))))))))); }\n"
            )
        },
        file="in.json",
    ),
    measured(
        "40,000 edges are run",
        "cover @ENTRY(f)",
        '[{"args":[]}]\n',
        "goals 1 inputs 1\ninput 1 returned 0\ngoal 1 covered 1 e0@k.c:1\nsuite 1\ncovered 1 of 1\n",
        sources={"k.c": ["int f(void) {", {"repeat": ";", "times": 40000}, "}\n"]},
        file="in.json",
    ),
    measured(
        "a source of 200,000 tokens",
        "cover @ENTRY(f18181)",
        "7\n",
        "goals 1 inputs 1\ninput 1 returned 7\ngoal 1 covered 1 e18180@k.c:18181\nsuite 1\ncovered 1 of 1\n",
        sources={"k.c": [{"count": 18181, "text": "int f#(int x) { return x; }\n"}, "int x;\nint y;\nint z;\n"]},
        entry="f18181",
    ),
]
