"""The cases of `measure` by its inputs: their forms, what is refused of them, and what runs do with them."""

from tests.program.command_cases import ALL, BOTH, REPORT, measured, unmeasured

CASES = [
    measured("two inputs cover all four edges of a branch", ALL, "5\n11\n", REPORT),
    measured(
        "an empty file of inputs misses every goal",
        ALL,
        "",
        (
            "goals 4 inputs 0\ngoal 1 missed e0@a.c:2\ngoal 2 missed e1@a.c:2\ngoal 3 missed e2@a.c:3\n"
            "goal 4 missed e3@a.c:5\nsuite\ncovered 0 of 4\n"
        ),
    ),
    measured("blank lines, tabs and carriage returns are blanks", ALL, "\n \t\r\n\t5\t\r\n\n  11", REPORT),
    measured(
        "a suite keeps the first input of each side",
        ALL,
        "5\n6\n11\n12\n",
        (
            "goals 4 inputs 4\ninput 1 returned 0\ninput 2 returned 0\ninput 3 returned 1\ninput 4 returned 1\n"
            "goal 1 covered 3 e0@a.c:2\ngoal 2 covered 1 e1@a.c:2\ngoal 3 covered 3 e2@a.c:3\n"
            "goal 4 covered 1 e3@a.c:5\nsuite 1 3\ncovered 4 of 4\n"
        ),
    ),
    measured(
        "one input covers one side",
        ALL,
        "11\n",
        (
            "goals 4 inputs 1\ninput 1 returned 1\ngoal 1 covered 1 e0@a.c:2\ngoal 2 missed e1@a.c:2\n"
            "goal 3 covered 1 e2@a.c:3\ngoal 4 missed e3@a.c:5\nsuite 1\ncovered 2 of 4\n"
        ),
    ),
    measured(
        "a word is converted to int",
        ALL,
        "4294967307\n2147483648\n",
        (
            "goals 4 inputs 2\ninput 1 returned 1\ninput 2 returned 0\ngoal 1 covered 1 e0@a.c:2\n"
            "goal 2 covered 2 e1@a.c:2\ngoal 3 covered 1 e2@a.c:3\ngoal 4 covered 2 e3@a.c:5\nsuite 1 2\n"
            "covered 4 of 4\n"
        ),
    ),
    measured(
        "all on one line, with the other names and relation",
        ALL,
        "-7\n",
        (
            "goals 4 inputs 1\ninput 1 returned 999999999\ngoal 1 covered 1 e0@b.c:1\ngoal 2 missed e1@b.c:1\n"
            "goal 3 covered 1 e2@b.c:1\ngoal 4 missed e3@b.c:1\nsuite 1\ncovered 2 of 4\n"
        ),
        sources={"b.c": "int h(int q){if(q!=7){return 999999999;}return 0;}"},
        entry="h",
    ),
    unmeasured("an argument above 64 bits", ALL, "5\n99999999999999999999\n", "error 52 Range input 2", 5),
    unmeasured(
        "inputs one byte above the limit", ALL, {"repeat": " ", "times": 16777217}, "error 16 FileTooLong in.txt", 6
    ),
    unmeasured("10,001 inputs", ALL, {"repeat": "5\n", "times": 10001}, "error 53 TooManyInputs limit 10000", 6),
    measured(
        "an input as JSON",
        ALL,
        '[{"args":[5]}]',
        (
            "goals 4 inputs 1\ninput 1 returned 0\ngoal 1 missed e0@a.c:2\ngoal 2 covered 1 e1@a.c:2\n"
            "goal 3 missed e2@a.c:3\ngoal 4 covered 1 e3@a.c:5\nsuite 1\ncovered 2 of 4\n"
        ),
    ),
    measured(
        "500 inputs are measured",
        ALL,
        {"repeat": "5\n", "times": 500},
        [
            "goals 4 inputs 500\n",
            {"count": 500, "text": "input # returned 0\n"},
            (
                "goal 1 missed e0@a.c:2\ngoal 2 covered 1 e1@a.c:2\ngoal 3 missed e2@a.c:3\n"
                "goal 4 covered 1 e3@a.c:5\nsuite 1\ncovered 2 of 4\n"
            ),
        ],
    ),
    measured(
        "10,000 inputs are measured",
        ALL,
        {"repeat": "5\n", "times": 10000},
        [
            "goals 4 inputs 10000\n",
            {"count": 10000, "text": "input # returned 0\n"},
            (
                "goal 1 missed e0@a.c:2\ngoal 2 covered 1 e1@a.c:2\ngoal 3 missed e2@a.c:3\n"
                "goal 4 covered 1 e3@a.c:5\nsuite 1\ncovered 2 of 4\n"
            ),
        ],
    ),
    unmeasured(
        "a directive outside the profile",
        ALL,
        "5\n",
        "error 12 Directive k.c:1",
        3,
        sources={"k.c": "#if 1\nint f(int x) { return x; }\n#endif\n"},
    ),
    measured(
        "a void function without parameters, node goals, a JSON input",
        "cover NODES(ID)",
        '[{"args":[]}]\n',
        (
            "goals 2 inputs 1\ninput 1 returned\ngoal 1 covered 1 n0@b.c:1\ngoal 2 covered 1 n1@b.c:1\n"
            "suite 1\ncovered 2 of 2\n"
        ),
        sources={"b.c": "void f(void) {}\n"},
        file="in.json",
    ),
    measured(
        "an input function gives 0 once its answers are used up",
        "cover @LINE(9)",
        '[{"args":[1],"answers":[5]}]\n',
        "goals 1 inputs 1\ninput 1 returned 0\ngoal 1 missed e11@i.c:9\nsuite\ncovered 0 of 1\n",
        sources={"i.c": BOTH},
        file="in.json",
    ),
    unmeasured(
        "an input with one argument too many", ALL, '[{"args":[1,2]}]\n', "error 51 Shape input 1", 5, file="in.json"
    ),
    unmeasured("a text that begins as JSON and isn't", ALL, "[1\n", "error 50 NotJson input 0", 5, file="in.json"),
    measured(
        "inputs of blanks at the limit",
        ALL,
        {"repeat": " ", "times": 16777216},
        (
            "goals 4 inputs 0\ngoal 1 missed e0@a.c:2\ngoal 2 missed e1@a.c:2\ngoal 3 missed e2@a.c:3\n"
            "goal 4 missed e3@a.c:5\nsuite\ncovered 0 of 4\n"
        ),
    ),
    unmeasured("an object as JSON inputs has the line form", ALL, '{"args":[5]}', "error 51 Shape input 1", 5),
    unmeasured(
        "an answer that is no whole number",
        ALL,
        '[{"args":[5]},{"args":[5],"answers":[1.0]}]',
        "error 51 Shape input 2",
        5,
    ),
    measured(
        "10,000 inputs as JSON",
        ALL,
        ["[", {"repeat": '{"args":[5]},', "times": 9999}, '{"args":[5]}]\n'],
        [
            "goals 4 inputs 10000\n",
            {"count": 10000, "text": "input # returned 0\n"},
            (
                "goal 1 missed e0@a.c:2\ngoal 2 covered 1 e1@a.c:2\ngoal 3 missed e2@a.c:3\n"
                "goal 4 covered 1 e3@a.c:5\nsuite 1\ncovered 2 of 4\n"
            ),
        ],
        file="in.json",
    ),
]
