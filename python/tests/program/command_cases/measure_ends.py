"""The cases of `measure` by how runs end: steps that are too few, and `--ends`."""

from tests.program.command_cases import ALL, ELEMENT, ENDS, WAIT, measured

CASES = [
    measured(
        "a loop that doesn't end is cut and covers nothing",
        ALL,
        "0\n1\n",
        (
            "goals 6 inputs 2\ninput 1 returned 0\ninput 2 cut\ngoal 1 covered 1 e0@a.c:2\n"
            "goal 2 missed e1@a.c:2\ngoal 3 covered 1 e2@a.c:2\ngoal 4 missed e3@a.c:3\n"
            "goal 5 missed e4@a.c:2\ngoal 6 covered 1 e5@a.c:5\nsuite 1\ncovered 3 of 6\n"
        ),
        sources={"a.c": "int f(int n) {\n  while (n > 0) {\n    ;\n  }\n  return n;\n}\n"},
    ),
    measured(
        "a run that is cut covers nothing",
        ALL,
        "5\n",
        (
            "goals 4 inputs 1\ninput 1 cut\ngoal 1 missed e0@a.c:2\ngoal 2 missed e1@a.c:2\n"
            "goal 3 missed e2@a.c:3\ngoal 4 missed e3@a.c:5\nsuite\ncovered 0 of 4\n"
        ),
        options=["--steps", "1"],
    ),
    measured(
        "with one step more it returns",
        ALL,
        "5\n",
        (
            "goals 4 inputs 1\ninput 1 returned 0\ngoal 1 missed e0@a.c:2\ngoal 2 covered 1 e1@a.c:2\n"
            "goal 3 missed e2@a.c:3\ngoal 4 covered 1 e3@a.c:5\nsuite 1\ncovered 2 of 4\n"
        ),
        options=["--steps", "2"],
    ),
    measured(
        "a run of 999,997 steps",
        "cover EDGES(@LINE(5))",
        "249998\n",
        "goals 1 inputs 1\ninput 1 returned 249998\ngoal 1 covered 1 e8@l.c:5\nsuite 1\ncovered 1 of 1\n",
        sources={"l.c": "int f(int n) {\n  int i;\n  for (i = 0; i < n; i++)\n    ;\n  return i;\n}\n"},
        options=["--steps", "1000000"],
    ),
    measured(
        "a run that traps counts under --ends trapped",
        ALL,
        "4\n",
        (
            "goals 3 inputs 1 ends trapped\ninput 1 trapped index\ngoal 1 covered 1 e0@h.c:2\n"
            "goal 2 missed e1@h.c:3\ngoal 3 missed e2@h.c:4\nsuite 1\ncovered 1 of 3\n"
        ),
        sources={"h.c": ELEMENT},
        options=["--ends", "trapped"],
    ),
    measured(
        "a run that traps doesn't count under --ends returned",
        ALL,
        "4\n",
        (
            "goals 3 inputs 1\ninput 1 trapped index\ngoal 1 missed e0@h.c:2\ngoal 2 missed e1@h.c:3\n"
            "goal 3 missed e2@h.c:4\nsuite\ncovered 0 of 3\n"
        ),
        sources={"h.c": ELEMENT},
        options=["--ends=returned"],
    ),
    measured(
        "a run that traps ends in the state before the trap",
        "cover NODES(@LINE(3))$",
        "4\n",
        (
            "goals 2 inputs 1 ends any\ninput 1 trapped index\ngoal 1 covered 1 n2@h.c:3\n"
            "goal 2 missed n3@h.c:4\nsuite 1\ncovered 1 of 2\n"
        ),
        sources={"h.c": ELEMENT},
        options=["--ends", "any"],
    ),
    measured(
        "a blocked run counts under --ends any",
        "cover NODES(@ENTRY(f))",
        "0\n",
        (
            "goals 2 inputs 1 ends any\ninput 1 blocked\ngoal 1 covered 1 n0@g.c:1\ngoal 2 missed n2@g.c:1\n"
            "suite 1\ncovered 1 of 2\n"
        ),
        sources={"g.c": WAIT},
        options=["--ends", "any"],
    ),
    measured(
        "a blocked run doesn't count under --ends trapped",
        "cover NODES(@ENTRY(f))",
        "0\n",
        (
            "goals 2 inputs 1 ends trapped\ninput 1 blocked\ngoal 1 missed n0@g.c:1\ngoal 2 missed n2@g.c:1\n"
            "suite\ncovered 0 of 2\n"
        ),
        sources={"g.c": WAIT},
        options=["--ends", "trapped"],
    ),
    measured(
        "a run that goes too deep counts under --ends any",
        "cover NODES(@ENTRY(f))",
        "1\n",
        "goals 1 inputs 1 ends any\ninput 1 too-deep\ngoal 1 covered 1 n0@r.c:1\nsuite 1\ncovered 1 of 1\n",
        sources={"r.c": "int f(int n) { return f(n - 1); }\n"},
        options=["--ends", "any"],
    ),
    measured(
        "a cut run counts under no ends",
        ALL,
        "5\n",
        (
            "goals 4 inputs 1 ends any\ninput 1 cut\ngoal 1 missed e0@a.c:2\ngoal 2 missed e1@a.c:2\n"
            "goal 3 missed e2@a.c:3\ngoal 4 missed e3@a.c:5\nsuite\ncovered 0 of 4\n"
        ),
        options=["--ends", "any", "--steps", "1"],
    ),
    measured(
        "the report as JSON tells the ends that count",
        "cover @ENTRY(f)",
        "4\n",
        (
            '{"covered":1,"ends":"trapped","goals":[{"answer":"covered","input":1,"text":"e0@h.c:2"}],"i'
            'nputs":[{"end":"trapped index"}],"suite":[1]}\n'
        ),
        sources={"h.c": ELEMENT},
        options=["--json", "--ends", "trapped"],
    ),
    measured(
        "where runs begin, by each end, under --ends returned",
        "cover ^{x == 0}+{x == 1}+{x == 2}+{x == 3}+{x == 4}",
        "0\n1\n2\n3\n4\n",
        (
            "goals 5 inputs 5\ninput 1 returned 0\ninput 2 trapped assert\ninput 3 blocked\ninput 4 too-deep\n"
            "input 5 cut\ngoal 1 covered 1 {x == 0}\ngoal 2 missed {x == 1}\ngoal 3 missed {x == 2}\n"
            "goal 4 missed {x == 3}\ngoal 5 missed {x == 4}\nsuite 1\ncovered 1 of 5\n"
        ),
        sources={"e.c": ENDS},
        options=["--ends", "returned", "--steps", "1000"],
    ),
    measured(
        "where runs end, by each end, under --ends returned",
        "cover NODES(ID)$",
        "0\n1\n2\n3\n4\n",
        (
            "goals 13 inputs 5\ninput 1 returned 0\ninput 2 trapped assert\ninput 3 blocked\ninput 4 too-deep\n"
            "input 5 cut\ngoal 1 missed n0@e.c:1\ngoal 2 covered 1 n1@e.c:1\ngoal 3 missed n2@e.c:1\n"
            "goal 4 missed n3@e.c:1\ngoal 5 missed n4@e.c:1\ngoal 6 missed n5@e.c:1\ngoal 7 missed n6@e.c:1\n"
            "goal 8 missed n7@e.c:1\ngoal 9 missed n8@e.c:1\ngoal 10 missed n9@e.c:1\n"
            "goal 11 missed n10@e.c:1\ngoal 12 missed n11@e.c:1\ngoal 13 missed n12@e.c:1\nsuite 1\n"
            "covered 1 of 13\n"
        ),
        sources={"e.c": ENDS},
        options=["--ends", "returned", "--steps", "1000"],
    ),
    measured(
        "where runs begin, by each end, under --ends trapped",
        "cover ^{x == 0}+{x == 1}+{x == 2}+{x == 3}+{x == 4}",
        "0\n1\n2\n3\n4\n",
        (
            "goals 5 inputs 5 ends trapped\ninput 1 returned 0\ninput 2 trapped assert\ninput 3 blocked\n"
            "input 4 too-deep\ninput 5 cut\ngoal 1 covered 1 {x == 0}\ngoal 2 covered 2 {x == 1}\n"
            "goal 3 missed {x == 2}\ngoal 4 missed {x == 3}\ngoal 5 missed {x == 4}\nsuite 1 2\n"
            "covered 2 of 5\n"
        ),
        sources={"e.c": ENDS},
        options=["--ends", "trapped", "--steps", "1000"],
    ),
    measured(
        "where runs end, by each end, under --ends trapped",
        "cover NODES(ID)$",
        "0\n1\n2\n3\n4\n",
        (
            "goals 13 inputs 5 ends trapped\ninput 1 returned 0\ninput 2 trapped assert\ninput 3 blocked\n"
            "input 4 too-deep\ninput 5 cut\ngoal 1 missed n0@e.c:1\ngoal 2 covered 1 n1@e.c:1\n"
            "goal 3 missed n2@e.c:1\ngoal 4 covered 2 n3@e.c:1\ngoal 5 missed n4@e.c:1\n"
            "goal 6 missed n5@e.c:1\ngoal 7 missed n6@e.c:1\ngoal 8 missed n7@e.c:1\ngoal 9 missed n8@e.c:1\n"
            "goal 10 missed n9@e.c:1\ngoal 11 missed n10@e.c:1\ngoal 12 missed n11@e.c:1\n"
            "goal 13 missed n12@e.c:1\nsuite 1 2\ncovered 2 of 13\n"
        ),
        sources={"e.c": ENDS},
        options=["--ends", "trapped", "--steps", "1000"],
    ),
    measured(
        "where runs begin, by each end, under --ends any",
        "cover ^{x == 0}+{x == 1}+{x == 2}+{x == 3}+{x == 4}",
        "0\n1\n2\n3\n4\n",
        (
            "goals 5 inputs 5 ends any\ninput 1 returned 0\ninput 2 trapped assert\ninput 3 blocked\n"
            "input 4 too-deep\ninput 5 cut\ngoal 1 covered 1 {x == 0}\ngoal 2 covered 2 {x == 1}\n"
            "goal 3 covered 3 {x == 2}\ngoal 4 covered 4 {x == 3}\ngoal 5 missed {x == 4}\nsuite 1 2 3 4\n"
            "covered 4 of 5\n"
        ),
        sources={"e.c": ENDS},
        options=["--ends", "any", "--steps", "1000"],
    ),
    measured(
        "where runs end, by each end, under --ends any",
        "cover NODES(ID)$",
        "0\n1\n2\n3\n4\n",
        (
            "goals 13 inputs 5 ends any\ninput 1 returned 0\ninput 2 trapped assert\ninput 3 blocked\n"
            "input 4 too-deep\ninput 5 cut\ngoal 1 missed n0@e.c:1\ngoal 2 covered 1 n1@e.c:1\n"
            "goal 3 missed n2@e.c:1\ngoal 4 covered 2 n3@e.c:1\ngoal 5 missed n4@e.c:1\n"
            "goal 6 covered 3 n5@e.c:1\ngoal 7 missed n6@e.c:1\ngoal 8 covered 4 n7@e.c:1\n"
            "goal 9 missed n8@e.c:1\ngoal 10 missed n9@e.c:1\ngoal 11 missed n10@e.c:1\n"
            "goal 12 missed n11@e.c:1\ngoal 13 missed n12@e.c:1\nsuite 1 2 3 4\ncovered 4 of 13\n"
        ),
        sources={"e.c": ENDS},
        options=["--ends", "any", "--steps", "1000"],
    ),
]
