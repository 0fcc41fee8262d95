"""The cases of `measure` by its query: goals, passing clauses and predicates, what is refused of them, and their limits."""

from tests.program.command_cases import ALL, CALLS, A, case, measured, refused, unmeasured

CASES = [
    measured(
        "a blank at a query's end",
        "cover EDGES(ID) ",
        "1\n",
        (
            "goals 4 inputs 1\ninput 1 returned 0\ngoal 1 missed e0@a.c:2\ngoal 2 covered 1 e1@a.c:2\n"
            "goal 3 missed e2@a.c:3\ngoal 4 covered 1 e3@a.c:5\nsuite 1\ncovered 2 of 4\n"
        ),
    ),
    measured(
        "a filter that stands alone as the goal",
        "cover @LINE(3)",
        "5\n11\n",
        (
            "goals 1 inputs 2\ninput 1 returned 0\ninput 2 returned 1\ngoal 1 covered 2 e2@a.c:3\nsuite 2\n"
            "covered 1 of 1\n"
        ),
    ),
    measured(
        "all nodes of a branch as goals",
        "cover NODES(ID)",
        "5\n11\n",
        (
            "goals 4 inputs 2\ninput 1 returned 0\ninput 2 returned 1\ngoal 1 covered 1 n0@a.c:1\n"
            "goal 2 covered 1 n1@a.c:6\ngoal 3 covered 1 n2@a.c:5\ngoal 4 covered 2 n3@a.c:2\nsuite 1 2\n"
            "covered 4 of 4\n"
        ),
    ),
    measured(
        "a passing clause that forbids a call",
        "cover @LINE(7) passing ^NOT(@CALL(g))*$",
        "9\n2\n",
        (
            "goals 1 inputs 2\ninput 1 returned 9\ninput 2 returned 0\ngoal 1 covered 2 e7@p.c:7\nsuite 2\n"
            "covered 1 of 1\n"
        ),
        sources={"p.c": CALLS},
    ),
    measured(
        "a predicate as the goal",
        "cover {y == 9}",
        "9\n2\n",
        (
            "goals 1 inputs 2\ninput 1 returned 9\ninput 2 returned 0\ngoal 1 covered 1 {y == 9}\nsuite 1\n"
            "covered 1 of 1\n"
        ),
        sources={"p.c": CALLS},
    ),
    measured(
        "a predicate out of scope is false",
        "cover {y == 9} passing ^{y == 0}",
        "9\n2\n",
        (
            "goals 1 inputs 2\ninput 1 returned 9\ninput 2 returned 0\ngoal 1 missed {y == 9}\nsuite\n"
            "covered 0 of 1\n"
        ),
        sources={"p.c": CALLS},
    ),
    measured(
        "its negation as written is false too",
        "cover {y == 9} passing ^{!(y == 0)}",
        "9\n2\n",
        (
            "goals 1 inputs 2\ninput 1 returned 9\ninput 2 returned 0\ngoal 1 missed {y == 9}\nsuite\n"
            "covered 0 of 1\n"
        ),
        sources={"p.c": CALLS},
    ),
    unmeasured(
        "a predicate that is typable nowhere",
        "cover {q}",
        "9\n2\n",
        "error 66 PredicateNowhere query",
        4,
        sources={"p.c": CALLS},
    ),
    unmeasured(
        "a repetition outside quotation marks", "cover EDGES(ID)*", "5\n11\n", "error 62 StarOutsideQuotes query:16", 4
    ),
    unmeasured(
        "a filter that names no function", "cover EDGES(@FUNC(zz))", "5\n11\n", "error 70 NoSuchName query:13", 4
    ),
    unmeasured("a query that ends too early", "cover", "5\n11\n", "error 61 QuerySyntax query", 4),
    unmeasured("a query without goals", "cover @LINE(999)", "5\n11\n", "error 72 NoGoals query", 4),
    unmeasured(
        "a path bound of 0, by the command measure", "cover PATHS(ID,0)", "5\n11\n", "error 64 BadNumber query:16", 4
    ),
    refused(
        "a query of 4,097 bytes, by the command measure",
        ["measure", "f", [ALL, {"repeat": " ", "times": 4082}], "in.txt", "a.c"],
        {"in.txt": "5\n11\n", "a.c": A},
        "error 63 TooLarge limit 4096",
        6,
    ),
    unmeasured(
        "6,400 letters in one pattern, by the command measure",
        'cover "(ID==80)==80"',
        "5\n11\n",
        "error 73 PatternTooLarge limit 5000",
        6,
    ),
    unmeasured(
        "a count of letters above 64 bits, by the command measure",
        'cover "ID==100==100==100==100==100==100==100==100==100==100"',
        "5\n11\n",
        "error 73 PatternTooLarge limit 5000",
        6,
    ),
    unmeasured(
        "61 open brackets in a query, by the command measure",
        "cover (((((((((((((((((((((((((((((((((((((((((((((((((((((((((((((",
        "5\n11\n",
        "error 63 TooLarge limit 60",
        6,
    ),
    measured(
        "a quoted repetition before a predicate",
        'cover "ID*".{y == 9}',
        "9\n2\n",
        (
            'goals 1 inputs 2\ninput 1 returned 9\ninput 2 returned 0\ngoal 1 covered 1 "ID*" . {y == 9}\n'
            "suite 1\ncovered 1 of 1\n"
        ),
        sources={"p.c": CALLS},
    ),
    measured(
        "a predicate tied to the first state",
        "cover ^{x == 2}",
        "9\n2\n",
        (
            "goals 1 inputs 2\ninput 1 returned 9\ninput 2 returned 0\ngoal 1 covered 2 {x == 2}\nsuite 2\n"
            "covered 1 of 1\n"
        ),
        sources={"p.c": CALLS},
    ),
    measured(
        "a predicate tied to the last state",
        "cover {x == 2}$",
        "9\n2\n",
        (
            "goals 1 inputs 2\ninput 1 returned 9\ninput 2 returned 0\ngoal 1 covered 2 {x == 2}\nsuite 2\n"
            "covered 1 of 1\n"
        ),
        sources={"p.c": CALLS},
    ),
    unmeasured(
        "the number of a repetition outside the quotation marks",
        'cover ^"ID=="2$',
        "9\n2\n",
        "error 61 QuerySyntax query",
        4,
        sources={"p.c": CALLS},
    ),
    unmeasured(
        "a predicate that is no expression",
        "cover {x +}",
        "9\n2\n",
        "error 65 PredicateSyntax query",
        4,
        sources={"p.c": CALLS},
    ),
    unmeasured(
        "a predicate of 257 tokens",
        (
            "cover "
            "{x+x+x+x+x+x+x+x+x+x+x+x+x+x+x+x+x+x+x+x+x+x+x+x+x+x+x+x+x+x+x+x+x+x+x+x+x+x+x+x+x+x+x+x+x+"
            "x+x+x+x+x+x+x+x+x+x+x+x+x+x+x+x+x+x+x+x+x+x+x+x+x+x+x+x+x+x+x+x+x+x+x+x+x+x+x+x+x+x+x+x+x+x"
            "+x+x+x+x+x+x+x+x+x+x+x+x+x+x+x+x+x+x+x+x+x+x+x+x+x+x+x+x+x+x+x+x+x+x+x+x+x+x}"
        ),
        "9\n2\n",
        "error 65 PredicateSyntax query",
        4,
        sources={"p.c": CALLS},
    ),
    unmeasured(
        "65 different predicates",
        (
            "cover {x == 0} + {x == 1} + {x == 2} + {x == 3} + {x == 4} + {x == 5} + {x == 6} + {x == "
            "7} + {x == 8} + {x == 9} + {x == 10} + {x == 11} + {x == 12} + {x == 13} + {x == 14} + {x "
            "== 15} + {x == 16} + {x == 17} + {x == 18} + {x == 19} + {x == 20} + {x == 21} + {x == "
            "22} + {x == 23} + {x == 24} + {x == 25} + {x == 26} + {x == 27} + {x == 28} + {x == 29} + "
            "{x == 30} + {x == 31} + {x == 32} + {x == 33} + {x == 34} + {x == 35} + {x == 36} + {x == "
            "37} + {x == 38} + {x == 39} + {x == 40} + {x == 41} + {x == 42} + {x == 43} + {x == 44} + "
            "{x == 45} + {x == 46} + {x == 47} + {x == 48} + {x == 49} + {x == 50} + {x == 51} + {x == "
            "52} + {x == 53} + {x == 54} + {x == 55} + {x == 56} + {x == 57} + {x == 58} + {x == 59} + "
            "{x == 60} + {x == 61} + {x == 62} + {x == 63} + {x == 64}"
        ),
        "9\n2\n",
        "error 67 TooManyPredicates limit 64",
        6,
        sources={"p.c": CALLS},
    ),
    measured(
        "the measuring report as one line of JSON",
        ALL,
        "5\n11\n",
        (
            '{"covered":4,"goals":[{"answer":"covered","input":2,"text":"e0@a.c:2"},{"answer":"covered",'
            '"input":1,"text":"e1@a.c:2"},{"answer":"covered","input":2,"text":"e2@a.c:3"},{"answer":"co'
            'vered","input":1,"text":"e3@a.c:5"}],"inputs":[{"end":"returned","value":0},{"end":"returne'
            'd","value":1}],"suite":[1,2]}\n'
        ),
        options=["--json"],
    ),
    case(
        "10,000 goals of a query of 4,096 bytes",
        ["measure", "f", [ALL, {"repeat": " ", "times": 4081}], "in.json", "k.c"],
        {"in.json": '[{"args":[]}]\n', "k.c": ["int f(void) {\n", {"repeat": ";\n", "times": 10000}, "}\n"]},
        [
            "goals 10000 inputs 1\ninput 1 returned 0\n",
            {"count": 10000, "text": "goal # covered 1 e#-1@k.c:#+1\n"},
            "suite 1\ncovered 10000 of 10000\n",
        ],
    ),
    measured(
        "5,000 letters in one pattern",
        'cover ^"(ID==50)==100"$',
        '[{"args":[]}]\n',
        ('goals 1 inputs 1\ninput 1 returned 0\ngoal 1 covered 1 "(ID==50)==100"\nsuite 1\n' "covered 1 of 1\n"),
        sources={"k.c": ["int f(void) {\n", {"repeat": ";", "times": 5000}, "}\n"]},
        file="in.json",
    ),
]
