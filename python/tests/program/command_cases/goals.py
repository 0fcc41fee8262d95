"""The cases of `goals`."""

from tests.program.command_cases import ALL, CALLEE, CALLER, CALLS, A, case, refused

CASES = [
    case(
        "the bounded paths of a condition, in order",
        ["goals", "cover PATHS(@CONDITIONGRAPH,1)", "q.c"],
        {
            "q.c": (
                "int f(int a, int b, int c) {\n  if (a > 0 && b > 0 && c > 0) {\n    return 1;\n  }\n  return 0;\n"
                "}\n"
            )
        },
        (
            "goals 4\ngoal 1 e0@q.c:2 . e2@q.c:2 . e4@q.c:2\ngoal 2 e0@q.c:2 . e2@q.c:2 . e5@q.c:2\n"
            "goal 3 e0@q.c:2 . e3@q.c:2\ngoal 4 e1@q.c:2\n"
        ),
    ),
    refused(
        "sixteen thousand paths are too many",
        ["goals", "cover PATHS(@FUNC(f),1)", "k.c"],
        {
            "k.c": (
                "int f(int x) {\n  int y = 0;\n  if (x > 0) { y = 1; }\n  if (x > 0) { y = 1; }\n"
                "  if (x > 0) { y = 1; }\n  if (x > 0) { y = 1; }\n  if (x > 0) { y = 1; }\n"
                "  if (x > 0) { y = 1; }\n  if (x > 0) { y = 1; }\n  if (x > 0) { y = 1; }\n"
                "  if (x > 0) { y = 1; }\n  if (x > 0) { y = 1; }\n  if (x > 0) { y = 1; }\n"
                "  if (x > 0) { y = 1; }\n  if (x > 0) { y = 1; }\n  if (x > 0) { y = 1; }\n  return y;\n}\n"
            )
        },
        "error 71 TooManyGoals limit 10000",
        6,
    ),
    case(
        "the words of a sum in order, a later duplicate dropped",
        ["goals", "cover EDGES(@CALL(g)) + EDGES(@FUNC(f))", "p.c"],
        {"p.c": CALLS},
        (
            "goals 7\ngoal 1 e4@p.c:5\ngoal 2 e1@p.c:3\ngoal 3 e2@p.c:4\ngoal 4 e3@p.c:4\ngoal 5 e5@p.c:5\n"
            "goal 6 e6@p.c:5\ngoal 7 e7@p.c:7\n"
        ),
    ),
    refused(
        "a repetition outside quotation marks, by the command goals",
        ["goals", "cover EDGES(ID)*", "a.c"],
        {"a.c": A},
        "error 62 StarOutsideQuotes query:16",
        4,
    ),
    refused(
        "a filter that names no function, by the command goals",
        ["goals", "cover EDGES(@FUNC(zz))", "a.c"],
        {"a.c": A},
        "error 70 NoSuchName query:13",
        4,
    ),
    refused(
        "a query that ends too early, by the command goals",
        ["goals", "cover", "a.c"],
        {"a.c": A},
        "error 61 QuerySyntax query",
        4,
    ),
    refused(
        "a query without goals, by the command goals",
        ["goals", "cover @LINE(999)", "a.c"],
        {"a.c": A},
        "error 72 NoGoals query",
        4,
    ),
    refused("a path bound of 0", ["goals", "cover PATHS(ID,0)", "a.c"], {"a.c": A}, "error 64 BadNumber query:16", 4),
    refused(
        "a query of 4,097 bytes",
        ["goals", [ALL, {"repeat": " ", "times": 4082}], "a.c"],
        {"a.c": A},
        "error 63 TooLarge limit 4096",
        6,
    ),
    refused(
        "6,400 letters in one pattern",
        ["goals", 'cover "(ID==80)==80"', "a.c"],
        {"a.c": A},
        "error 73 PatternTooLarge limit 5000",
        6,
    ),
    refused(
        "a count of letters above 64 bits",
        ["goals", 'cover "ID==100==100==100==100==100==100==100==100==100==100"', "a.c"],
        {"a.c": A},
        "error 73 PatternTooLarge limit 5000",
        6,
    ),
    refused(
        "61 open brackets in a query",
        ["goals", "cover (((((((((((((((((((((((((((((((((((((((((((((((((((((((((((((", "a.c"],
        {"a.c": A},
        "error 63 TooLarge limit 60",
        6,
    ),
    case(
        "two sources make one unit",
        ["goals", ALL, "p1.c", "p2.c"],
        {"p1.c": CALLEE, "p2.c": CALLER},
        (
            "goals 8\ngoal 1 e0@p1.c:1\ngoal 2 e1@p2.c:2\ngoal 3 e2@p2.c:3\ngoal 4 e3@p2.c:3\n"
            "goal 5 e4@p2.c:4\ngoal 6 e5@p2.c:4\ngoal 7 e6@p2.c:4\ngoal 8 e7@p2.c:6\n"
        ),
    ),
]
