"""The cases of `measure` by its words, the files that they name, the order of refusals, and the streams."""

from tests.program.command_cases import ALL, CALLEE, CALLER, REPORT, A, case, refused, unmeasured

CASES = [
    case("no words are no command", [], {}, status=2, stderr="error 2 Usage\n"),
    refused("two words are no command", ["measure", "f"], {}, "error 2 Usage", 2),
    refused(
        "a word that begins with a dash is no command",
        ["measure", "f", ALL, "-", "a.c"],
        {"in.txt": "5\n", "a.c": A},
        "error 2 Usage",
        2,
    ),
    refused(
        "words that aren't UTF-8 are no command",
        ["measure", "f", ALL, "in.txt", {"hex": "ff"}],
        {"in.txt": "5\n", "a.c": A},
        "error 2 Usage",
        2,
    ),
    refused(
        "a source that isn't there",
        ["measure", "f", ALL, "in.txt", "nosuch.c"],
        {"in.txt": "5\n"},
        "error 7 ReadFault nosuch.c",
        7,
    ),
    refused(
        "inputs that aren't there", ["measure", "f", ALL, "in.txt", "a.c"], {"a.c": A}, "error 7 ReadFault in.txt", 7
    ),
    refused(
        "the source is read before the inputs", ["measure", "f", ALL, "in.txt", "a.c"], {}, "error 7 ReadFault a.c", 7
    ),
    refused(
        "a folder named as the source",
        ["measure", "f", ALL, "in.txt", "a.c"],
        {"in.txt": "5\n", "a.c": {"folder": True}},
        "error 7 ReadFault a.c",
        7,
    ),
    refused("an empty name", ["measure", "f", ALL, "in.txt", ""], {"in.txt": "5\n"}, "error 7 ReadFault ", 7),
    case(
        "standard output is full",
        ["measure", "f", ALL, "in.txt", "a.c"],
        {"in.txt": "5\n", "a.c": A},
        status=8,
        stdout_to="/dev/full",
    ),
    case(
        "standard output is closed",
        ["measure", "f", ALL, "in.txt", "a.c"],
        {"in.txt": "5\n", "a.c": A},
        status=8,
        stdout_to="closed",
    ),
    case("standard error is full", ["measure", "f"], {}, status=8, stderr_to="/dev/full"),
    case("standard error is closed", ["measure", "f"], {}, status=8, stderr_to="closed"),
    case(
        "standard output takes 1 bytes and then fails",
        ["measure", "f", ALL, "in.txt", "a.c"],
        {"in.txt": "5\n11\n", "a.c": A},
        "g",
        status=8,
        stdout_room=1,
    ),
    case(
        "standard output takes 10 bytes and then fails",
        ["measure", "f", ALL, "in.txt", "a.c"],
        {"in.txt": "5\n11\n", "a.c": A},
        "goals 4 in",
        status=8,
        stdout_room=10,
    ),
    case(
        "standard output takes 183 bytes and then fails",
        ["measure", "f", ALL, "in.txt", "a.c"],
        {"in.txt": "5\n11\n", "a.c": A},
        (
            "goals 4 inputs 2\ninput 1 returned 0\ninput 2 returned 1\ngoal 1 covered 2 e0@a.c:2\n"
            "goal 2 covered 1 e1@a.c:2\ngoal 3 covered 2 e2@a.c:3\ngoal 4 covered 1 e3@a.c:5\nsuite 1 2\n"
            "covered 4 of 4"
        ),
        status=8,
        stdout_room=183,
    ),
    case(
        "standard output takes the whole text",
        ["measure", "f", ALL, "in.txt", "a.c"],
        {"in.txt": "5\n11\n", "a.c": A},
        REPORT,
        stdout_room=184,
    ),
    case(
        "a file's name with a line feed is printed as it is",
        ["measure", "f", ALL, "in.txt", "a\nb.c"],
        {"in.txt": "5\n"},
        status=7,
        stderr="error 7 ReadFault a\nb.c\n",
    ),
    unmeasured("an entry that isn't defined", ALL, "5\n11\n", "error 36 NoSuchEntry", 3, entry="zz"),
    refused(
        "a source that is named twice is read twice",
        ["measure", "f", ALL, "in.txt", "a.c", "a.c"],
        {"in.txt": "1\n", "a.c": A},
        "error 31 Twice a.c:1",
        3,
    ),
    refused(
        "the second source isn't there",
        ["measure", "f", ALL, "in.txt", "a.c", "b.c"],
        {"in.txt": "1\n", "a.c": A},
        "error 7 ReadFault b.c",
        7,
    ),
    refused(
        "a second source that begins with a dash is no command",
        ["measure", "f", ALL, "in.txt", "a.c", "-b.c"],
        {"in.txt": "1\n", "a.c": A},
        "error 2 Usage",
        2,
    ),
    unmeasured(
        "an entry with an array parameter",
        ALL,
        "1\n",
        "error 36 NoSuchEntry",
        3,
        sources={"a.c": "int f(int a[2]) { return a[0]; }\n"},
    ),
    refused(
        "an unknown entry goes before another query and inputs that aren't there",
        ["measure", "g", "cover NODES(ID)", "in.txt", "a.c"],
        {"a.c": A},
        "error 36 NoSuchEntry",
        3,
    ),
    refused(
        "a fault in a source goes before inputs that aren't there",
        ["measure", "f", ALL, "in.txt", "a.c"],
        {"a.c": "int f(int x) { return y; }\n"},
        "error 30 Unknown a.c:1",
        3,
    ),
    refused(
        "a query that ends too early goes before inputs that aren't there",
        ["measure", "f", "cover", "in.txt", "a.c"],
        {"a.c": A},
        "error 61 QuerySyntax query",
        4,
    ),
    refused(
        "the first read fails",
        ["measure", "f", ALL, "in.txt", "a.c"],
        {"in.txt": "5\n11\n"},
        "error 7 ReadFault a.c",
        7,
    ),
    case(
        "the first read fails and standard error fails at once",
        ["measure", "f", ALL, "in.txt", "a.c"],
        {"in.txt": "5\n11\n"},
        status=8,
        stderr_to="/dev/full",
    ),
    refused(
        "a step limit of 0",
        ["measure", "--steps", "0", "f", ALL, "in.txt", "a.c"],
        {"in.txt": "5\n11\n", "a.c": A},
        "error 2 Usage",
        2,
    ),
    refused(
        "an option given twice",
        ["measure", "--steps", "5", "--steps", "5", "f", ALL, "in.txt", "a.c"],
        {"in.txt": "5\n11\n", "a.c": A},
        "error 2 Usage",
        2,
    ),
    unmeasured(
        "an entry that isn't defined goes before a query that ends too early",
        "cover",
        "5\n",
        "error 36 NoSuchEntry",
        3,
        entry="g",
    ),
    unmeasured(
        "a predicate that is typable nowhere goes before a filter that names no function",
        "cover {z == 1} + @FUNC(g)",
        "5\n",
        "error 66 PredicateNowhere query",
        4,
    ),
    refused(
        "a filter that names no function goes before inputs that aren't there",
        ["measure", "f", "cover @FUNC(g)", "in.txt", "a.c"],
        {"a.c": A},
        "error 70 NoSuchName query:7",
        4,
    ),
    case(
        "an option after the sources",
        ["measure", "f", ALL, "in.txt", "a.c", "--steps=2"],
        {"in.txt": "5\n", "a.c": A},
        (
            "goals 4 inputs 1\ninput 1 returned 0\ngoal 1 missed e0@a.c:2\ngoal 2 covered 1 e1@a.c:2\n"
            "goal 3 missed e2@a.c:3\ngoal 4 covered 1 e3@a.c:5\nsuite 1\ncovered 2 of 4\n"
        ),
    ),
    case(
        "an option between the words, its number apart",
        ["measure", "f", "--steps", "2", ALL, "in.txt", "a.c"],
        {"in.txt": "5\n", "a.c": A},
        (
            "goals 4 inputs 1\ninput 1 returned 0\ngoal 1 missed e0@a.c:2\ngoal 2 covered 1 e1@a.c:2\n"
            "goal 3 missed e2@a.c:3\ngoal 4 covered 1 e3@a.c:5\nsuite 1\ncovered 2 of 4\n"
        ),
    ),
    case(
        "words after two dashes are no options",
        ["measure", "--", "f", ALL, "in.txt", "a.c"],
        {"in.txt": "5\n", "a.c": A},
        (
            "goals 4 inputs 1\ninput 1 returned 0\ngoal 1 missed e0@a.c:2\ngoal 2 covered 1 e1@a.c:2\n"
            "goal 3 missed e2@a.c:3\ngoal 4 covered 1 e3@a.c:5\nsuite 1\ncovered 2 of 4\n"
        ),
    ),
    refused(
        "an option after two dashes is a source",
        ["measure", "f", ALL, "in.txt", "--", "a.c", "--json"],
        {"in.txt": "5\n", "a.c": A},
        "error 7 ReadFault --json",
        7,
    ),
    refused(
        "a step limit one above its range",
        ["measure", "--steps", "1000001", "f", ALL, "in.txt", "a.c"],
        {"in.txt": "5\n", "a.c": A},
        "error 2 Usage",
        2,
    ),
    case(
        "standard output takes any smaller number of bytes and then fails",
        ["measure", "f", ALL, "in.txt", "a.c"],
        {"in.txt": "5\n11\n", "a.c": A},
        {"first": REPORT},
        status=8,
        each=[1, 183],
        stdout_room="n",
    ),
    case(
        "standard output takes any smaller number of bytes of a JSON report of two sources and then fails",
        ["measure", "--json", "f", "cover @CALL(g)", "in.txt", "p1.c", "p2.c"],
        {"in.txt": "9\n2\n", "p1.c": CALLEE, "p2.c": CALLER},
        {
            "first": (
                '{"covered":1,"goals":[{"answer":"covered","input":1,"text":"e4@p2.c:4"}],"inputs":[{"end":"'
                'returned","value":9},{"end":"returned","value":0}],"suite":[1]}\n'
            )
        },
        status=8,
        each=[1, 154],
        stdout_room="n",
    ),
    refused(
        "ends of another name are no command",
        ["measure", "--ends", "blocked", "f", "cover ID", "in.txt", "a.c"],
        {},
        "error 2 Usage",
        2,
    ),
]
