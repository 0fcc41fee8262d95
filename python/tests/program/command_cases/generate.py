"""The cases of `generate`."""

from tests.program.command_cases import BOTH, COUNT, ELEMENT, NESTED, RECURSION, SEVEN, A, Case, case, refused


def at_ends(name: str, ends: str, divisor: int, node: int) -> Case:
    """A case of where the one run of a function ends: at its exit, n1, or at n2, where it divides."""
    source = f"int f(void) {{\n  int x = {divisor};\n  return 10 / x;\n}}\n"
    said = ["covered 1" if node == number else "refuted" for number in range(3)]
    return case(
        name,
        ["generate", "--ends", ends, "f", "cover NODES(ID)$", "d.c"],
        {"d.c": source},
        (
            f"goals 3 turns 4 frames 8 answers 16 budget 5000000 ends {ends}\ninput 1 args\n"
            f"goal 1 {said[0]} n0@d.c:1\ngoal 2 {said[1]} n1@d.c:4\ngoal 3 {said[2]} n2@d.c:3\n"
            "suite 1\ncovered 1 refuted 2 undecided 0 of 3\n"
        ),
    )


CASES = [
    at_ends("no run traps", "trapped", 2, 1),
    at_ends("every run returns", "any", 2, 1),
    at_ends("a run traps", "trapped", 0, 2),
    case(
        "a loop's last turn",
        ["generate", "--turns", "3", "f", "cover @LINE(7)", "e.c"],
        {"e.c": COUNT},
        (
            "goals 1 turns 3 frames 8 answers 16 budget 5000000\ninput 1 args 3\ngoal 1 covered 1 e8@e.c:7\n"
            "suite 1\ncovered 1 refuted 0 undecided 0 of 1\n"
        ),
    ),
    case(
        "a turn too few",
        ["generate", "--turns", "2", "f", "cover @LINE(7)", "e.c"],
        {"e.c": COUNT},
        (
            "goals 1 turns 2 frames 8 answers 16 budget 5000000\ngoal 1 refuted e8@e.c:7\nsuite\n"
            "covered 0 refuted 1 undecided 0 of 1\n"
        ),
    ),
    case(
        "an inner loop's counter starts anew",
        ["generate", "--turns", "3", "f", "cover @LINE(9)", "g.c"],
        {"g.c": NESTED},
        (
            "goals 1 turns 3 frames 8 answers 16 budget 5000000\ninput 1 args 3\ngoal 1 covered 1 e16@g.c:9\n"
            "suite 1\ncovered 1 refuted 0 undecided 0 of 1\n"
        ),
    ),
    refused(
        "too many pairs of node and context",
        ["generate", "--turns", "1000", "f", "cover @LINE(9)", "g.c"],
        {"g.c": NESTED},
        "error 80 TooManyInstances limit 50000",
        6,
    ),
    case(
        "the greatest value of a kind",
        ["generate", "f", "cover @LINE(4)", "u.c"],
        {
            "u.c": (
                "#include <stdint.h>\nint f(uint8_t x) {\n  if (x + 1 == 256) {\n    return 1;\n  }\n  return 0;\n"
                "}\n"
            )
        },
        (
            "goals 1 turns 4 frames 8 answers 16 budget 5000000\ninput 1 args 255\ngoal 1 covered 1 e2@u.c:4\n"
            "suite 1\ncovered 1 refuted 0 undecided 0 of 1\n"
        ),
    ),
    case(
        "a greatest common divisor, with more turns than it takes",
        ["generate", "--turns", "8", "f", "cover @LINE(11)", "g.c"],
        {
            "g.c": (
                "int f(int a, int b) {\n  if (a < 1 || b < 1 || a > 33 || b > 33) {\n    return 0;\n  }\n"
                "  while (b != 0) {\n    int rest = a % b;\n    a = b;\n    b = rest;\n  }\n  if (a == 17) {\n"
                "    return 1;\n  }\n  return 0;\n}\n"
            )
        },
        (
            "goals 1 turns 8 frames 8 answers 16 budget 5000000\ninput 1 args 17 17\n"
            "goal 1 covered 1 e18@g.c:11\nsuite 1\ncovered 1 refuted 0 undecided 0 of 1\n"
        ),
    ),
    case(
        "two remainders at once",
        ["generate", "f", "cover @LINE(3)", "m.c"],
        {
            "m.c": (
                "int f(int a, int b) {\n  if (a > 0 && b > 0 && a < 20 && b < 30 && a % b == 17 && b % a == 5) {\n"
                "    return 1;\n  }\n  return 0;\n}\n"
            )
        },
        (
            "goals 1 turns 4 frames 8 answers 16 budget 5000000\ninput 1 args 17 22\n"
            "goal 1 covered 1 e12@m.c:3\nsuite 1\ncovered 1 refuted 0 undecided 0 of 1\n"
        ),
    ),
    case(
        "a recursion within the frames",
        ["generate", "--frames", "4", "g", "cover @LINE(9)", "r.c"],
        {"r.c": RECURSION},
        (
            "goals 1 turns 4 frames 4 answers 16 budget 5000000\ninput 1 args 2\ngoal 1 covered 1 e10@r.c:9\n"
            "suite 1\ncovered 1 refuted 0 undecided 0 of 1\n"
        ),
    ),
    case(
        "a recursion past the frames",
        ["generate", "--frames", "3", "g", "cover @LINE(9)", "r.c"],
        {"r.c": RECURSION},
        (
            "goals 1 turns 4 frames 3 answers 16 budget 5000000\ngoal 1 refuted e10@r.c:9\nsuite\n"
            "covered 0 refuted 1 undecided 0 of 1\n"
        ),
    ),
    case(
        "two answers",
        ["generate", "f", "cover @LINE(9)", "i.c"],
        {"i.c": BOTH},
        (
            "goals 1 turns 4 frames 8 answers 16 budget 5000000\ninput 1 args 1 answers 5 9\n"
            "goal 1 covered 1 e11@i.c:9\nsuite 1\ncovered 1 refuted 0 undecided 0 of 1\n"
        ),
    ),
    case(
        "an answer too few",
        ["generate", "--answers", "1", "f", "cover @LINE(9)", "i.c"],
        {"i.c": BOTH},
        (
            "goals 1 turns 4 frames 8 answers 1 budget 5000000\ngoal 1 refuted e11@i.c:9\nsuite\n"
            "covered 0 refuted 1 undecided 0 of 1\n"
        ),
    ),
    case(
        "a budget that is spent",
        ["generate", "--budget", "1", "f", "cover @LINE(3)", "d.c"],
        {"d.c": SEVEN},
        (
            "goals 1 turns 4 frames 8 answers 16 budget 1\ngoal 1 undecided e2@d.c:3\nsuite\n"
            "covered 0 refuted 0 undecided 1 of 1\n"
        ),
        status=1,
    ),
    case(
        "the report as JSON",
        ["generate", "--json", "f", "cover @LINE(3)", "d.c"],
        {"d.c": SEVEN},
        (
            '{"bounds":{"answers":16,"budget":5000000,"frames":8,"turns":4},"covered":1,"goals":[{"answe'
            'r":"covered","input":1,"text":"e2@d.c:3"}],"inputs":[{"answers":[],"args":[7]}],"refuted":0'
            ',"suite":[1],"undecided":0}\n'
        ),
    ),
    refused(
        "a goal that is too large",
        ["generate", "f", 'cover "(ID==40)==40"', "a.c"],
        {"a.c": A},
        "error 82 GoalTooLarge limit 8388608",
        6,
    ),
    case(
        "runs that trap don't count by default",
        ["generate", "f", "cover NODES(@LINE(3))$", "h.c"],
        {"h.c": ELEMENT},
        (
            "goals 2 turns 4 frames 8 answers 16 budget 5000000\ngoal 1 refuted n2@h.c:3\n"
            "goal 2 refuted n3@h.c:4\nsuite\ncovered 0 refuted 2 undecided 0 of 2\n"
        ),
    ),
]
