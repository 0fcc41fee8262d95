"""What bench/generate, bench/bounds and bench/least take: the programs of examples/ with a query each, and twenty loops."""

import os

from programs import ROOT

# a file, its entry, a query, and options
EXAMPLES: list[tuple[str, str, str, list[str]]] = [
    ("triangle/tri.c", "classify", "in @FUNC(classify) cover @CONDITIONEDGE", []),
    ("triangle/tri.c", "main_loop", "in @FUNC(classify) cover @CONDITIONEDGE", []),
    ("counting/count.c", "count", "cover @CONDITIONEDGE", []),
    ("clamp/clamp.c", "clamp", "cover @CONDITIONEDGE", []),
    ("programs/ring.c", "run", "cover @CONDITIONEDGE", ["--turns", "6"]),
    ("programs/checksum.c", "accept", "in @FUNC(accept) cover @CONDITIONEDGE", ["--turns", "8"]),
    ("programs/number.c", "parse", "cover @CONDITIONEDGE", []),
    ("programs/machine.c", "door", "cover @CONDITIONEDGE", ["--turns", "5"]),
    ("programs/filter.c", "filter", "cover @CONDITIONEDGE", []),
    ("programs/search.c", "place", "cover @CONDITIONEDGE", []),
    ("programs/sort.c", "middle", "cover @CONDITIONEDGE", []),
    ("programs/sort.c", "middle", "cover EDGES(@STMTTYPE(ASSERT))$", ["--ends", "trapped"]),
    ("programs/stack.c", "calculate", "cover @CONDITIONEDGE", ["--turns", "8"]),
    ("programs/crc.c", "frame", "cover @CONDITIONEDGE", ["--turns", "8"]),
    ("programs/date.c", "day_of_year", "cover @CONDITIONEDGE", ["--turns", "11"]),
    ("programs/gcd.c", "relation", "cover @CONDITIONEDGE", []),
    ("programs/debounce.c", "presses", "cover @CONDITIONEDGE", ["--turns", "8"]),
    ("programs/utf8.c", "character", "cover @CONDITIONEDGE", []),
    ("programs/control.c", "control", "cover @CONDITIONEDGE", []),
    ("programs/lights.c", "lights", "cover @CONDITIONEDGE", ["--turns", "8"]),
    ("programs/version.c", "compare", "cover @CONDITIONEDGE", []),
    ("programs/account.c", "account", "cover @CONDITIONEDGE", []),
    ("programs/account.c", "account", "cover EDGES(@STMTTYPE(ASSERT))$", ["--ends", "trapped"]),
    ("programs/window.c", "steady", "cover @CONDITIONEDGE", []),
]


def path(file: str) -> str:
    """Where a file of examples/ stands."""
    return os.path.join(ROOT, "examples", file)


def loops() -> list[tuple[str, int]]:
    """Twenty functions f with loops of fixed turns, of as many as an argument or an answer says, and nested ones, each with the
    turns of its bounds: 4, 8 or 32, and one less."""
    fixed = (
        "int f(int x) {{ int s = 0; for (int i = 0; i < {0}; i++) {{ if (s < x) {{ s = s + {1}; }} }} return s; }}\n"
    )
    given = "int f(int n) {{ assume(n <= {0}); int i = 0; while (i < n) {{ if (i == {1}) {{ i = i + 1; }} i = i + 1; }} return i; }}\n"
    asked = "int in(void); int f(int n) {{ int s = 0; while (s < {0}) {{ int a = in(); s = s + (a & {1}) + 1; }} return s + n; }}\n"
    nested = (
        "int f(int n) {{ int s = 0; for (int i = 0; i < {0}; i++) {{ for (int j = 0; j < i; j++) {{ if (s > n) {{ return s; }} "
        "s = s + {1}; }} }} return s; }}\n"
    )
    halved = "int f(unsigned n) {{ int s = 0; while (n > {1}) {{ n = n / 2; s = s + 1; }} return s + {0}; }}\n"
    return [
        (form.format(turns, more), count)
        for form, turns in ((fixed, 4), (given, 4), (asked, 8), (nested, 4), (halved, 32))
        for count in (turns - 1, turns)
        for more in (1, 2)
    ]
