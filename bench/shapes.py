"""Small functions that several scripts take: sixty conditions, branches in a row, and those of guards.c."""

import os

GUARDS_FILE = os.path.join(os.path.dirname(os.path.abspath(__file__)), "guards.c")

# parameters and a condition that some input meets
MET = [
    ("int a", "a > 0 && a % 60 == 59 && a / 60 % 60 == 59 && a / 3600 % 24 == 23"),
    ("long a, long b", "b != 0 && a % b == 3"),
    ("int a, int b", "a != 0 && b != 0 && a % b == 17 && b % a == 5"),
    ("long a", "a % (a | 1) == 2"),
    ("int a", "a * 3 == 21"),
    ("int a, int b", "a * b == 391 && a > 1 && b > 1 && a < b"),
    ("unsigned a", "a % 10u == 7u && a / 10u % 10u == 7u && a > 1000u"),
    ("int a, int b, int c", "a < b && b < c && c < a + 3"),
    ("unsigned char a, unsigned char b", "a + b == 300"),
    ("int a", "(a & 255) == 170 && (a >> 8 & 255) == 85"),
    ("int a", "(a ^ 1234567) == 7654321"),
    ("int a", "a == -2147483647 - 1"),
    ("int a, int b", "a + b == 0 && a > 1000"),
    ("int a, int b", "a + b < a && b > 0"),
    ("long a", "a > 4000000000L && a < 4000000010L && a % 9L == 4L"),
    ("int a, int b", "a - b == 100 && a + b == 200"),
    ("int a, int b, int c", "a + b + c == 6 && a * b * c == 6 && a > 0 && b > 0 && c > 0"),
    ("unsigned a", "a != 0u && (a & (a - 1u)) == 0u && a > 5000u"),
    ("int a", "a % 7 == 3 && a % 11 == 5 && a > 0"),
    ("unsigned a, unsigned b", "a / 16u == b && b / 16u == 15u"),
    ("int y", "y % 4 == 0 && (y % 100 != 0 || y % 400 == 0) && y > 1999 && y < 2005"),
    ("int m, int d", "m >= 1 && m <= 12 && d == 31 && m % 2 == 0"),
    ("short a, short b", "a * b == 30000 && a > 100 && b > 100"),
    ("int a", "a / 7 == 12 && a % 7 == 6"),
    ("int a, int b", "a > 0 && b > 0 && a * a + b * b == 25"),
    ("long a, long b", "a == 2 * b + 1 && b == 3 * 1000000007L"),
    ("unsigned a", "(a << 4 | a >> 28) == 0x12345678u"),
    ("int a, int b", "a > b && a - b < 0"),
    ("int a, int b, int c, int d", "a == 1 && b == a + 1 && c == b * 2 && d == c * c"),
    ("signed char a", "a < 0 && -a == 128"),
]

# and one that none does
UNMET = [
    ("int a", "a > 10 && a < 5"),
    ("unsigned a", "a % 10u == 10u"),
    ("int a", "a % 2 == 1 && a % 4 == 2"),
    ("unsigned char a", "a > 255"),
    ("unsigned char a, unsigned char b", "a + b > 510"),
    ("int a", "a * 2 == 7"),
    ("int a", "(a & 1) == 0 && (a & 3) == 1"),
    ("int a", "(a | 4) == 3"),
    ("unsigned a", "(a >> 16) > 65535u"),
    ("int a, int b", "a < b && b < a"),
    ("int a, int b", "a == b && a != b"),
    ("int a, int b, int c", "a < b && b < c && c < a"),
    ("int a, int b", "(a ^ b) == 0 && a != b"),
    ("int a, int b", "a > 0 && b > 0 && a < 100 && b < 100 && a + b < a"),
    ("short a, short b", "a + b > 65534"),
    ("int a", "a > 0 && a < 1000 && a / 10 > 99"),
    ("int a", "a >= 0 && a % 100 > 99"),
    ("unsigned char a", "a * a > 65025"),
    ("int a", "a == 3 && a * a == 10"),
    ("int a", "a % 3 == 0 && a % 6 == 1 && a > 0"),
    ("int y", "y % 400 == 0 && y % 100 != 0"),
    ("int m", "m >= 1 && m <= 12 && m % 13 == 0"),
    ("int a, int b", "a > 0 && b > 0 && a < 50 && b < 50 && a * b > 2401"),
    ("unsigned a", "(a & 0xff00u) == 0x1200u && (a & 0x0f00u) == 0x0300u"),
    ("signed char a", "a < -128"),
    ("int a, int b", "a == b + 1 && b == a + 1"),
    ("unsigned char a, unsigned char b", "a * b == 256 && a % 2 == 1"),
    ("int a", "a < 0 && (a & 0x7fffffff) == a"),
    ("unsigned short a", "a / 256 == 200 && a < 51200"),
    ("int a, int b", "a >= 0 && a < 30 && b >= 0 && b < 30 && a * a + b * b == 1003"),
]


def condition(parameters: str, text: str) -> str:
    """A function f with these parameters whose third line is where a condition holds."""
    return f"int f({parameters}) {{\n  if ({text}) {{\n    return 1;\n  }}\n  return 0;\n}}\n"


def statements(count: int) -> str:
    """A function f with so many branches in a row."""
    return "int f(int x) {\nint y = 0;\n" + "if (x > y) { y = y + 2; }\n" * count + "return y;\n}\n"


def guards() -> list[str]:
    """The functions f of guards.c, each behind the comment that names it."""
    with open(GUARDS_FILE, encoding="ascii") as file:
        return [part for part in file.read().split("\n\n") if " f(" in part]
