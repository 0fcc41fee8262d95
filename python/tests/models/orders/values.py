"""Kinds of whole numbers, as width and whether there is a sign, and what operators make of values."""

from collections.abc import Sequence
from typing import Any

from pycparser import c_ast

Kind = tuple[int, int]  # the width in bits, and 1 where there is a sign
Value = tuple[int, Kind]

NAMED = {
    "int8_t": (8, 1, "signed char"),
    "int16_t": (16, 1, "short"),
    "int32_t": (32, 1, "int"),
    "int64_t": (64, 1, "long"),
    "uint8_t": (8, 0, "unsigned char"),
    "uint16_t": (16, 0, "unsigned short"),
    "uint32_t": (32, 0, "unsigned"),
    "uint64_t": (64, 0, "unsigned long"),
    "size_t": (64, 0, "unsigned long"),
}


def kind(names: Sequence[str]) -> Kind:
    """The kind that words of a type name, as width in bits and sign."""
    words = [word for word in names if word not in ("const", "int", "signed")]
    if len(words) == 1 and words[0] in NAMED:
        width, sign, _ = NAMED[words[0]]
        return width, sign
    width = 8 if "char" in words else 16 if "short" in words else 64 if "long" in words else 32
    return width, 0 if "unsigned" in words else 1


def reach(of: Kind) -> tuple[int, int]:
    """The least and the greatest number of a kind."""
    return (-(1 << of[0] - 1), (1 << of[0] - 1) - 1) if of[1] else (0, (1 << of[0]) - 1)


def kind_of(decl: Any) -> Kind:
    """The kind of what a declaration declares, its elements' of an array."""
    while not isinstance(decl, c_ast.TypeDecl):
        decl = decl.type
    return kind(decl.type.names) if isinstance(decl.type, c_ast.IdentifierType) else (32, 1)


def number(text: str) -> int:
    """The number of a constant of C (6.4.4)."""
    if text[0] == "'":
        return {"n": 10, "t": 9, "r": 13, "0": 0}.get(text[2], ord(text[2])) if text[1] == "\\" else ord(text[1])
    text = text.rstrip("uUlL")
    return int(text, 16 if text[:2] == "0x" else 8 if text[0] == "0" else 10)


INT = (32, 1)


def fit(value: int, of: Kind) -> int:
    """The one number of a kind's range that equals a value modulo 2 to the width (6.3.1.3)."""
    value &= (1 << of[0]) - 1
    return value - (1 << of[0]) if of[1] and value >> of[0] - 1 else value


def promoted(of: Kind) -> Kind:
    """The kind after the integer promotions (6.3.1.1)."""
    return INT if of[0] < 32 else of


def common(one: Kind, two: Kind) -> Kind:
    """The kind of two operands after the usual arithmetic conversions (6.3.1.8)."""
    one, two = promoted(one), promoted(two)
    return max(one, two, key=lambda of: (of[0], not of[1]))


def binary(op: str, a: Value, b: Value) -> Value | None:
    """What an operator of C makes of two values (6.5.5 to 6.5.12), or None for a trap."""
    (x, one), (y, two) = a, b
    of = promoted(one) if op in ("<<", ">>") else common(one, two)
    if op in ("<<", ">>"):
        x, y = fit(x, of), fit(y, promoted(two))
        if not 0 <= y < of[0]:
            return None
        return fit(x << y if op == "<<" else x >> y, of), of
    x, y = fit(x, of), fit(y, of)
    if op in ("==", "!=", "<", ">", "<=", ">="):
        return int({"==": x == y, "!=": x != y, "<": x < y, ">": x > y, "<=": x <= y, ">=": x >= y}[op]), INT
    if op in ("/", "%"):
        if y == 0 or (of[1] and x == reach(of)[0] and y == -1):
            return None
        whole = abs(x) // abs(y) * (1 if (x < 0) == (y < 0) else -1)
        return fit(whole if op == "/" else x - whole * y, of), of
    return fit({"+": x + y, "-": x - y, "*": x * y, "&": x & y, "|": x | y, "^": x ^ y}[op], of), of
