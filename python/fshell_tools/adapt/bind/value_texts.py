"""The text of a value, and how tightly it binds (6.5)."""

import re
from dataclasses import dataclass
from typing import Optional

from fshell_tools.adapt.common import c_types, tree
from fshell_tools.adapt.common.c_types import Int
from fshell_tools.adapt.common.output import unmarked

LEVELS = {
    "||": 1,
    "&&": 2,
    "|": 3,
    "^": 4,
    "&": 5,
    "==": 6,
    "!=": 6,
    "<": 7,
    ">": 7,
    "<=": 7,
    ">=": 7,
    "<<": 8,
    ">>": 8,
}
LEVELS |= {"+": 9, "-": 9, "*": 10, "/": 10, "%": 10}
UNARY, PRIMARY = 11, 12
MOST_SHIFTS = 3


@dataclass(frozen=True)
class Value:
    """A value: its text, type and level; whether it is 0 or 1 at all events, and whether it calls a function."""

    text: str
    kind: Int
    level: int
    truth: bool = False
    calls: bool = False

    def within(self, level: int) -> str:
        """The text as an operand of something that binds so tightly."""
        return self.text if self.level >= level else f"({self.text})"


def number(value: Value) -> Optional[int]:
    """The number that the text of a value is, if it is one."""
    text = unmarked(value.text)
    return int(text) if re.fullmatch(r"-?\d+", text) else None


def plus(one: Value, other: Value) -> Value:
    """The sum of two indexes."""
    a, b = number(one), number(other)
    if a is not None and b is not None:
        return Value(str(a + b), c_types.INT, PRIMARY if a + b >= 0 else UNARY)
    if a == 0 or b == 0:
        return other if a == 0 else one
    kind, calls = c_types.common(one.kind, other.kind), one.calls or other.calls
    if b is not None and b < 0:
        return Value(f"{one.within(9)} - {-b}", kind, 9, calls=calls)
    return Value(f"{one.within(9)} + {other.within(10)}", kind, 9, calls=calls)


def minus(known: int) -> Value:
    """The negative of a number."""
    return Value(str(-known), c_types.INT, UNARY)


def times(one: Value, factor: int) -> Value:
    """An index with a stride, by a shift where it is a power of 2, and by two or three where it is their sum and the index has a
    name: a product weighs ten times as much."""
    known = number(one)
    if known is not None:
        return Value(str(known * factor), c_types.INT, PRIMARY if known >= 0 else UNARY)
    if factor == 1:
        return one
    shifts, kind = [at for at in range(factor.bit_length() - 1, -1, -1) if factor >> at & 1], c_types.promoted(one.kind)
    if len(shifts) == 1:
        return Value(f"({one.within(9)} << {shifts[0]})", kind, PRIMARY, calls=one.calls)
    if len(shifts) <= MOST_SHIFTS and re.fullmatch(r"\$?\w+", unmarked(one.text)):
        texts = [f"({one.text} << {at})" if at else one.text for at in shifts]
        return Value(" + ".join(texts), kind, 9)
    return Value(f"{one.within(10)} * {factor}", kind, 10, calls=one.calls)


@dataclass(eq=False)
class Known(tree.Expression):
    """An expression whose value is known as a text."""

    value: Value
    coord: Optional[tree.Coord] = None
