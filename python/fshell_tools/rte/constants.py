"""Operations that can't fail by their text alone: a divisor, a shift's amount or an index that is a constant.

C11 6.5.5p5 and p6: a division fails where the divisor is 0, or is -1 and the quotient doesn't fit; 6.5.7p3: a shift where its amount is
negative or not below the width of the promoted left operand; 6.5.6p8: an index outside of the array. Each is decided by constants
(6.6) and declarations, so it holds by each order of evaluation, within all bounds and beyond them.
"""

from collections.abc import Sequence

from fshell_tools.order.expressions import SIGNS
from fshell_tools.order.side_effects import Effects, Walk
from fshell_tools.order.tokens import Word
from fshell_tools.order.tree import INT, Assign, Cast, Chain, Element, Expression, Kind, Name, Number, Unary, Unit

SHIFTS, COMPARISONS = ("<<", ">>"), ("==", "!=", "<", ">", "<=", ">=")


def promoted(kind: Kind) -> Kind:
    """A kind after the integer promotions (6.3.1.1p2)."""
    return kind if kind.width >= INT.width else INT


def common(one: Kind, two: Kind) -> Kind:
    """The common kind of two operands (6.3.1.8p1)."""
    one, two = promoted(one), promoted(two)
    if one.width != two.width:
        return one if one.width > two.width else two
    return Kind(one.width, one.signed and two.signed)


def of_number(text: str, value: int) -> Kind:
    """The kind of a number by its text (6.4.4.1p5) or of a character constant (6.4.4.4p10)."""
    if text[0] == "'":
        return INT
    suffix = (
        text.lstrip("0123456789abcdefxABCDEFX").lower()
        if text[:2].lower() == "0x"
        else text.lstrip("0123456789").lower()
    )
    is_decimal, is_unsigned = text[0] != "0" or not text[1:2].isdigit() and text[1:2].lower() != "x", "u" in suffix
    for width in (32, 64) if "l" not in suffix else (64,):
        if not is_unsigned and value < 1 << width - 1:
            return Kind(width, True)
        if (is_unsigned or not is_decimal) and value < 1 << width:
            return Kind(width, False)
    return Kind(64, False)


class Safe(Walk):
    """Walks over all functions of a unit, and gathers the marks of operations that can't fail, by the numbers of their tokens."""

    def __init__(self, unit: Unit, words: Sequence[Word]) -> None:
        super().__init__()
        self.words, self.marks = words, set[int]()
        self.functions = unit.functions
        last: int | None = -1
        for name, value in unit.constants:
            bounds = self.bounds(value) if value else None if last is None else (last + 1, last + 1)
            last = bounds[0] if bounds and bounds[0] == bounds[1] else None
            self.constants[name] = bounds if last is not None else None
        self.globals = {one.name: self.variable(one, ("global", one.name)) for one in unit.variables}
        self.of_function = {name: Effects() for name in unit.functions}
        self.depth = dict.fromkeys(unit.functions, 0)
        for name in unit.functions:
            self.function(name)

    def constant(self, node: Expression | None) -> int | None:
        """The value of a constant; None where it isn't seen to be one."""
        bounds = self.bounds(node) if node is not None else None
        return bounds[0] if bounds and bounds[0] == bounds[1] else None

    def kind_of(self, node: Expression) -> Kind | None:
        """The kind of a value (docs/C_PROFILE.md, Kinds of expressions); None where it isn't seen."""
        if isinstance(node, Number):
            return of_number(self.words[node.at].text, node.value)
        if isinstance(node, (Name, Element)):
            known = self.known(node.name)
            return known.kind if known else INT if node.name in self.constants else None
        if isinstance(node, Cast):
            return node.kind
        if isinstance(node, Unary) and node.operator in SIGNS:
            inner = INT if node.operator == "!" else self.kind_of(node.inner)
            return promoted(inner) if inner else None
        return self.kind_of_chain(node, len(node.rest)) if isinstance(node, Chain) else None

    def kind_of_chain(self, node: Chain, count: int) -> Kind | None:
        """The kind of the first operators of a chain, so many of them."""
        if count and node.rest[count - 1][0] in COMPARISONS:
            return INT
        found = self.kind_of(node.first)
        for operator, right in node.rest[:count]:
            other = found if operator in SHIFTS else self.kind_of(right)
            found = common(found, other) if found and other else None
        return found

    def is_safe(self, operator: str, left: Kind | None, right: Expression | None) -> bool:
        """Whether an operator can't fail, by its right operand and the kind of its left one."""
        value = self.constant(right)
        if value is None:
            return False
        if operator in ("/", "%"):
            return value not in (0, -1)
        return operator in SHIFTS and 0 <= value < (promoted(left).width if left else INT.width)

    def expression(self, node: Expression) -> Effects:
        """The effects of an expression; its operations that can't fail are gathered."""
        if isinstance(node, Chain):
            for number, ((operator, right), mark) in enumerate(zip(node.rest, node.marks)):
                if self.is_safe(operator, self.kind_of_chain(node, number), right):
                    self.marks.add(mark)
        return super().expression(node)

    def assignment(self, node: Assign, made: Effects) -> None:
        """Walks over an assignment, whose operator may be one that can't fail."""
        if node.value is not None and self.is_safe(node.operator, self.kind_of(node.target), node.value):
            self.marks.add(node.mark)
        super().assignment(node, made)

    def place(self, node: Element) -> Effects:
        """What finding an element may do; an index that can't fail is gathered."""
        value, known = self.constant(node.index), self.known(node.name)
        if value is not None and known and 0 <= value < (known.length or 0):
            self.marks.add(node.at + 1)
        return super().place(node)
