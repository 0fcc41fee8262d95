"""The parts of the writer that write operations as calls where overflow.py says so (--check-overflow, --check-conversions): each does
what it doesn't check as the part that it stands for."""

from typing import TYPE_CHECKING

from fshell_tools.adapt.bind.value_texts import PRIMARY, UNARY, Value
from fshell_tools.adapt.common import c_types, tree
from fshell_tools.adapt.common.c_types import Int
from fshell_tools.adapt.common.output import unmarked
from fshell_tools.adapt.write import overflow_texts
from fshell_tools.adapt.write.assignments import Assignments
from fshell_tools.adapt.write.conversions import Conversions
from fshell_tools.adapt.write.expressions import Expressions
from fshell_tools.adapt.write.overflow import CHECKED, KNOWN, Overflow, Ranged, span_of

if TYPE_CHECKING:
    from fshell_tools.adapt.write.writer import Writer


class CheckedExpressions(Expressions):
    """Values with a call in place of each operation that may overflow (--check-overflow)."""

    def __init__(self, writer: "Writer", overflow: Overflow) -> None:
        super().__init__(writer)
        self.overflow = overflow

    def inner_value(self, node: tree.Expression) -> Value:
        """The value, with the numbers between which a constant lies."""
        made = super().inner_value(node)
        known = None if isinstance(made, Ranged) or made.kind.boolean else self.writer.constants.value(node)
        if known is not None:
            made = Ranged(made.text, made.kind, made.level, made.truth, made.calls, known, known)
        self.overflow.last = node, made
        return made

    def binary(self, node: tree.BinaryOp) -> Value:
        """An operation that can overflow becomes a call; within no function, as in first values, all stays."""
        is_size = self.is_size(node.left) and self.is_size(node.right)
        both = (node.left, node.right) if node.op in CHECKED + KNOWN and not is_size else ()
        if not both or self.writer.function is None or any(self.writer.pointers.is_pointer(one) for one in both):
            return super().binary(node)
        self.writer.order.unsequenced(node, list(both))
        left, right = self.value(node.left), self.value(node.right)
        made = self.overflow.checked(node, node.op, left, right) if node.op in CHECKED else None
        return made or self.overflow.unchecked(node.op, left, right)

    def unary(self, node: tree.UnaryOp) -> Value:
        """A negation that can overflow becomes a call (6.5.3.3p3)."""
        if node.op != "-" or self.writer.function is None:
            return super().unary(node)
        one = self.value(node.expr)
        made = self.overflow.checked(node, "-", one, None)
        if made is not None:
            return made
        inner, kind = one.within(UNARY), c_types.promoted(one.kind)
        text = f"{self.writer.at(node)}-{' ' if unmarked(inner).startswith('-') else ''}{inner}"
        return Value(text, kind, UNARY, calls=one.calls)


class CheckedAssignments(Assignments):
    """Assignments and steps whose operations are checked."""

    def __init__(self, writer: "Writer", overflow: Overflow) -> None:
        super().__init__(writer)
        self.overflow = overflow

    def assign(self, node: tree.Assignment, stable: bool = False) -> tuple[str, Int]:
        """An assignment whose target stays the same, since it is written twice."""
        return super().assign(node, stable or node.op != "=")

    def assignment(self, node: tree.Assignment, target: str, kind: Int, given: Value, other: bool) -> str:
        """A compound assignment as a plain one of the checked operation (6.5.16.2p3)."""
        op = node.op[:-1]
        if not op or kind.boolean and not self.overflow.overflows:
            return super().assignment(node, target, kind, given, other)
        own = Value(f"({kind.text}) {target}" if other else target, kind, UNARY if other else PRIMARY)
        whole = self.overflow.checked(node, op, own, given) if op in CHECKED else None
        if whole is None and not self.overflow.narrows(self.overflow.unchecked(op, own, given), kind):
            return super().assignment(node, target, kind, given, other)
        whole = whole or self.overflow.unchecked(op, own, given)
        self.overflow.last = node, whole
        return f"{target} = {self.writer.conversions.converted(whole, kind).text};"

    def operated(self, node: tree.Expression, op: str, own: Value, given: Value) -> Value:
        """The checked operation on a part of an integer."""
        made = self.overflow.checked(node, op, own, given) if op in CHECKED else None
        made = self.overflow.unchecked(op, own, given) if made is None else made
        self.overflow.last = node, made
        return made

    def step(self, node: tree.UnaryOp, stable: bool = False) -> tuple[str, Int]:
        """The target of a step, which stays the same, since it is written twice."""
        return super().step(node, True)

    def stepping(self, node: tree.UnaryOp, target: str, kind: Int) -> str:
        """A step as an assignment of the checked sum or difference (6.5.2.4p2)."""
        one = Value("1", c_types.INT, PRIMARY)
        own, op = Value(target, kind, PRIMARY), node.op[-1]
        whole = self.overflow.checked(node, op, own, one)
        if whole is None and not self.overflow.narrows(self.overflow.unchecked(op, own, one), kind):
            return super().stepping(node, target, kind)
        whole = whole or self.overflow.unchecked(op, own, one)
        self.overflow.last = node, whole
        return f"{target} = {self.writer.conversions.converted(whole, kind).text};"


class CheckedConversions(Conversions):
    """Conversions that are checked where they may lose a value."""

    def __init__(self, writer: "Writer", overflow: Overflow) -> None:
        super().__init__(writer)
        self.overflow = overflow

    def converted(self, value: Value, kind: Int) -> Value:
        """The value by a call that asserts that the kind has it (6.3.1.3p3)."""
        node = self.overflow.last[0] if self.overflow.last[1] is value else None
        if node is None or node.coord is None or self.writer.function is None or not self.overflow.narrows(value, kind):
            return super().converted(value, kind)
        function = self.overflow.helper(
            ("to", value.kind.bits == 64 and not value.kind.signed, kind.bits, kind.signed, span_of(kind)),
            overflow_texts.conversion_stem(value.kind, kind),
            lambda called: overflow_texts.conversion(called, value.kind, kind),
        )
        return Value(self.overflow.site_text(function, "conversion", node, [value.text]), kind, PRIMARY, calls=True)
