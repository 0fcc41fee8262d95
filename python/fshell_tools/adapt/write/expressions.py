"""Writes expressions: what has an effect becomes statements before, in an order that C allows, and what is left is a value."""

from collections.abc import Callable
from typing import Optional

from fshell_tools.adapt.bind.initializers import Part
from fshell_tools.adapt.bind.lvalues import At, Level
from fshell_tools.adapt.bind.value_texts import LEVELS, PRIMARY, UNARY, Known, Value
from fshell_tools.adapt.common import c_types, tree
from fshell_tools.adapt.common.c_types import INDEX, NIL, Array, Int, Pointer
from fshell_tools.adapt.common.objects import Enumerator, Function, Variable
from fshell_tools.adapt.common.output import unmarked
from fshell_tools.adapt.common.refusals import Refused
from fshell_tools.adapt.effects.side_effects import STEPS
from fshell_tools.adapt.names.constants import COMPARED, LOGICAL, SHIFTS, number
from fshell_tools.adapt.write import statement_exprs
from fshell_tools.adapt.write.component import Component
from fshell_tools.adapt.write.evaluation_order import is_no_object


class Expressions(Component):
    """Writes what a function computes (6.5), each part once and in an order that C allows."""

    # ---- values

    def value(self, node: tree.Expression) -> Value:
        """The value of an expression; its effects are written before. What it reads stays as it is until it is used,
        unless C leaves open whether it does, which is refused."""
        self.writer.within += 1
        self.writer.asked.append(node)
        try:
            return self.inner_value(node)
        finally:
            self.writer.within -= 1
            self.writer.asked.pop()

    def inner_value(self, node: tree.Expression) -> Value:
        """The value of an expression by its form. Raises Refused for one that gives no integer, and for an effect in
        a list of pointers."""
        if isinstance(node, Known):
            return node.value
        if isinstance(node, At):
            return self.writer.pointers.element_at(node)
        if isinstance(node, Level):
            return Value(self.writer.levels.names[node.function], c_types.INT, PRIMARY)
        if isinstance(node, Part):
            null = self.writer.pointers.is_null(node.pointer)
            several = not null and len(self.writer.columns.pointer(node.pointer).region.parts()) > 1
            if several and (self.writer.assignments.has_calls(node) or self.writer.effected.of(node).writes):
                raise Refused(
                    node.coord, "an effect in a list of pointers", "assign the pointer in a statement of its own"
                )
            return self.writer.pointers.pointer(node.pointer)[node.part]
        if isinstance(node, tree.Constant):
            return self.constant(node)
        if isinstance(node, tree.ID):
            return self.named(node)
        if isinstance(node, (tree.StructRef, tree.ArrayRef)):
            return self.read(node)
        if isinstance(node, tree.UnaryOp):
            return self.unary(node)
        if isinstance(node, tree.BinaryOp):
            return self.binary(node)
        if isinstance(node, tree.TernaryOp):
            return self.chosen(node)
        if isinstance(node, tree.Assignment):
            return self.writer.assignments.assigned(node)
        if isinstance(node, tree.ExprList):
            for one in node.exprs[:-1]:
                self.writer.assignments.effect(one)
            return self.value(node.exprs[-1])
        if isinstance(node, tree.Cast):
            return self.cast(node)
        if isinstance(node, tree.FuncCall):
            return self.writer.calls.call_value(node)
        if isinstance(node, tree.StatementExpr):
            return statement_exprs.value(self.writer, node)
        raise Refused(node.coord, f"an expression ({type(node).__name__})", "write it with the operators of integers")

    def constant(self, node: tree.Constant) -> Value:
        """An integer constant as the profile takes it (6.4.4). Raises Refused for a string."""
        if node.type == "string":
            raise Refused(node.coord, "a string", "name it as an array of char, and use its elements")
        value, kind = number(node)
        text = node.value
        if "char" in node.type:
            simple = text[1:-1] in ("\\n", "\\t", "\\r", "\\0", "\\\\", "\\'", '\\"') or (
                len(text) == 3 and 32 <= ord(text[1]) < 127
            )
            text = text if simple else str(value)
        elif text[:2] in ("0X", "0b", "0B"):
            text = hex(value) + text[len(text.rstrip("uUlL")) :]
        return Value(
            self.writer.at(node) + text, kind, UNARY if text.startswith("-") else PRIMARY, truth=text in ("0", "1")
        )

    def named(self, node: tree.ID) -> Value:
        """The value of a name: a constant of an enum, or an object. Raises Refused for a function."""
        meaning = self.writer.names.meaning.get(node)
        if isinstance(meaning, Enumerator):
            text = meaning.out
            return Value(self.writer.at(node) + text, c_types.INT, UNARY if text.startswith("-") else PRIMARY)
        if isinstance(meaning, Function):
            raise Refused(
                node.coord, f"the address of the function {node.name}", "call it by its name, in a switch over a number"
            )
        return self.read(node)

    def read(self, node: tree.Expression) -> Value:
        """The value of an object (6.3.2.1p2). Raises Refused for one that is no integer."""
        if is_no_object(node):
            node = self.writer.wholes.kept_whole(node)
        place = self.writer.places.place(node)
        if not isinstance(place.type, Int):
            what = {Array: "an array", Pointer: "a pointer"}.get(type(place.type), "a struct")
            raise Refused(node.coord, f"{what} stands where an integer is needed", "name an element or a member")
        if place.variable.is_input:
            return Value(f"{self.writer.at(node)}{place.variable.out}()", place.type, PRIMARY, calls=True)
        if place.view is not None:
            return self.writer.assignments.part(place, self.writer.elements.leaf(place)[0])
        text, calls = self.writer.elements.leaf(place)
        if self.writer.elements.kind_at(place) != place.type:  # (as an object of the other sign, 6.5p7)
            return Value(f"{self.writer.at(node)}({place.type.text}) {text}", place.type, UNARY, calls=calls)
        return Value(self.writer.at(node) + text, place.type, PRIMARY, truth=place.type.boolean, calls=calls)

    def unary(self, node: tree.UnaryOp) -> Value:
        """A unary expression (6.5.3). Raises Refused for an address where an integer is needed."""
        if node.op == "sizeof":
            return Value(self.writer.at(node) + f"{self.writer.constants.size_of(node.expr)}ul", c_types.SIZE, PRIMARY)
        if node.op == "*":
            return self.read(node)
        if node.op in STEPS:
            return self.writer.assignments.stepped(node)
        if node.op == "!":
            null = self.null(node.expr)
            if null is not None:
                return Value(self.writer.at(node) + null, c_types.INT, PRIMARY, truth=True)
            if self.writer.pointers.is_pointer(node.expr):
                index = self.writer.pointers.pointer(node.expr)[INDEX]
                return Value(f"{self.writer.at(node)}{index.within(7)} == {NIL}", c_types.INT, 6, True, index.calls)
        if node.op not in ("+", "-", "~", "!"):
            raise Refused(node.coord, "an address", "hand over the address of a named object to a function alone")
        one = self.value(node.expr)
        inner = one.within(UNARY)
        blank = " " if unmarked(inner).startswith(node.op) else ""
        kind = c_types.INT if node.op == "!" else c_types.promoted(one.kind)
        return Value(self.writer.at(node) + node.op + blank + inner, kind, UNARY, truth=node.op == "!", calls=one.calls)

    def test(self, node: tree.Expression) -> Value:
        """The value of a condition, which may be a pointer."""
        with self.writer.names.refusals.gathered():
            null = self.null(node)
            if null is None and self.writer.pointers.is_pointer(node):
                index = self.writer.pointers.pointer(node)[INDEX]
                return Value(f"{self.writer.at(node)}{index.within(7)} != {NIL}", c_types.INT, 6, True, index.calls)
            return (
                self.value(node)
                if null is None
                else Value(self.writer.at(node) + "1", c_types.INT, PRIMARY, truth=True)
            )
        return Value("0", c_types.INT, PRIMARY)

    def null(self, node: tree.Expression) -> Optional[str]:
        """What a test for a null pointer gives of a parameter to which each call hands an object. Raises Refused
        where no call hands one over."""
        meaning = self.writer.names.meaning.get(node) if isinstance(node, tree.ID) else None
        if isinstance(node, tree.Constant) and node.type == "string":  # (`assert(0 && "why")`)
            return "0"
        if not isinstance(meaning, Variable) or not (isinstance(meaning.type, Pointer) or meaning.binding == "lent"):
            return None
        if not meaning.is_bound:
            return None
        if meaning.home != "parameter" or not (meaning.function and meaning.function.calls):
            raise Refused(
                node.coord,
                f"a test of the pointer {meaning.name}, which no call hands over",
                "call it with the address of an object",
            )
        return "0"

    def binary(self, node: tree.BinaryOp) -> Value:
        """A binary expression (6.5.5 to 6.5.14), whose operands C evaluates in any order."""
        if node.op in LOGICAL:
            return self.logical(node)
        if node.op in ("==", "!="):
            for one, other in ((node.left, node.right), (node.right, node.left)):
                if (
                    isinstance(self.writer.constants.type_of(one), (Pointer, Array))
                    and self.writer.pointers.is_null(other)
                    and self.null(one)
                ):
                    return Value(self.writer.at(node) + str(int(node.op == "!=")), c_types.INT, PRIMARY, truth=True)
        if node.op in COMPARED and (
            self.writer.pointers.is_pointer(node.left) or self.writer.pointers.is_pointer(node.right)
        ):
            return self.writer.pointer_effects.compared(node)
        if self.writer.pointers.is_difference(node):
            return self.writer.pointer_effects.difference(node)
        if node.op == "/" and self.is_size(node.left) and self.is_size(node.right):
            return Value(self.writer.at(node) + f"{self.writer.constants.value(node)}ul", c_types.SIZE, PRIMARY)
        self.writer.order.unsequenced(node, [node.left, node.right])
        left, right = self.value(node.left), self.value(node.right)
        kind = (
            c_types.INT
            if node.op in COMPARED
            else c_types.promoted(left.kind)
            if node.op in SHIFTS
            else c_types.common(left.kind, right.kind)
        )
        level = LEVELS[node.op]
        text = f"{left.within(level)} {node.op} {right.within(level + 1)}"
        return Value(text, kind, level, truth=node.op in COMPARED, calls=left.calls or right.calls)

    @staticmethod
    def is_size(node: tree.Expression) -> bool:
        """Whether an expression is a sizeof."""
        return isinstance(node, tree.UnaryOp) and node.op == "sizeof"

    def logical(self, node: tree.BinaryOp) -> Value:
        """&& and ||; where the right operand takes statements, by a branch (6.5.13p4, 6.5.14p4)."""
        right = self.writer.order.inline(node.right, lambda: self.test(node.right))
        if right is not None:
            left = self.test(node.left)
            level = LEVELS[node.op]
            text = f"{left.within(level)} {node.op} {right.within(level + 1)}"
            return Value(text, c_types.INT, level, truth=True, calls=left.calls or right.calls)
        both = node.op == "&&"
        truth = self.writer.temporary(c_types.INT, "0" if both else "1", "truth")
        test = self.when if both else self.unless
        test(node, lambda: self.writer.emit(f"{truth} = {int(both)};"))
        return Value(truth, c_types.INT, PRIMARY, truth=True)

    def when(self, node: tree.Expression, then: Callable[[], None]) -> None:
        """Writes that something is done where a condition holds."""
        if isinstance(node, tree.BinaryOp) and node.op == "&&" and self.writer.order.needs_statements(node.right):
            right = node.right
            self.when(node.left, lambda: self.when(right, then))
            return
        self.braced(f"if ({self.test(node).text})", then)

    def unless(self, node: tree.Expression, then: Callable[[], None]) -> None:
        """Writes that something is done where a condition doesn't hold."""
        if isinstance(node, tree.BinaryOp) and node.op == "||" and self.writer.order.needs_statements(node.right):
            right = node.right
            self.unless(node.left, lambda: self.unless(right, then))
            return
        self.braced(f"if (!{self.test(node).within(UNARY)})", then)

    def braced(self, head: str, then: Callable[[], None]) -> None:
        """Writes a head, and what is done between braces behind it."""
        self.writer.emit(head + " {")
        then()
        self.writer.emit("}")

    def chosen(self, node: tree.TernaryOp) -> Value:
        """?: as a value; where a part takes statements, by a branch (6.5.15p4). Raises Refused where both are no
        integers."""
        kind = self.writer.constants.type_of(node)
        if not isinstance(kind, Int):
            raise Refused(node.coord, "a choice between what are no integers", "use if")
        apart = self.writer.order.needs_statements(node.iffalse)
        yes = None if apart else self.writer.order.inline(node.iftrue, lambda: self.value(node.iftrue))
        no = None if yes is None else self.writer.order.inline(node.iffalse, lambda: self.value(node.iffalse))
        if yes is not None and no is not None:
            test = self.test(node.cond)
            text = f"{test.within(1)} ? {yes.text} : {no.within(0)}"
            return Value(text, kind, 0, truth=yes.truth and no.truth, calls=test.calls or yes.calls or no.calls)
        made = self.writer.temporary(kind, "0")
        self.either(node, lambda one: self.writer.emit(f"{made} = {self.value(one).text};"))
        return Value(made, kind, PRIMARY)

    def either(self, node: tree.TernaryOp, do: Callable[[tree.Expression], None]) -> None:
        """Writes that something is done with the one or the other part of `?:`."""
        self.writer.emit(f"if ({self.test(node.cond).text}) {{")
        do(node.iftrue)
        self.writer.emit("} else {")
        do(node.iffalse)
        self.writer.emit("}")

    def as_number(self, node: tree.Expression, to: Int) -> Value:
        """A pointer as an integer: 0 of null, else a number for its column, 2^20 apart, and in it that of the first byte (6.3.2.3p6)."""
        of = self.writer.columns.pointer(node)
        region = of.region.root()
        index = self.writer.elements.steady_value(self.writer.pointers.pointer(node)[INDEX])
        size = 1 if region.raw or region.is_code else c_types.size(region.type) or 1
        base = (self.writer.columns.number(region) + 1) << 20
        at = index.within(10) if size == 1 else f"{index.within(10)} * {size}"
        return Value(f"({to.text}) ({index.within(7)} == {NIL} ? 0 : {base} + {at})", to, UNARY)

    def cast(self, node: tree.Cast) -> Value:
        """A conversion to an integer type (6.5.4). Raises Refused for another one."""
        to = self.writer.names.types.get(node.to_type)
        if not isinstance(to, Int):
            raise Refused(node.coord, "a conversion to what is no integer", "convert to an integer type")
        if self.writer.constants.is_null_offset(node.expr):
            return Value(f"{self.writer.at(node)}({to.text}) {self.writer.constants.value(node)}", to, UNARY)
        if self.writer.pointers.is_pointer(node.expr) and not to.boolean:
            return self.as_number(node.expr, to)
        one = self.value(node.expr)
        if to.boolean:
            return self.writer.conversions.truth(one)
        return Value(f"{self.writer.at(node)}({to.text}) {one.within(UNARY)}", to, UNARY, calls=one.calls)
