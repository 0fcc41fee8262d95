"""Writes what is done with pointers: comparisons, assignments, declarations, returns; and objects part by part."""

from dataclasses import replace
from typing import Optional

from fshell_tools.adapt.bind.value_texts import PRIMARY, UNARY, Known, Value, plus, times
from fshell_tools.adapt.common import c_types, tree
from fshell_tools.adapt.common.c_types import INDEX, Array, Pointer
from fshell_tools.adapt.common.objects import Function, Place, Variable
from fshell_tools.adapt.common.output import unmarked
from fshell_tools.adapt.common.refusals import Refused
from fshell_tools.adapt.effects.side_effects import objects
from fshell_tools.adapt.write.component import Component
from fshell_tools.adapt.write.pointers import Parts


class PointerEffects(Component):
    """What is done with pointers, and with objects part by part."""

    def compared(self, node: tree.BinaryOp) -> Value:
        """`==`, `<` and the like of two pointers by their indexes in one column (6.5.8p5, 6.5.9p6)."""
        self.writer.order.unsequenced(node, [node.left, node.right])
        left, right = self.writer.pointers.pointer(node.left)[INDEX], self.writer.pointers.pointer(node.right)[INDEX]
        text = f"{left.within(7 if node.op in ('==', '!=') else 8)} {node.op} {right.within(8)}"
        level = 6 if node.op in ("==", "!=") else 7
        return Value(text, c_types.INT, level, truth=True, calls=left.calls or right.calls)

    def difference(self, node: tree.BinaryOp) -> Value:
        """The difference of two pointers in elements (6.5.6p9)."""
        found = self.writer.pointers.between(node)
        return Value(f"(long) {found.within(UNARY)}", c_types.LONG, UNARY, calls=found.calls)

    def assign_pointer(self, node: tree.Assignment) -> None:
        """Writes an assignment to a pointer (6.5.16.1). Raises Refused for an operator that pointers haven't."""
        place = self.writer.places.place(node.lvalue)
        if node.op in ("+=", "-="):
            parts = self.moved_in_place(node, place)
            return
        if node.op != "=":
            raise Refused(node.coord, "arithmetic with a pointer", "use + and -")
        indexes = tree.ExprList([one for one, _ in place.indexes])
        self.writer.order.unsequenced(node, [indexes, node.rvalue])
        self.writer.assignments.not_twice(node, place, node.rvalue)
        index = self.writer.elements.index(place, True, self.reads(indexes, place))
        target = self.writer.pointers.parts_at(place, index)
        parts = self.writer.pointers.pointer(node.rvalue)
        self.set_parts(target, parts, self.reads(node.rvalue, place))

    def moved_in_place(self, node: tree.Assignment, place: Place) -> Parts:
        """Writes that a pointer moves by `+=` or `-=`; its integers."""
        self.writer.order.unsequenced(node, [node.lvalue, node.rvalue])
        target = self.writer.pointers.parts_at(place, self.writer.elements.index(place, True))
        step = times(self.writer.pointers.step(node.rvalue), self.writer.pointers.stride(node.lvalue))
        self.writer.emit(f"{target[INDEX].text} {node.op} {step.text};")
        return target

    def reads(self, node: tree.Expression, place: Place) -> bool:
        """Whether an expression reads an object."""
        reads = self.writer.effected.of(node).reads
        return any(one in reads for one in objects(place))

    def set_parts(self, target: Parts, parts: Parts, read: bool) -> None:
        """Writes a pointer's integers; kept first where what is read may be what is written."""
        changed = [name for name in reversed(list(target)) if unmarked(target[name].text) != unmarked(parts[name].text)]
        texts = {name: parts[name].text for name in changed}
        if read and len(changed) > 1:
            texts = {name: self.writer.temporary(c_types.INT, texts[name], "pointer") for name in changed}
        for name in changed:
            self.writer.emit(f"{target[name].text} = {texts[name]};")

    def placed(self, variable: Variable, path: tuple[str, ...], spot: tuple[int, ...]) -> Place:
        """The place of a part of a variable, by its members and the numbers of its elements."""
        place, names, numbers = self.writer.places.of_variable(variable), list(path), list(spot)
        return self.stepped_into(place, names, numbers)

    def stepped_into(self, place: Place, names: list[str], numbers: list[int]) -> Place:
        """The place of a part of a place."""
        while names or numbers:
            if isinstance(place.type, Array) and numbers:
                place = self.writer.places.element(place, tree.Constant("int", str(numbers.pop(0))))
            elif (
                names
                and isinstance(place.type, c_types.Struct)
                and self.writer.places.is_raw(place)
                and place.type.is_parts()
            ):
                place = replace(place, type=place.type.type_of(names.pop(0)))
            elif names and names[0].startswith("@"):
                return replace(place, path=place.path + (names.pop(0),), type=c_types.INT)
            else:
                place = self.writer.places.member(place, names.pop(0), None)
        return place

    def each_integer(self, place: Place, index: Optional[Value]) -> list[tuple[c_types.Leaf, list[str]]]:
        """The integers of an object of which some lie in columns of their own. Raises Refused for one that stands as its bytes and
        has floating point numbers."""
        base = place
        if self.writer.places.is_raw(place):
            self.writer.raw.check_whole(place.type, None)
        if self.writer.places.is_raw(place) and c_types.is_mixed(place.type):
            begin, column = index or self.writer.raw.index(place, True), self.writer.spelling.leaf(place.variable, ())
            count = c_types.size(place.type) or 0
            ends = [plus(begin, Value(str(at), c_types.INT, PRIMARY)).text for at in range(count)]
            return [
                (c_types.Leaf((), (count,), c_types.Int(8, False, "")), [f"{column}[{unmarked(one)}]" for one in ends])
            ]
        if self.writer.places.is_raw(place):
            base = self.writer.raw.known(place, index or self.writer.raw.index(place, True))
        elif index is not None:
            base = replace(place, indexes=((Known(index, None), 1),), shift=0)
        found = []
        for leaf in c_types.leaves(place.type):
            texts = []
            for at in range(leaf.count):
                spot: list[int] = []
                for length in reversed(leaf.dims):
                    spot.insert(0, at % length)
                    at //= length
                texts.append(unmarked(self.writer.elements.leaf(self.stepped_into(base, list(leaf.path), spot))[0]))
            found.append((leaf, texts))
        return found

    def lies_apart(self, variable: Variable) -> bool:
        """Whether a part of a variable lies in a column of its own."""
        return self.writer.columns.any_apart(self.writer.columns.home(variable), variable.type)

    def pointer_begun(self, variable: Variable, init: tree.Expression) -> None:
        """Writes a local pointer with its first value."""
        parts = self.writer.pointers.pointer(init)
        if self.writer.columns.in_column(variable):
            place = self.writer.places.of_variable(variable)
            self.set_parts(self.writer.pointers.parts_at(place, self.writer.elements.index(place, True)), parts, False)
            return
        for leaf in c_types.leaves(variable.type):
            self.writer.declare(
                f"{leaf.kind.text} {self.writer.spelling.leaf(variable, leaf.path)} = {parts[leaf.path[-1]].text};"
            )

    def return_pointer(self, function: Function, of: Pointer, expr: tree.Expression) -> None:
        """Writes the return of a pointer: its index, and what else it has in objects of the file."""
        parts = self.writer.pointers.pointer(expr)
        text = parts[INDEX].text
        if parts[INDEX].calls and len(of.region.parts()) > 1 or self.writer.statements.hands_back():
            text = self.writer.temporary(c_types.INT, text)
        for part in of.region.parts()[1 if function.calls else 0 :]:  # (what nothing calls gives no number)
            self.writer.emit(f"{self.writer.pointers.result_part(function, part)} = {parts[part].text};")
        self.writer.statements.hand_back()
        self.writer.emit(f"return {text};" if function.calls else "return;")
