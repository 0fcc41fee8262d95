"""Writes where an integer of an object lies: its name, and the number of its element in an array (6.5.2.1)."""

from typing import Optional

from fshell_tools.adapt.bind.lvalues import Level
from fshell_tools.adapt.bind.value_texts import PRIMARY, UNARY, Value, number, plus, times
from fshell_tools.adapt.common import c_types, tree
from fshell_tools.adapt.common.c_types import Int, Leaf
from fshell_tools.adapt.common.objects import Place, Variable
from fshell_tools.adapt.common.output import unmarked
from fshell_tools.adapt.common.tree import walk
from fshell_tools.adapt.names.value_ranges import within
from fshell_tools.adapt.write.component import Component


class Elements(Component):
    """The texts of places."""

    def steady_value(self, value: Value) -> Value:
        """A value that calls no function, so that it may be named twice."""
        return Value(self.writer.temporary(value.kind, value.text), value.kind, PRIMARY) if value.calls else value

    def steady(self, node: tree.Expression, value: Value) -> Value:
        """An index that stays the same when it is read again."""
        loads = any(
            isinstance(one, (tree.ArrayRef, tree.FuncCall))
            or (isinstance(one, tree.UnaryOp) and one.op == "*")
            or (isinstance(one, tree.StructRef) and one.type == "->" and not self.stands(one.name))
            for one in walk(node)
        )
        if not value.calls and not loads:
            return value
        return Value(self.writer.temporary(value.kind, value.text, "index"), value.kind, PRIMARY)

    def stands(self, node: tree.Expression) -> bool:
        """Whether an expression is a parameter that stands for an object."""
        meaning = self.writer.names.meaning.get(node) if isinstance(node, tree.ID) else None
        return isinstance(meaning, Variable) and meaning.is_bound

    def end_of(self, place: Place) -> Optional[tree.Expression]:
        """The index of a place that may be its array's length where its address is taken (6.5.3.2p3): the last one that isn't 0."""
        live = [node for node, _ in place.indexes if self.writer.constants.value(node) != 0]
        return live[-1] if live else None

    def index(self, place: Place, stable: bool, kept: bool = False, address: bool = False) -> Optional[Value]:
        """The number of a place's first element among those of its arrays; None where there are none. With `kept` it is a
        constant or a variable of its own; with `address` it may be that behind an array."""
        if self.writer.places.is_raw(place):
            return self.writer.raw.index(place, stable or kept)
        column, tests = place.variable.home == "column", []
        whole: Optional[Value] = Value("0", c_types.INT, PRIMARY) if column else None
        self.writer.order.unsequenced(
            place.indexes[0][0] if place.indexes else None, [node for node, _ in place.indexes]
        )
        end = self.end_of(place) if address else None
        for node, length in place.shifted():
            one, most = self.writer.expressions.value(node), length - (node is not end)
            if stable or (self.writer.check and len(place.indexes) > 1):
                one = self.steady(node, one)
            known = self.writer.constants.value(node)
            inner = length > 1 and (whole is not None and (number(whole) != 0 or not self.alone(place, length)))
            if inner and not self.writer.check and not self.below(node, most + 1):
                one = self.steady_value(one)
                wide = "unsigned long" if one.kind.bits == 64 else "unsigned int"
                text = one.within(UNARY) if not one.kind.signed else f"({wide}) {one.within(UNARY)}"
                tests.append(unmarked(f"{text} >= {most + 1}"))
            if length == 1 or (whole is not None and whole.text.isdecimal()):
                whole = plus(times(whole, length), one) if whole is not None else one
                continue
            safe = isinstance(node, Level) or (known is not None and 0 <= known <= most)
            if self.writer.check and len(place.indexes) > 1 and not safe:
                below = f"{one.within(8)} >= 0 && " if one.kind.signed else ""
                self.writer.emit(f"assert({unmarked(below)}{unmarked(one.within(8))} < {most + 1});")
            if whole is None:
                whole = one
            else:
                base = times(whole, length).within(9) if column else f"{whole.within(10)} * {length}"
                text, kind = f"{base} + {one.within(10)}", c_types.common(whole.kind, one.kind)
                text = base if isinstance(place.indexes[0][0], Level) and number(one) == 0 else text
                whole = Value(text, kind, 9, calls=whole.calls or one.calls)
        if tests and whole is not None:
            text = " | ".join([whole.within(4), *(f"-({one})" for one in tests)])
            whole = Value(text, c_types.INT if whole.kind.bits < 64 else whole.kind, 3, calls=whole.calls)
        if kept and whole is not None and any(self.writer.constants.value(node) is None for node, _ in place.indexes):
            whole = Value(self.writer.temporary(c_types.promoted(whole.kind), whole.text, "index"), whole.kind, PRIMARY)
        return whole

    @staticmethod
    def alone(place: Place, length: int) -> bool:
        """Whether an array is all that its column has."""
        of = place.variable.type
        return isinstance(of, c_types.Array) and of.length == length and not place.path and len(place.indexes) == 1

    def below(self, node: tree.Expression, length: int) -> bool:
        """Whether an index is one of the array's at all events."""
        if isinstance(node, Level):
            return True
        found = self.writer.ranges.of(node)
        return found is not None and within(found, (0, length - 1))

    @staticmethod
    def kind_at(place: Place) -> c_types.Type:
        """The kind of the integers that a place's column has, which may have another sign than those of the access."""
        if place.stored is not None:
            return place.stored
        if (
            isinstance(place.type, Int)
            and place.type.bits != 8
            and place.region is not None
            and place.region.root().raw
        ):
            return place.type
        if place.variable.home != "column" or place.path:
            return place.type
        return c_types.element(place.variable.type)

    def is_large(self, place: Place) -> bool:
        """Whether a place lies in an array whose elements are read and set by functions."""
        if self.writer.places.is_raw(place):
            return True
        return self.writer.spelling.leaf(place.variable, place.path) in self.writer.large.known

    @staticmethod
    def plain(text: str) -> str:
        """The text without the marks of places."""
        return unmarked(text)

    def leaf(self, place: Place, stable: bool = False) -> tuple[str, bool]:
        """The text of an integer's place, and whether it calls functions."""
        if self.writer.places.is_raw(place):
            raw = self.writer.raw.index(place, stable)
            return f"{self.writer.raw.array(place)}[{raw.text}]", raw.calls
        name, index = self.writer.spelling.leaf(place.variable, place.path), self.index(place, stable)
        return (name, False) if index is None else (f"{name}[{index.text}]", index.calls)

    def integers(self, place: Place, index: Optional[Value]) -> list[tuple[Leaf, list[str]]]:
        """The integers of an object, with the text of each element."""
        if self.writer.columns.any_apart(place.region, place.type):
            return self.writer.pointer_effects.each_integer(place, index)
        found = []
        for leaf in c_types.leaves(place.type):
            name = self.writer.spelling.leaf(place.variable, place.path + leaf.path)
            if index is None and not leaf.dims:
                found.append((leaf, [name]))
            elif index is None or not leaf.dims:
                found.append(
                    (leaf, [f"{name}[{n if index is None else unmarked(index.text)}]" for n in range(leaf.count)])
                )
            else:
                column = place.variable.home == "column"
                base = times(index, leaf.count).within(9) if column else f"{index.within(UNARY)} * {leaf.count}"
                base = unmarked(base)
                found.append((leaf, [f"{name}[{base} + {n}]" for n in range(leaf.count)]))
        return found
