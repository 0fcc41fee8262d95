"""Writes the values of pointers: the index of what is pointed to in its column, and where they matter the end and the begin of
its object. An access outside of the object becomes the index -1, which ends a run, and never reads a neighbour."""

from dataclasses import replace
from typing import Optional, TypeGuard

from fshell_tools.adapt.bind.lvalues import At
from fshell_tools.adapt.bind.value_texts import PRIMARY, UNARY, Value, minus, number, plus, times
from fshell_tools.adapt.common import c_types, tree
from fshell_tools.adapt.common.c_types import BEGIN, END, INDEX, MOST_INDEX, NIL, Array, Pointer, Signature
from fshell_tools.adapt.common.objects import Function, Place, Variable
from fshell_tools.adapt.common.output import unmarked
from fshell_tools.adapt.common.refusals import Refused
from fshell_tools.adapt.effects.side_effects import STEPS
from fshell_tools.adapt.names.value_ranges import SMALL, within
from fshell_tools.adapt.points_to.heap import heap_call
from fshell_tools.adapt.points_to.models import model_of
from fshell_tools.adapt.write import statement_exprs
from fshell_tools.adapt.write.component import Component


NONE = {
    INDEX: Value(str(NIL), c_types.INT, UNARY),
    END: Value("0", c_types.INT, PRIMARY),
    BEGIN: Value("0", c_types.INT, PRIMARY),
}
Parts = dict[str, Value]


class Pointers(Component):
    """Writes expressions with pointer types as integers: an index, and an end and a begin where they are needed."""

    def is_null(self, node: tree.Expression) -> bool:
        """Whether an expression is a null pointer constant (6.3.2.3p3)."""
        while isinstance(node, tree.Cast):
            node = node.expr
        return self.writer.constants.value(node) == 0

    def is_pointer(self, node: tree.Expression) -> bool:
        """Whether an expression is a pointer or an array that is one, but for parameters that stand for objects."""
        of = self.writer.constants.type_of(node)
        meaning = self.writer.names.meaning.get(node) if isinstance(node, tree.ID) else None
        return isinstance(of, (Pointer, Array, Signature)) and not (isinstance(meaning, Variable) and meaning.is_bound)

    # ---- values

    def pointer(self, node: tree.Expression) -> Parts:
        """The integers of a pointer's value; its effects are written before."""
        self.writer.within += 1
        try:
            return self.parts_of(node)
        finally:
            self.writer.within -= 1

    def parts_of(self, node: tree.Expression) -> Parts:
        """The integers of a pointer's value by its form. Raises Refused where the pointer may meet objects that can't
        lie in one column."""
        if self.is_null(node):
            return NONE
        of = self.writer.columns.pointer(node)
        fault = of.region.root().fault
        if fault:
            raise Refused(node.coord, fault[1], fault[2])
        if isinstance(self.writer.constants.type_of(node), Signature):
            return self.code(node, of)
        if isinstance(node, tree.Cast):
            return self.pointer(node.expr)
        if isinstance(node, tree.UnaryOp) and node.op == "&":
            return self.address(node)
        if isinstance(node, tree.UnaryOp) and node.op in STEPS:
            return self.stepped_pointer(node)
        if isinstance(node, tree.BinaryOp):
            left = self.is_pointer(node.left)
            return self.moved(node, node.left if left else node.right, node.right if left else node.left, node.op)
        if isinstance(node, tree.Assignment):
            self.writer.assignments.effect(node)
            return self.loaded(node.lvalue)
        if isinstance(node, tree.TernaryOp):
            return self.chosen_pointer(node, of)
        if isinstance(node, tree.ExprList):
            for one in node.exprs[:-1]:
                self.writer.assignments.effect(one)
            return self.pointer(node.exprs[-1])
        if isinstance(node, tree.FuncCall):
            return self.given_back(node, of)
        if isinstance(node, tree.StatementExpr):
            return statement_exprs.pointer(self.writer, node, of.region.parts())
        if isinstance(self.writer.constants.type_of(node), Array):
            return self.pointing_at_first(self.array(node))
        return self.loaded(node)

    def code(self, node: tree.Expression, of: Pointer) -> Parts:
        """A function's name, or what a pointer to one leads to, as a pointer."""
        meaning = self.writer.names.meaning.get(node) if isinstance(node, tree.ID) else None
        if not isinstance(meaning, Function):
            assert isinstance(node, tree.UnaryOp)
            return self.pointer(node.expr)
        return {INDEX: Value(str(self.writer.choosers.number(of.region, meaning)), c_types.INT, PRIMARY)}

    def array(self, node: tree.Expression) -> Place:
        """The place of an array or of a string."""
        if isinstance(node, tree.Constant):
            return self.writer.places.of_variable(self.writer.columns.points.texts[node])
        return self.writer.places.place(node)

    def loaded(self, node: tree.Expression) -> Parts:
        """The value of a pointer that is an object."""
        place = self.writer.places.place(node)
        return self.parts_at(place, self.writer.elements.index(place, True))

    def parts_at(self, place: Place, index: Optional[Value]) -> Parts:
        """The integers of a pointer that lies at a place."""
        found = {}
        assert isinstance(place.type, Pointer)
        raw = self.writer.places.is_raw(place)
        for part in place.type.region.parts():
            own = replace(place, path=(part,), type=c_types.INT)
            name = (
                self.writer.raw.array(own) if raw else self.writer.spelling.leaf(place.variable, place.path + (part,))
            )
            text = name if index is None else f"{name}[{index.text}]"
            found[part] = Value(text, c_types.INT, PRIMARY, calls=index is not None and index.calls)
        return found

    def pointing_at_first(self, place: Place) -> Parts:
        """A pointer to the first element of an array."""
        return self.pointing(self.first_element(place), place.around or place)

    def first_element(self, place: Place) -> Place:
        """The place of an array's first element, through all its lengths."""
        while isinstance(place.type, Array):
            place = self.writer.places.element(place, self.writer.places.zero)
        return place

    def pointing(self, place: Place, around: Place) -> Parts:
        """A pointer to a place within an object. Raises Refused for an object that lies in no column."""
        if place.variable.home != "column" or place.path:
            raise Refused(None, f"the address of {place.variable.name}", "name the object itself")
        if self.writer.places.is_raw(place):
            return self.writer.raw.pointing(place)
        index = self.writer.elements.index(place, True, False, True)
        assert index is not None
        begin = index
        if isinstance(around.type, Array):
            begin = self.writer.elements.index(self.first_element(around), True) or index
        end = plus(begin, Value(str(c_types.elements(around.type)), c_types.INT, PRIMARY))
        return {INDEX: index, END: end, BEGIN: begin}

    def address(self, node: tree.UnaryOp) -> Parts:
        """The address of an object or a function (6.5.3.2p3)."""
        inner = node.expr
        if isinstance(self.writer.constants.type_of(inner), Signature):
            return self.pointer(inner)
        if isinstance(inner, tree.UnaryOp) and inner.op == "*" and self.is_pointer(inner.expr):
            return self.pointer(inner.expr)
        if isinstance(inner, tree.ArrayRef) and isinstance(self.writer.constants.type_of(inner.name), Pointer):
            if self.is_pointer(inner.name):
                return self.moved(node, inner.name, inner.subscript, "+")
        place = self.writer.places.place(inner)
        return self.pointing(self.first_element(place), place.around or place)

    def small(self, node: tree.Expression) -> Optional[Value]:
        """A number of elements as an `int`, where its kinds and constants show that an array may have it; else None."""
        found, known = self.writer.ranges.of(node), self.writer.constants.value(node)
        if found is None or not within(found, SMALL):
            return None
        if known is not None:
            return Value(str(known), c_types.INT, PRIMARY if known >= 0 else UNARY)
        value = self.writer.elements.steady_value(self.writer.expressions.value(node))
        if value.kind.bits < 32 or value.kind == c_types.INT:
            return value
        return Value(f"(int) {value.within(UNARY)}", c_types.INT, UNARY)

    def wide(self, value: Value) -> Value:
        """A number of elements by which a pointer is moved; one that no array has becomes 65,536, which lies outside of all."""
        kind, text = value.kind, value.within(UNARY)
        if kind.signed and kind.bits == 64:
            bad = f"((unsigned long) {text} + {-NIL} > {2 * MOST_INDEX + 1})"
        else:
            bad = f"({value.within(8)} > {MOST_INDEX})"
        cast = text if kind.bits < 32 or (kind.bits == 32 and kind.signed) else f"(int) {text}"
        return Value(
            f"(({unmarked(cast)} & ({unmarked(bad)} - 1)) + ({unmarked(bad)} << 16))",
            c_types.INT,
            PRIMARY,
            calls=value.calls,
        )

    def between(self, node: tree.BinaryOp) -> Value:
        """The difference of two pointers in elements, in 32 bits (6.5.6p9)."""
        self.writer.order.unsequenced(node, [node.left, node.right])
        left, right = self.pointer(node.left)[INDEX], self.pointer(node.right)[INDEX]
        stride, calls = self.stride(node.left), left.calls or right.calls
        found = Value(f"{left.within(9)} - {right.within(10)}", c_types.INT, 9, calls=calls)
        return found if stride == 1 else Value(f"{found.within(10)} / {stride}", c_types.INT, 10, calls=calls)

    def step(self, node: tree.Expression) -> Value:
        """A number of elements by which a pointer is moved, outside of all arrays where no array has so many."""
        return (
            self.part_of_way(node)
            or self.small(node)
            or self.wide(self.writer.elements.steady_value(self.writer.expressions.value(node)))
        )

    def part_of_way(self, node: tree.Expression) -> Optional[Value]:
        """The difference of two pointers by a constant (6.5.5p5), if it is one: in 32 bits, which is the same, and one division.
        A difference that no array has comes with 65,536 more."""
        if not (isinstance(node, tree.BinaryOp) and node.op == "/" and self.is_difference(node.left)):
            return None
        by = self.writer.constants.value(node.right)
        if by is None or not 1 < by <= MOST_INDEX:
            return None
        way = self.writer.elements.steady_value(self.between(node.left))
        text = f"{way.within(10)} / {by} + (({unmarked(way.within(8))} > {2 * MOST_INDEX + 1}) << 16)"
        return Value(text, c_types.INT, 9, calls=way.calls)

    def is_difference(self, node: tree.Expression) -> TypeGuard[tree.BinaryOp]:
        """Whether an expression is the difference of two pointers."""
        return (
            isinstance(node, tree.BinaryOp)
            and node.op == "-"
            and self.is_pointer(node.left)
            and self.is_pointer(node.right)
        )

    def stride(self, node: tree.Expression) -> int:
        """By how many elements of its column, or bytes, a pointer moves: the number of those in what it points to."""
        of = self.writer.columns.pointer(node)
        return (c_types.size(of.to) or 1) if of.region.root().raw else c_types.elements(of.to)

    def moved(self, node: tree.Expression, base: tree.Expression, by: tree.Expression, op: str) -> Parts:
        """A pointer moved by a number of elements."""
        self.writer.order.unsequenced(node, [base, by])
        parts = dict(self.pointer(base))
        step = times(self.step(by), self.stride(base))
        if op == "-":
            known = number(step)
            made = f"{parts[INDEX].within(9)} - {step.within(10)}"
            parts[INDEX] = plus(parts[INDEX], minus(known)) if known is not None else Value(made, c_types.INT, 9)
        else:
            parts[INDEX] = plus(parts[INDEX], step)
        return parts

    def stepped_pointer(self, node: tree.UnaryOp) -> Parts:
        """`++` and `--`: the old value, which is kept, or the new one."""
        place = self.writer.places.place(node.expr)
        parts = self.parts_at(place, self.writer.elements.index(place, True))
        target = parts[INDEX].text
        step, before = self.step_text(node, target), not node.op.startswith("p")
        if before or node in self.writer.behind:
            self.writer.emit(step) if before else self.writer.after.append(step)
            return parts
        old = self.writer.temporary(c_types.INT, target)
        self.writer.emit(step)
        return {**parts, INDEX: Value(old, c_types.INT, PRIMARY)}

    def step_text(self, node: tree.UnaryOp, target: str) -> str:
        """The statement of a step of a pointer."""
        stride = self.stride(node.expr)
        return f"{target}{node.op[-2:]};" if stride == 1 else f"{target} {node.op[-1]}= {stride};"

    def chosen_pointer(self, node: tree.TernaryOp, of: Pointer) -> Parts:
        """?: of pointers, each integer by itself, or by a branch."""
        names = of.region.parts()
        apart = self.writer.order.needs_statements(node.iffalse)
        yes = None if apart else self.writer.order.inline(node.iftrue, lambda: self.pointer(node.iftrue))
        no = None if yes is None else self.writer.order.inline(node.iffalse, lambda: self.pointer(node.iffalse))
        if yes is not None and no is not None:
            test = self.writer.expressions.test(node.cond)
            if not any(one.calls for one in [test, *yes.values(), *no.values()]) or len(names) == 1:
                texts = {name: f"{test.within(1)} ? {yes[name].text} : {no[name].within(0)}" for name in names}
                return {name: Value(text, c_types.INT, 0, calls=test.calls) for name, text in texts.items()}
        made = {name: self.writer.temporary(c_types.INT, "0", "pointer") for name in names}

        def set_all(one: tree.Expression) -> None:
            values = self.pointer(one)
            for name in names:
                self.writer.emit(f"{made[name]} = {values[name].text};")

        self.writer.expressions.either(node, set_all)
        return {name: Value(text, c_types.INT, PRIMARY) for name, text in made.items()}

    def given_back(self, node: tree.FuncCall, of: Pointer) -> Parts:
        """What a call gives. Raises Refused where no source defines the function."""
        function = self.writer.calls.called(node)
        if heap_call(function):
            return self.writer.heap.allocated(node, function.name)
        model = model_of(function)
        if model is not None:
            parts = self.writer.models.model_parts(node, model)
            several = len(of.region.parts()) > 1
            return {**parts, INDEX: self.writer.elements.steady_value(parts[INDEX])} if several else parts
        if function.definition is None:
            raise Refused(
                node.coord,
                f"no source defines {function.name}, which gives a pointer",
                "give the source that defines it",
            )
        text, after = self.writer.calls.call(node)
        names = of.region.parts()
        if len(names) == 1 and not after:
            return {INDEX: Value(text, c_types.INT, PRIMARY, calls=True)}
        found = {INDEX: Value(self.writer.temporary(c_types.INT, text, "pointer"), c_types.INT, PRIMARY)}
        for name in names[1:]:
            found[name] = Value(
                self.writer.temporary(c_types.INT, self.result_part(function, name), "pointer"), c_types.INT, PRIMARY
            )
        for one in after:
            self.writer.emit(one)
        return found

    def result_part(self, function: Function, part: str) -> str:
        """The name of the object in which a function hands a part of its pointer back."""
        own = self.writer.spelling.special(function, "result", function.result, self.writer.special)
        return self.writer.spelling.leaf(own, (part,))

    # ---- accesses

    def element_at(self, node: At) -> Value:
        """The number of the element at a pointer, or -1 where it is outside of the pointer's object."""
        if node.index is not None:
            self.writer.order.unsequenced(node, [node.pointer, node.index])
        parts = {name: self.writer.elements.steady_value(one) for name, one in self.pointer(node.pointer).items()}
        index, tests = parts[INDEX], []
        if node.index is not None and self.writer.constants.value(node.index) != 0:
            by = self.small(node.index)
            if by is None:
                by = self.writer.elements.steady_value(self.writer.expressions.value(node.index))
                low = by.kind.signed and by.kind.bits == 64
                tests.append(
                    f"(unsigned long) {by.within(UNARY)} + {-NIL} > {2 * MOST_INDEX + 1}"
                    if low
                    else f"{by.within(8)} > {MOST_INDEX}"
                )
            if by.kind.bits == 64:
                by = Value(f"(int) {by.within(UNARY)}", c_types.INT, UNARY)
            index = plus(index, times(by, node.stride))
        region = self.writer.columns.pointer(node.pointer).region
        wanted = region.parts()
        if node.raw:
            node.tests, node.ends = tests, {name: parts[name] for name in wanted if name != INDEX}
            return index
        tests += [f"{index.within(8)} >= {parts[END].within(8)}"] if END in wanted else []
        tests += [f"{index.within(8)} < {parts[BEGIN].within(8)}"] if BEGIN in wanted else []
        if not tests:
            return index
        text = " | ".join([index.within(4), *(f"-({unmarked(one)})" for one in tests)])
        return Value(text, index.kind if index.kind.bits == 32 else c_types.INT, 3)
