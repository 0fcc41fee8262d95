"""Writes assignments, steps and other expressions for their effect, as statements."""

from collections.abc import Callable
from typing import Optional

from fshell_tools.adapt.bind.value_texts import LEVELS, PRIMARY, UNARY, Value
from fshell_tools.adapt.common import c_types, tree
from fshell_tools.adapt.common.c_types import INDEX, Int, Path, Pointer, Struct
from fshell_tools.adapt.common.objects import Place, Variable
from fshell_tools.adapt.common.output import unmarked
from fshell_tools.adapt.common.refusals import Refused
from fshell_tools.adapt.common.tree import walk
from fshell_tools.adapt.effects.side_effects import STEPS, Object, alike, opened
from fshell_tools.adapt.names.constants import LOGICAL
from fshell_tools.adapt.names.value_ranges import within
from fshell_tools.adapt.write import statement_exprs
from fshell_tools.adapt.write.component import Component


class Assignments(Component):
    """The assignments, steps and effects of one function (6.5.16, 6.5.2.4, 6.5.3.1)."""

    def assigned(self, node: tree.Assignment) -> Value:
        """An assignment as a value: it is written, and the target read again (6.5.16p3). Raises Refused for a struct
        that is assigned within an expression."""
        if not isinstance(self.writer.constants.type_of(node.lvalue), Int):
            raise Refused(
                node.coord, "a struct is assigned within an expression", "assign it in a statement of its own"
            )
        text, kind = self.assign(node, True)
        if self.writer.elements.kind_at(self.writer.places.place(node.lvalue)) != kind:
            return Value(f"({kind.text}) {text}", kind, UNARY)
        return Value(text, kind, PRIMARY, truth=kind.boolean)

    def assign(self, node: tree.Assignment, stable: bool = False) -> tuple[str, Int]:
        """Writes an assignment to an integer; the target's text and type. Raises Refused where the target is an
        array, or where C leaves an order open that matters."""
        place = self.writer.places.place(node.lvalue)
        if not isinstance(place.type, Int):
            fault = c_types.fault_of(place.type) or ("an assignment to an array", "assign its elements")
            raise Refused(node.coord, *fault)
        index = tree.ExprList([one for one, _ in place.indexes] + ([node.lvalue] if node.op != "=" else []))
        self.writer.order.unsequenced(node, [index, node.rvalue])
        self.not_twice(node, place, node.rvalue)
        kind = place.type
        if place.variable.is_input:
            return self.assign_register(node, place, kind)
        if place.view is not None:
            return self.assign_part(place, lambda own: self.combined(own, node), kind)
        other = self.writer.elements.kind_at(place) != kind and node.op in ("/=", "%=", ">>=")
        twice = (kind.boolean or other or kind.width > 0) and node.op != "="
        target, _ = self.writer.elements.leaf(
            place, stable or twice or (node.op != "=" and self.writer.elements.is_large(place))
        )
        given = self.writer.expressions.value(node.rvalue)
        self.writer.emit(self.assignment(node, target, kind, given, other))
        return target, kind

    def assignment(self, node: tree.Assignment, target: str, kind: Int, given: Value, other: bool) -> str:
        """The statement of an assignment; `other` says that the column has integers of the other sign."""
        if node.op == "=" or not (kind.boolean or other or kind.width > 0):
            return f"{target} {node.op} {self.writer.conversions.converted(given, kind).text};"
        level = LEVELS[node.op[:-1]]
        own = f"({kind.text}) {target}" if other else target
        whole = Value(f"{own} {node.op[:-1]} {given.within(level + 1)}", c_types.common(kind, given.kind), level)
        return f"{target} = {whole.text if other else self.writer.conversions.converted(whole, kind).text};"

    def stepping(self, node: tree.UnaryOp, target: str, kind: Int) -> str:
        """The statement that adds 1 to a place or takes 1 off (6.5.2.4, 6.5.3.1), converted to the kind of the place."""
        if not kind.width:
            return f"{target}{node.op[-2:]};"
        return f"{target} = {self.writer.conversions.converted(Value(f'{target} {node.op[-1]} 1', c_types.INT, 9), kind).text};"

    def assign_register(self, node: tree.Assignment, place: Place, kind: Int) -> tuple[str, Int]:
        """Writes an assignment to a register, which keeps nothing; the value that it was given."""
        value = self.combined(Value(f"{place.variable.out}()", kind, PRIMARY, calls=True), node)
        return self.writer.temporary(kind, value.text), kind

    # ---- parts of an integer

    def part_shift(self, place: Place) -> str:
        """By how many bits a part stands above the lowest; a bad index ends the run."""
        view = place.view
        assert view is not None
        if view.index is None:
            return ""
        step, index = view.kind.bits.bit_length() - 1, self.writer.elements.steady(
            view.index, self.writer.expressions.value(view.index)
        )
        known = self.writer.constants.value(view.index)
        if known is not None and 0 <= known < (view.length or 0):
            return str(known << step) if known else ""
        found = self.writer.ranges.of(view.index)
        if found is not None and within(found, (0, (view.length or 0) - 1)):
            return f"({index.within(9)} << {step})"
        wide = "unsigned long" if index.kind.bits == 64 else "unsigned int"
        return f"({index.within(9)} << {step} | -(({wide}) {index.within(UNARY)} >= {view.length}))"

    def part(self, place: Place, whole: str) -> Value:
        """What a bit-field or a view has, out of the integer that holds it whole."""
        view, shift = place.view, self.part_shift(place)
        assert view is not None
        text = f"({view.kind.text}) ({whole} >> {shift})" if shift else f"({view.kind.text}) {whole}"
        return Value(text, view.kind, UNARY)

    def assign_part(self, place: Place, value: Callable[[Value], Value], kind: Int) -> tuple[str, Int]:
        """Writes an assignment to a part; the text that reads it."""
        assert place.view is not None and place.view.kind == kind
        whole, _ = self.writer.elements.leaf(place, True)
        of, shift = self.writer.places.carrier_kind(place), self.part_shift(place)
        word, own = c_types.FIXED[f"uint{of.bits}_t"].text, c_types.FIXED[f"uint{kind.bits}_t"].text
        given = unmarked(self.writer.conversions.converted(value(self.part(place, whole)), kind).within(UNARY))
        if kind.bits == of.bits:
            self.writer.emit(f"{whole} = {given};")
            return self.part(place, whole).text, kind
        mask = hex((1 << kind.bits) - 1) + ("ul" if kind.bits == 64 else "u")
        up = f" << {shift}" if shift else ""
        self.writer.emit(f"{whole} = {whole} & ~(({word}) {mask}{up}) | ({word}) ({own}) {given}{up};")
        return self.part(place, whole).text, kind

    def combined(self, own: Value, node: tree.Assignment) -> Value:
        """What an assignment gives its target."""
        given = self.writer.expressions.value(node.rvalue)
        return given if node.op == "=" else self.operated(node, node.op[:-1], own, given)

    def operated(self, node: tree.Expression, op: str, own: Value, given: Value) -> Value:
        """What an operation makes of a part and a value."""
        level = LEVELS[op]
        return Value(f"{own.within(level)} {op} {given.within(level + 1)}", c_types.common(own.kind, given.kind), level)

    def not_twice(self, node: tree.Expression, place: Place, value: tree.Expression) -> None:
        """An object may not be assigned once more by the value, but where that is done before the value is there, as in an argument of
        a call. Raises Refused where it is (6.5p2, 6.5.16p3)."""
        one, effects = (place.variable, place.path, bool(place.indexes)), self.writer.effected.of(value)
        writes, target = effects.writes, node.lvalue if isinstance(node, tree.Assignment) else node
        within = set(opened(value)) if writes else set[tree.Node]()
        again = any(written and named in within and alike(target, named) for _, named, written in effects.elements)
        if again or (not one[2] and one in writes and not writes[one] and self.is_set(one, within)):
            raise Refused(
                node.coord,
                f"{place.variable.name} is assigned twice, in an order that C leaves open",
                "use two statements",
            )

    def is_set(self, one: Object, within: set[tree.Node]) -> bool:
        """Whether an assignment or a step among some nodes is one of an object."""
        targets = [node.lvalue for node in within if isinstance(node, tree.Assignment)]
        targets += [node.expr for node in within if isinstance(node, tree.UnaryOp) and node.op in STEPS]
        return any(one in self.writer.effected.of(target).reads for target in targets)

    def step(self, node: tree.UnaryOp, stable: bool = False) -> tuple[str, Int]:
        """The text and the type of what `++` or `--` steps. Raises Refused for what is no integer, or is bool."""
        place = self.writer.places.place(node.expr)
        if not isinstance(place.type, Int) or place.type.boolean:
            raise Refused(node.coord, "a step of what is no integer", "assign its value")
        return self.writer.elements.leaf(place, stable or self.writer.elements.is_large(place))[0], place.type

    def stepped(self, node: tree.UnaryOp) -> Value:
        """`++` and `--` as a value: the old one, which is kept, or the new one, which is read (6.5.2.4, 6.5.3.1)."""
        place = self.writer.places.place(node.expr)
        if place.view is not None and isinstance(place.type, Int):
            old = self.writer.temporary(place.type, self.part(place, self.writer.elements.leaf(place, True)[0]).text)
            self.step_part(node, place)
            return (
                Value(old, place.type, PRIMARY)
                if node.op.startswith("p")
                else self.part(place, self.writer.elements.leaf(place)[0])
            )
        target, kind = self.step(node, True)
        step, before = self.stepping(node, target, kind), not node.op.startswith("p")
        if before or node in self.writer.behind:
            self.writer.emit(step) if before else self.writer.after.append(step)
            if self.writer.elements.kind_at(self.writer.places.place(node.expr)) != kind:
                return Value(f"({kind.text}) {target}", kind, UNARY)
            return Value(self.writer.at(node) + target, kind, PRIMARY)
        old = self.writer.temporary(kind, target)
        self.writer.emit(step)
        return Value(old, kind, PRIMARY)

    def effect(self, node: tree.Expression) -> None:
        """Writes an expression for its effect alone. Raises Refused for a step of a register."""
        if isinstance(node, tree.ExprList):
            for one in node.exprs:
                self.effect(one)
        elif isinstance(node, tree.Assignment):
            assigned = node
            if isinstance(self.writer.constants.type_of(node.lvalue), Pointer):
                self.plain_effect(node, lambda: self.writer.pointer_effects.assign_pointer(assigned))
            elif isinstance(self.writer.constants.type_of(node.lvalue), Struct):
                self.writer.wholes.assign_whole(self.writer.places.place(node.lvalue), node.rvalue, node)
            else:
                self.plain_effect(node, lambda: self.assign(assigned))
        elif isinstance(node, tree.UnaryOp) and node.op in STEPS and self.writer.pointers.is_pointer(node.expr):
            place = self.writer.places.place(node.expr)
            self.writer.emit(
                self.writer.pointers.step_text(
                    node, self.writer.pointers.parts_at(place, self.writer.elements.index(place, False))[INDEX].text
                )
            )
        elif isinstance(node, tree.UnaryOp) and node.op in STEPS:
            place = self.writer.places.place(node.expr)
            if place.view is not None:
                self.step_part(node, place)
                return
            if place.variable.is_input:
                raise Refused(node.coord, f"a step of the register {place.variable.name}", "assign its value")
            self.writer.emit(self.stepping(node, *self.step(node, self.kind_has_width(node.expr))))
        elif isinstance(node, tree.FuncCall):
            self.writer.calls.call_effect(node)
        elif isinstance(node, tree.StatementExpr):
            statement_exprs.effect(self.writer, node)
        elif isinstance(node, tree.TernaryOp):
            self.writer.expressions.either(node, self.effect)
        elif isinstance(node, tree.BinaryOp) and node.op in LOGICAL:
            right = node.right
            test = self.writer.expressions.when if node.op == "&&" else self.writer.expressions.unless
            test(node.left, lambda: self.effect(right))
        elif isinstance(node, tree.Cast) and self.writer.names.types.get(node.to_type) == c_types.VOID:
            self.effect(node.expr)
        elif self.writer.effected.of(node).writes or self.has_calls(node):
            left = (
                self.writer.pointers.pointer(node)[INDEX]
                if self.writer.pointers.is_pointer(node)
                else self.writer.expressions.value(node)
            )
            if left.calls:
                self.writer.temporary(left.kind, left.text)

    def step_part(self, node: tree.UnaryOp, place: Place) -> None:
        """Writes a step of a part of an integer."""
        assert isinstance(place.type, Int)
        one = Value("1", c_types.INT, PRIMARY)
        self.assign_part(place, lambda own: self.operated(node, node.op[-1], own, one), place.type)

    def kind_has_width(self, node: tree.Expression) -> bool:
        """Whether an expression is a bit-field."""
        of = self.writer.constants.type_of(node)
        return isinstance(of, Int) and of.width > 0

    def has_calls(self, node: tree.Expression) -> bool:
        """Whether an expression has a call in it."""
        return any(isinstance(one, tree.FuncCall) for one in walk(node))

    def plain_effect(self, node: tree.Expression, write: Callable[[], object]) -> None:
        """A statement without calls and sequence points: steps of objects that it names only once are taken behind it."""
        nodes = walk(node)
        inner = [one for one in nodes if isinstance(one, tree.UnaryOp) and one.op in ("p++", "p--")]
        sequenced = (tree.FuncCall, tree.TernaryOp, tree.ExprList, tree.StatementExpr)
        if inner and not any(
            isinstance(one, sequenced) or (isinstance(one, tree.BinaryOp) and one.op in LOGICAL) for one in nodes
        ):
            named = [self.object_of(one) for one in nodes if isinstance(one, (tree.ID, tree.StructRef))]
            for one in inner:
                target = self.object_of(one.expr)
                if target is not None and named.count(target) == 1:
                    self.writer.behind.add(one)
        write()
        for text in self.writer.after:
            self.writer.emit(text)
        self.writer.after.clear()

    def object_of(self, node: tree.Expression) -> Optional[tuple[Variable, Path]]:
        """The integer that a name or a member stands for, where it is no element."""
        try:
            place = self.writer.places.place(node)
        except Refused:
            return None
        simple = isinstance(place.type, (Int, Pointer)) and not place.indexes and place.variable.home != "column"
        return (place.variable, place.path) if simple else None
