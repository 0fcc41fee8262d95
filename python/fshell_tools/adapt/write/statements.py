"""Writes the statements of a function, each on the line that it has."""

from bisect import bisect_left
from collections.abc import Callable, Sequence
from typing import TYPE_CHECKING, Optional

from fshell_tools.adapt.bind.initializers import filled, none_of
from fshell_tools.adapt.bind.value_texts import number
from fshell_tools.adapt.common import c_types, tree
from fshell_tools.adapt.common.c_types import Int, Pointer, Struct
from fshell_tools.adapt.common.objects import Function, Place, Variable
from fshell_tools.adapt.common.refusals import Refused
from fshell_tools.adapt.common.tree import LOOPS, walk
from fshell_tools.adapt.expand.library import Spot
from fshell_tools.adapt.write.component import Component
from fshell_tools.adapt.write.statement_exprs import ranged
from fshell_tools.adapt.write.struct_assignments import MOST_COPIED

if TYPE_CHECKING:
    from fshell_tools.adapt.write.writer import Writer

MOST_STEPS = 8  # the statements that the steps of one `for` add before its `continue`s


def continues(node: tree.Node) -> list[tree.Continue]:
    """Each `continue` in it that belongs to a loop around it."""
    if isinstance(node, tree.Continue):
        return [node]
    return [] if isinstance(node, LOOPS) else [one for _, child in node.children() for one in continues(child)]


def names(nodes: Sequence[tree.Node]) -> set[str]:
    """The names in some trees."""
    return {one.name for node in nodes for one in walk(node) if isinstance(one, tree.ID)}


def declared(node: tree.Node) -> set[str]:
    """The names that are declared in a statement."""
    return {one.name or "" for one in walk(node) if isinstance(one, (tree.Decl, tree.Typedef, tree.Enumerator))}


class Statements(Component):
    """The statements of one function (6.8)."""

    def __init__(self, writer: "Writer") -> None:
        super().__init__(writer)
        self.steps: dict[tree.Node, Sequence[tree.Expression]] = {}  # before each `continue`

    def statement(self, node: tree.Node) -> None:
        """Writes one statement; what is refused in it is gathered."""
        self.writer.go(node)
        self.writer.names.refusals.go(node.coord)
        with self.writer.names.refusals.gathered():
            self.write(node)

    def write(self, node: tree.Node) -> None:
        """Writes one statement by its form; nothing of those that say nothing, and of jumps that are left, which were refused where
        they were rewritten. Raises Refused for a case within a statement of its switch."""
        if isinstance(node, tree.Expression):
            self.write_expression(node)
        elif isinstance(node, tree.Compound):
            self.writer.emit("{")
            self.body(node)
        elif isinstance(node, tree.EmptyStatement):
            self.writer.emit(";")
        elif isinstance(node, tree.DeclList):
            self.write_DeclList(node)
        elif isinstance(node, tree.Decl):
            self.write_Decl(node)
        elif isinstance(node, (tree.If, tree.Switch)):
            self.write_branch(node)
        elif isinstance(node, (tree.Case, tree.Default)):
            raise Refused(node.coord, "a case within a statement of its switch", "put it directly into the switch")
        elif isinstance(node, tree.Label):
            self.writer.emit(f"{node.name}: ;")  # (with an empty statement of its own)
            self.statement(node.stmt)
        elif isinstance(node, tree.LOOPS):
            self.write_loop(node)
        elif isinstance(node, (tree.Break, tree.Continue)):
            self.write_jump(node)
        elif isinstance(node, tree.Return):
            self.write_Return(node)

    def write_expression(self, node: tree.Expression) -> None:
        """Writes an expression as a statement (6.8.3); one without an effect is a null statement."""
        before = len(self.writer.file.pieces)
        self.writer.assignments.effect(node)
        if before == len(self.writer.file.pieces):
            self.writer.emit(";")

    def go_to_end(self, node: tree.Node) -> None:
        """What is written next stands on the line of the brace that closes a block."""
        if not isinstance(node, tree.Compound) or not node.coord or str(node.coord.file) != self.writer.original:
            return
        if isinstance(node.coord, Spot):  # (a model has no brace in the source)
            return
        lines = self.writer.closings.get((self.writer.original, node.coord.line), [])
        at = bisect_left(lines, self.writer.line)
        if at < len(lines):
            self.writer.line = lines.pop(at)

    def close(self, node: tree.Node) -> None:
        """Writes the brace that closes a block."""
        self.go_to_end(node)
        self.writer.emit("}")

    def body(self, node: tree.Node) -> None:
        """Writes a statement between braces, behind `{`."""
        self.inner(node)
        self.close(node)

    # ---- declarations

    def write_DeclList(self, node: tree.DeclList) -> None:
        """The declarations in a loop's head."""
        for one in node.decls:
            self.statement(one)

    def write_Decl(self, node: tree.Decl) -> None:
        """A local with its first value (6.7.9). Raises Refused for a type that no local has."""
        variable = self.writer.names.meaning.get(node)
        if not isinstance(variable, Variable) or variable.home != "local":
            return
        fault = None if self.writer.columns.in_column(variable) else c_types.fault_of(variable.type)
        if fault:
            raise Refused(node.coord, f"{node.name}: {fault[0]}", fault[1])
        if not self.writer.columns.in_column(variable):
            self.writer.calls.check_lengths(variable)
        if node.init is None:
            self.writer.calls.declared(variable)
        elif isinstance(variable.type, Struct) and not isinstance(node.init, tree.InitList):
            self.writer.calls.declared(variable)
            self.writer.wholes.assign_whole(self.writer.places.of_variable(variable), node.init, node)
        elif isinstance(variable.type, Pointer) and not isinstance(node.init, tree.InitList):
            self.writer.pointer_effects.pointer_begun(variable, node.init)
        elif self.writer.columns.in_column(variable) or self.writer.pointer_effects.lies_apart(variable):
            self.initialised_apart(variable, node.init)
        else:
            self.initialised(variable, node.init)

    def initialised_apart(self, variable: Variable, init: tree.Expression) -> None:
        """Writes the first values of a local of which parts lie in columns, one by one; what has none is 0 or null.
        Raises Refused for more than 256 of them."""
        self.writer.calls.declared(variable)
        made = filled(self.writer.constants, variable.type, init)
        self.writer.order.unsequenced(init, made.expressions)
        place = self.writer.places.of_variable(variable)
        if sum(leaf.count for leaf in c_types.leaves(variable.type)) > MOST_COPIED:
            raise Refused(init.coord, f"{variable.name} has more than {MOST_COPIED} first values", "make it static")
        integers = self.writer.pointer_effects.each_integer(place, None)
        if self.writer.raw.is_bytes_alone(place):
            values = self.writer.raw.first_bytes(made)
            self.writer.raw.put_bytes(integers, values)
            integers = []
        for leaf, texts in integers:
            given = made.of(leaf)
            for at, text in enumerate(texts):
                value = (
                    self.writer.conversions.converted(self.writer.expressions.value(given[at]), leaf.kind).text
                    if at in given
                    else none_of(leaf)
                )
                self.writer.emit(f"{text} = {value};")
        for (path, spot), _, source in made.wholes:
            self.writer.wholes.assign_whole(self.writer.pointer_effects.placed(variable, path, spot), source, source)

    def initialised(self, variable: Variable, init: tree.Expression) -> None:
        """Writes a local's declaration with its first values; what has none is 0."""
        made = filled(self.writer.constants, variable.type, init)
        self.writer.order.unsequenced(init, made.expressions)
        for leaf in c_types.leaves(variable.type):
            texts = made.texts(
                leaf, lambda one: self.writer.conversions.converted(self.writer.expressions.value(one), leaf.kind).text
            )
            value = f"[{leaf.count}] = {{{', '.join(texts)}}}" if leaf.dims else f" = {texts[0]}"
            self.writer.declare(f"{leaf.kind.text} {self.writer.spelling.leaf(variable, leaf.path)}{value};")
        for (path, spot), _, source in made.wholes:
            self.writer.wholes.assign_whole(self.writer.pointer_effects.placed(variable, path, spot), source, source)

    # ---- branches

    def write_branch(self, node: tree.If | tree.Switch) -> None:
        """Writes a branch, or a choice by a value."""
        self.write_If(node) if isinstance(node, tree.If) else self.write_Switch(node)

    def write_If(self, node: tree.If) -> None:
        """A branch, without jumps where its condition is a value."""
        if node.iffalse is None and self.writer.order.needs_statements(node.cond):
            self.writer.expressions.when(node.cond, lambda: self.inner(node.iftrue))
            return
        self.writer.emit(f"if ({self.writer.expressions.test(node.cond).text}) {{")
        self.body(node.iftrue)
        other = node.iffalse
        if isinstance(other, tree.If) and self.inline_test(other.cond) is not None:
            self.writer.go(other)
            self.writer.emit("else")
            self.write_If(other)
        elif other is not None:
            self.writer.emit("else {")
            self.body(other)

    def inline_test(self, node: tree.Expression) -> Optional[str]:
        """The text of a condition that is a value alone."""
        made = self.writer.order.inline(node, lambda: self.writer.expressions.test(node))
        return None if made is None else made.text

    def inner(self, node: tree.Node) -> None:
        """Writes a statement's own statements, where braces stand around it already."""
        for one in (node.block_items or []) if isinstance(node, tree.Compound) else [node]:
            self.statement(one)

    def write_Switch(self, node: tree.Switch) -> None:
        """A switch whose cases stand directly in it. Raises Refused for a statement before them."""
        self.writer.emit(f"switch ({self.writer.expressions.value(node.cond).text}) {{")
        items = (node.stmt.block_items or []) if isinstance(node.stmt, tree.Compound) else [node.stmt]
        for one in items:
            if not isinstance(one, (tree.Case, tree.Default)):
                raise Refused(one.coord, "a statement of a switch before its first case", "put it before the switch")
            self.group(one, one is items[-1])
        self.close(node.stmt)

    def group(self, node: tree.Case | tree.Default, last: bool) -> None:
        """A case with its statements."""
        self.writer.go(node)
        if isinstance(node, tree.Case) and isinstance(node.expr, tree.CaseRange):
            for text in ranged(self.writer.constants, node.expr):
                self.writer.emit(text)
        else:
            self.writer.emit(
                "default:"
                if isinstance(node, tree.Default)
                else f"case {self.writer.expressions.value(node.expr).text}:"
            )
        for one in node.stmts or []:
            self.statement(one)
        if last and self.writer.is_behind_case():
            self.writer.emit(";")

    # ---- loops

    def leave(self, node: Optional[tree.Expression]) -> None:
        """Writes that a loop is left where its condition doesn't hold."""
        if isinstance(node, tree.BinaryOp) and node.op == "&&" and self.writer.order.needs_statements(node):
            self.leave(node.left)
            self.leave(node.right)
        elif node is not None:
            self.writer.expressions.unless(node, lambda: self.writer.emit("break;"))

    def write_loop(self, node: tree.While | tree.DoWhile | tree.For) -> None:
        """Writes a loop (6.8.5)."""
        if isinstance(node, tree.While):
            self.write_While(node)
        elif isinstance(node, tree.DoWhile):
            self.write_DoWhile(node)
        else:
            self.write_For(node)

    def write_While(self, node: tree.While) -> None:
        """A loop; one whose condition takes statements is left within (6.8.5p4)."""
        test = self.inline_test(node.cond)
        if test is not None:
            self.writer.emit(f"while ({test}) {{")
        else:
            self.writer.emit("for (;;) {")
            self.leave(node.cond)
        self.body(node.stmt)

    def write_DoWhile(self, node: tree.DoWhile) -> None:
        """A loop whose condition comes behind. Raises Refused for a continue where that condition takes statements."""
        test = self.inline_test(node.cond)
        if test is not None:
            self.writer.emit("do {")
            self.body(node.stmt)
            self.writer.emit(f"while ({test});")
            return
        if continues(node.stmt):
            raise Refused(
                node.coord,
                "a continue in a do loop whose condition has an effect",
                "take the effect out of the condition",
            )
        self.writer.emit("for (;;) { {")
        self.body(node.stmt)
        self.writer.go(node.cond)
        self.leave(node.cond)
        self.writer.emit("}")

    def write_For(self, node: tree.For) -> None:
        """A loop with a head, whose parts stand in it where each is one statement (6.8.5.3)."""
        init = self.head(node.init)
        local = isinstance(node.init, tree.DeclList) and init is None
        if local:
            self.writer.emit("{")
        if init is None and node.init is not None:
            self.inner(node.init)
        step = self.head(node.next)
        test = "" if node.cond is None else self.inline_test(node.cond)
        if step is None and node.next is not None:
            self.stepwise(node, node.next, init or "", test)
        else:
            self.begin_for(node, init or "", test, step or "")
            self.body(node.stmt)
        if local:
            self.writer.emit("}")

    def begin_for(self, node: tree.For, init: str, test: Optional[str], step: str) -> None:
        """Writes the head of a `for`, and where its condition takes statements that it is left."""
        self.writer.emit(f"for ({init}; {test or ''}; {step}) {{")
        if test is None:
            self.leave(node.cond)

    def pieces(self, write: Callable[[], object]) -> list[str]:
        """What would be written, which isn't."""
        pieces, self.writer.file.pieces = self.writer.file.pieces, []
        with self.writer.names.refusals.gathered():
            write()
        made, self.writer.file.pieces = self.writer.file.pieces, pieces
        return [text for _, text in made]

    def head(self, node: Optional[tree.Node]) -> Optional[str]:
        """A part of a `for` as the one statement that it is in the profile; None where it isn't one."""
        if isinstance(node, tree.DeclList):
            listed = node
            made = self.pieces(lambda: self.write_DeclList(listed))
        elif isinstance(node, tree.Expression) and not isinstance(node, tree.ExprList):
            one = node
            made = self.pieces(lambda: self.writer.assignments.effect(one))
        else:
            return None
        return made[0].rstrip(";") if len(made) == 1 else None

    def stepwise(self, node: tree.For, step: tree.Expression, init: str, test: Optional[str]) -> None:
        """Writes a `for` whose step is several statements: all but the last stand at the end of its body and before each
        `continue` of it, the last one in its head where it is one statement (6.8.5.3, 6.8.6.2p2). Where they can't stand there,
        they are taken before the condition of each turn but the first."""
        if not self.may_stand_within(node, step):
            again = self.writer.temporary(c_types.INT, "0", "again")
            self.writer.emit(f"for ({init}; ; ) {{")
            self.writer.expressions.braced(f"if ({again})", lambda: self.inner(step))
            self.writer.emit(f"{again} = 1;")
            self.leave(node.cond)
            self.body(node.stmt)
            return
        steps = step.exprs if isinstance(step, tree.ExprList) else [step]
        last = self.head(steps[-1])
        self.begin_for(node, init, test, last or "")
        self.body_and_steps(node, steps if last is None else steps[:-1])

    def body_and_steps(self, node: tree.For, steps: Sequence[tree.Expression]) -> None:
        """Writes the body of a `for` with steps at its end, on the line of its last brace."""
        self.steps |= {one: steps for one in continues(node.stmt)}
        hidden = bool(names(steps) & declared(node.stmt))
        if hidden:
            self.writer.emit("{")
        self.inner(node.stmt)
        self.go_to_end(node.stmt)
        line = self.writer.line
        if hidden:
            self.writer.emit("}")
        self.writer.file.emit(line, "")  # (what follows stands on this line, and belongs to the steps' own)
        for one in steps:
            self.statement(one)
        self.writer.line = line
        self.writer.emit("}")

    def may_stand_within(self, node: tree.For, step: tree.Expression) -> bool:
        """Whether steps may be written before each `continue` of a `for`: these are few, what they write is short and has no goals,
        and no block around one has a name of theirs."""
        found = continues(node.stmt)
        if not found:
            return True
        made = self.pieces(lambda: self.inner(step))
        plain = not any(word in text for text in made for word in ("{", "?", "&&", "||"))
        return len(found) * len(made) <= MOST_STEPS and plain and not names([step]) & declared(node.stmt)

    # ---- jumps

    def write_jump(self, node: tree.Break | tree.Continue) -> None:
        """A jump to the end of a loop or out of it, behind the steps that its loop takes there (6.8.6.2, 6.8.6.3)."""
        for one in self.steps.get(node, []):
            self.statement(one)
        self.writer.go(node)
        self.writer.emit("break;" if isinstance(node, tree.Break) else "continue;")

    def write_Return(self, node: tree.Return) -> None:
        """A return, behind what the function hands back by copies (6.8.6.4)."""
        function = self.writer.function
        assert function is not None
        if isinstance(function.result, Struct) and node.expr is not None:
            own = self.writer.spelling.special(function, "result", function.result, self.writer.special)
            self.writer.wholes.assign_whole(Place(own, (), (), function.result), node.expr, node)
            self.hand_back()
            self.writer.emit("return;")
            return
        if node.expr is not None and function.result == c_types.VOID:
            self.writer.assignments.effect(node.expr)
        if node.expr is not None and isinstance(function.result, Pointer):
            self.writer.pointer_effects.return_pointer(function, function.result, node.expr)
            return
        if node.expr is None or not isinstance(function.result, Int):
            self.hand_back()
            self.writer.emit("return;")
            return
        one = self.writer.conversions.converted(self.writer.expressions.value(node.expr), function.result)
        text = one.text
        if (self.writer.order.outs(function) and one.calls) or (self.has_end(function) and number(one) is None):
            text = self.writer.temporary(function.result, text)
        self.hand_back()
        self.writer.emit(f"return {text};")

    def hand_back(self) -> None:
        """Writes the copies out, before a return."""
        assert self.writer.function is not None
        for parameter, leaf in self.writer.order.outs(self.writer.function):
            assert isinstance(parameter.type, Pointer)
            own = self.writer.spelling.special(
                self.writer.function, parameter.name, parameter.type.to, self.writer.special
            )
            self.writer.emit(
                f"{self.writer.spelling.leaf(own, leaf.path)} = {self.writer.spelling.leaf(parameter, leaf.path)};"
            )
        for text in self.writer.endings.texts(self.writer.function):
            self.writer.emit(text)
        self.writer.levels.end(self.writer.function)

    def hands_back(self) -> bool:
        """Whether something is written before a return."""
        assert self.writer.function is not None
        return bool(self.writer.order.outs(self.writer.function)) or self.has_end(self.writer.function)

    def has_end(self, function: Function) -> bool:
        """Whether something is written where the locals of a function end."""
        return function in self.writer.lifetimes.ended or function in self.writer.levels.names
