"""Writes statements within expressions: a block before the statement, at whose end the value is kept."""

from collections.abc import Callable
from typing import TYPE_CHECKING

from fshell_tools.adapt.bind.value_texts import PRIMARY, Value
from fshell_tools.adapt.common import c_types, tree
from fshell_tools.adapt.common.c_types import Int
from fshell_tools.adapt.common.objects import Place, Variable
from fshell_tools.adapt.common.refusals import Refused
from fshell_tools.adapt.names.constants import Constants

if TYPE_CHECKING:
    from fshell_tools.adapt.write.writer import Writer

MOST_CASES = 300


def block(writer: "Writer", node: tree.StatementExpr, do: Callable[[tree.Expression], object]) -> None:
    """Writes the statements, the last one as is asked."""
    line = writer.line, writer.column
    behind, writer.after = writer.after, []
    writer.emit("{")
    for one in node.items:
        writer.statements.statement(one)
    if node.last is not None:
        writer.go(node.last)
        do(node.last)
    for text in writer.after:
        writer.emit(text)
    writer.emit("}")
    writer.after, (writer.line, writer.column) = behind, line


def value(writer: "Writer", node: tree.StatementExpr) -> Value:
    """The value of an integer. Raises Refused where they give none."""
    of = writer.constants.type_of(node)
    if not isinstance(of, Int):
        raise Refused(node.coord, "statements within an expression that give no integer", "end them with an integer")
    made = writer.temporary(c_types.promoted(of), "0")
    block(writer, node, lambda one: writer.emit(f"{made} = {writer.expressions.value(one).text};"))
    return Value(made, c_types.promoted(of), PRIMARY)


def pointer(writer: "Writer", node: tree.StatementExpr, names: list[str]) -> dict[str, Value]:
    """What `({ .. })` gives where its last expression points: a temporary for each integer of the pointer."""
    made = {name: writer.temporary(c_types.INT, "0", "pointer") for name in names}

    def keep(one: tree.Expression) -> None:
        parts = writer.pointers.pointer(one)
        for name in names:
            writer.emit(f"{made[name]} = {parts[name].text};")

    block(writer, node, keep)
    return {name: Value(text, c_types.INT, PRIMARY) for name, text in made.items()}


def effect(writer: "Writer", node: tree.StatementExpr) -> None:
    """Writes them for their effect alone."""
    block(writer, node, writer.statements.statement)


def whole(writer: "Writer", target: Place, node: tree.StatementExpr, at: tree.Node) -> None:
    """Writes that a struct gets their value, which is kept first: within the block names may be other ones."""
    local = Variable("whole", target.type, node.coord, "local", out=writer.spelling.fresh("whole"))
    place = Place(local, (), (), target.type)
    writer.calls.declared(local)
    block(writer, node, lambda one: writer.wholes.assign_whole(place, one, one))
    writer.wholes.assign_whole(target, writer.wholes.named_as(local, at), at)


def ranged(constants: Constants, node: tree.CaseRange) -> list[str]:
    """The cases of a range (gcc: none where it is empty). Raises Refused where it is empty, isn't constant, or has
    too many."""
    low, high = constants.value(node.low), constants.value(node.high)
    if low is None or high is None or high < low or high - low >= MOST_CASES:
        cause = f"a range of cases that is empty, isn't constant, or has more than {MOST_CASES}"
        raise Refused(node.coord, cause, "use if")
    return [f"case {one}:" for one in range(low, high + 1)]
