"""What stands where: the first uses of objects, and the input functions that headers of the system declare."""

from typing import TYPE_CHECKING

from fshell_tools.adapt.bind.lvalues import arguments
from fshell_tools.adapt.common import tree
from fshell_tools.adapt.common.c_types import Int
from fshell_tools.adapt.common.objects import Function, Place, Variable
from fshell_tools.adapt.common.tree import walk
from fshell_tools.adapt.expand.library import OUTPUT
from fshell_tools.adapt.points_to.heap import heap_call
from fshell_tools.adapt.points_to.models import model_of
from fshell_tools.adapt.read.preprocessing import is_system

if TYPE_CHECKING:
    from fshell_tools.adapt.write.writer import Writer


def first_uses(writer: "Writer") -> dict[Variable, int]:
    """For each variable the number of the first function that names it."""
    found: dict[Variable, int] = {}
    for number, (_, item) in enumerate(writer.names.items):
        nodes = walk(item) if isinstance(item, tree.FuncDef) else []
        handed = {one for node in nodes for one in only_handed(writer, node)}
        for node in nodes:
            if node in handed:
                continue
            meaning = writer.names.meaning.get(node)
            if isinstance(meaning, Variable):
                found.setdefault(meaning, number)
    for function in writer.names.functions:
        for parameter in function.parameters:
            if isinstance(parameter.binding, Place):
                variable = parameter.binding.variable
                found[variable] = min(found.get(variable, function.number), function.number)
    return found


def only_handed(writer: "Writer", node: tree.Node) -> list[tree.ID]:
    """What stands alone as an argument of a function that gives an input and whose arguments don't matter."""
    called = writer.names.meaning.get(node)
    if (
        not isinstance(node, tree.FuncCall)
        or not isinstance(called, Function)
        or called.definition is not None
        or called.name not in writer.inputs
    ):
        return []
    return [one for one in arguments(node) if isinstance(one, tree.ID)]


def is_outer(writer: "Writer", function: Function) -> bool:
    """Whether a header of the system declares an input function."""
    if function.definition is not None or not function.calls or not is_system(function.where.file):
        return False
    known = model_of(function) or heap_call(function) or function.name in ("assert", "assume")
    used = function.name not in OUTPUT or function in writer.outer_used
    return not known and used and isinstance(function.result, Int)
