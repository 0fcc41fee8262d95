"""In which order parts of an expression are evaluated, and what stands in statements before it (6.5p2)."""

from collections.abc import Callable, Sequence
from itertools import combinations
from typing import TYPE_CHECKING, Optional, TypeVar

from fshell_tools.adapt.common import c_types, tree
from fshell_tools.adapt.common.c_types import Leaf, Struct
from fshell_tools.adapt.common.objects import Function, Variable
from fshell_tools.adapt.common.refusals import Refused
from fshell_tools.adapt.common.tree import walk
from fshell_tools.adapt.effects.side_effects import STEPS
from fshell_tools.adapt.effects.undefined_functions import changed
from fshell_tools.adapt.points_to.heap import heap_call
from fshell_tools.adapt.write.component import Component

if TYPE_CHECKING:
    from fshell_tools.adapt.write.writer import Writer

Made = TypeVar("Made")
ORDER = "C leaves open whether {} is read or written first; use two statements"


def is_no_object(node: Optional[tree.Node]) -> bool:
    """Whether an expression is a member of a struct that a call, a comma, a choice or an assignment gives."""
    if not isinstance(node, (tree.ArrayRef, tree.StructRef)):
        return False
    member = False
    while (isinstance(node, tree.StructRef) and node.type == ".") or isinstance(node, tree.ArrayRef):
        member, node = member or isinstance(node, tree.StructRef), node.name
    gives = (tree.FuncCall, tree.ExprList, tree.TernaryOp, tree.Assignment, tree.StatementExpr)
    return member and isinstance(node, gives)


class Order(Component):
    """What is written before what."""

    def __init__(self, writer: "Writer") -> None:
        super().__init__(writer)
        self.needing: dict[Optional[tree.Node], bool] = {}

    def unsequenced(self, node: Optional[tree.Node], parts: Sequence[tree.Expression]) -> None:
        """Refuses parts that C evaluates in any order, where that matters. Raises Refused then (6.5p2)."""
        effects = [self.writer.effected.of(part) for part in parts]
        for one, other in combinations(effects, 2) if any(one.writes for one in effects) else ():
            found = one.clash(other)
            if found:
                name = found[0].name + "".join("." + part for part in found[1]) if found[0] else "an input"
                cause, advice = ORDER.format(name).split("; ")
                raise Refused(node.coord if node is not None else None, cause, advice)

    def needs_statements(self, node: Optional[tree.Expression]) -> bool:
        """Whether an expression can't be written without statements before it."""
        if node not in self.needing:
            nodes = [] if node is None else walk(node)
            skipped = {
                inner for one in nodes if isinstance(one, tree.UnaryOp) and one.op == "sizeof" for inner in walk(one)
            }
            listed = {one.args for one in nodes if isinstance(one, tree.FuncCall)}
            self.needing[node] = any(self.needs(one) for one in nodes if one not in skipped | listed)
        return self.needing[node]

    def inline(self, node: tree.Expression, write: Callable[[], Made]) -> Optional[Made]:
        """What is written of an expression as a value alone; nothing where it takes statements before it, which stand apart where
        the expression is evaluated again, or not at all."""
        if self.needs_statements(node):
            return None
        pieces, self.writer.file.pieces = self.writer.file.pieces, []
        try:
            made = write()
        finally:
            own, self.writer.file.pieces = self.writer.file.pieces, pieces
        if own:
            self.needing[node] = True
            return None
        return made

    def needs(self, node: tree.Node) -> bool:
        """Whether a node itself takes statements before."""
        if isinstance(node, tree.ArrayRef) and self.writer.check:
            return isinstance(node.name, tree.ArrayRef)
        if isinstance(node, tree.FuncCall):
            called = self.writer.choosers.called(node)
            if not isinstance(called, Function):
                return False
            if heap_call(called) or changed(self.writer.places, node, called, self.writer.inputs):
                return True
            if any(self.writer.calls.is_changed(one, called) for one in called.parameters):
                return True
            several = isinstance(called.result, c_types.Pointer) and len(called.result.region.parts()) > 1
            return several or bool(self.outs(called)) or isinstance(called.result, Struct)
        if is_no_object(node):
            return True
        stepped = isinstance(node, tree.UnaryOp) and node.op in STEPS
        return stepped or isinstance(node, (tree.Assignment, tree.ExprList, tree.CompoundLiteral, tree.StatementExpr))

    def outs(self, function: Function) -> list[tuple[Variable, Leaf]]:
        """What a call gives back by copies: each integer of an object that the function writes, with its parameter."""
        if self.writer.choosers.targets(function) is not None:
            return []
        writes = self.writer.effected.of_function[function].writes
        found = []
        for parameter in function.parameters if function.definition is not None else []:
            if parameter.binding == "copy" and isinstance(parameter.type, c_types.Pointer):
                found += [
                    (parameter, leaf)
                    for leaf in c_types.leaves(parameter.type.to)
                    if (parameter, leaf.path, False) in writes and not leaf.dims
                ]
        return found
