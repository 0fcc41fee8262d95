"""Calls by pointers: a pointer to a function is the number of one of those that it may meet, and a call of it is one of a
function that chooses among them (6.5.2.2)."""

from typing import Optional

from fshell_tools.adapt.common import tree
from fshell_tools.adapt.common.c_types import Pointer, Region, Signature
from fshell_tools.adapt.common.objects import Function, Variable
from fshell_tools.adapt.common.refusals import Refused
from fshell_tools.adapt.layout.regions import Columns
from fshell_tools.adapt.names.constants import is_offset
from fshell_tools.adapt.names.scopes import Names
from fshell_tools.adapt.points_to.heap import heap_call, known_call

# stands for the definition of a chooser, which is written at the end
WRITTEN = tree.FuncDef(
    tree.Decl("call", [], [], [], [], tree.FuncDecl(None, tree.IdentifierType(["void"])), None, None),
    None,
    tree.Compound([]),
)


class Choosers:
    """The functions that choose, by the regions of the pointers."""

    def __init__(self, names: Names, columns: Columns) -> None:
        self.names, self.columns = names, columns
        self.of_region: dict[Region, Function] = {}
        self.used: dict[Function, Region] = {}

    def called(self, node: tree.FuncCall) -> Optional[Function]:
        """The function that a call calls: by its name, or by a pointer the one that chooses."""
        known = self.names.meaning.get(node)
        if isinstance(known, Function) or is_offset(node):
            return known if isinstance(known, Function) else None
        heap = known_call(node, self.columns.points.learned)
        if heap:
            return next(one for one in self.names.functions if heap_call(one) == heap)
        try:
            of = self.columns.pointer(node.name)
        except Refused:
            return None
        region = of.region.root()
        if not isinstance(of.to, Signature) or region.fault:
            return None
        if region not in self.of_region:
            self.of_region[region] = self.made(of.to, node)
            self.used[self.of_region[region]] = region
        return self.of_region[region]

    @staticmethod
    def made(of: Signature, node: tree.FuncCall) -> Function:
        """A function that chooses, for pointers to a type."""
        listed = []
        for at, one in enumerate(of.parameters, 1):
            listed.append(Variable(f"a{at}", one, node.coord, "parameter"))
            listed[-1].binding = "pointer" if isinstance(one, Pointer) else None
        made = Function("call", of.result, listed, node.coord, static=True, definition=WRITTEN)
        made.calls, made.taken = [(None, node)], True
        return made

    def targets(self, function: Function) -> Optional[list[Function]]:
        """The functions among which one chooses; None of a function of the sources."""
        return self.used[function].targets if function in self.used else None

    @staticmethod
    def number(region: Region, function: Function) -> int:
        """The number that stands for a function where a pointer of the region points to it."""
        return region.root().targets.index(function)
