"""What pointers tell the next reading of the sources: which functions with `void *` meet objects of different types, so that calls of
them get copies (clones.py)."""

from fshell_tools.adapt.common import c_types
from fshell_tools.adapt.common.c_types import Pointer
from fshell_tools.adapt.common.feedback import CopiedFunction, DirectCall, Learned
from fshell_tools.adapt.common.objects import Function
from fshell_tools.adapt.names.scopes import Names
from fshell_tools.adapt.points_to.analysis import PointsTo


def copied(function: Function) -> CopiedFunction:
    """What names a function that is copied, over several readings."""
    return CopiedFunction(function.where.file, function.name)


def learn(names: Names, points: PointsTo, learned: set[Learned]) -> None:
    """Learns which functions are copied, where pointers to different types meet in them."""

    def meets(function: Function) -> bool:
        types = [function.result, *(one.type for one in function.parameters)]
        return any(isinstance(of, Pointer) and of.to == c_types.VOID and of.region.root().fault for of in types)

    for function in names.functions:
        if function.definition is not None and function.calls and meets(function):
            learned.add(copied(function))
    for _, node in points.pointer_calls:
        of = points.value(node.name)
        targets = of.region.root().targets if isinstance(of, Pointer) else []
        if len(targets) == 1 and targets[0].definition is not None and meets(targets[0]) and node.coord is not None:
            learned.add(DirectCall(node.coord, targets[0].name))
            learned.add(copied(targets[0]))
