"""malloc and its kin (7.22.3): each call has a pool of its own, some slots of some elements in the column of what it gives
(heap_calls.py)."""

from dataclasses import dataclass
from typing import Optional

from fshell_tools.adapt.bind.lvalues import arguments
from fshell_tools.adapt.common import tree
from fshell_tools.adapt.common.feedback import HeapCall, Learned
from fshell_tools.adapt.common.objects import Function, Meaning, Variable
from fshell_tools.adapt.names.constants import Constants

TAKES = {"malloc": 1, "calloc": 2, "realloc": 2, "free": 1}
GIVES = ("malloc", "calloc", "realloc")


def heap_call(function: Optional[Meaning]) -> str:
    """The name of a function of the heap that no source defines; nothing of any other one."""
    known = isinstance(function, Function) and function.definition is None and function.name in TAKES
    return function.name if isinstance(function, Function) and known else ""


def known_call(node: tree.FuncCall, learned: set[Learned]) -> str:
    """The function of the heap that a call by a pointer is known to call."""
    return next((name for name in TAKES if node.coord is not None and HeapCall(node.coord, name) in learned), "")


@dataclass
class Pool:
    """The memory of one call: its variable, how many slots it has, and of how many elements each."""

    node: tree.FuncCall
    called: str
    variable: Variable
    slots: int
    count: int = 1


def bytes_asked(constants: Constants, node: tree.FuncCall, called: str) -> Optional[int]:
    """How many bytes a call asks for, where that is a constant."""
    whole = 1
    for one in arguments(node)[1 if called == "realloc" else 0 :]:
        known = constants.value(one)
        if known is None or known < 0:
            return None
        whole *= known
    return whole
