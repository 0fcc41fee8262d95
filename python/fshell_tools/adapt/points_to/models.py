"""The models of the library's functions on memory and strings, which stand in models/string.c, and who calls them."""

import os
import re
from functools import cache
from typing import NamedTuple, Optional, Union

from fshell_tools.adapt.common import tree
from fshell_tools.adapt.common.objects import Function, Meaning
from fshell_tools.adapt.common.paths import MODELS
from fshell_tools.adapt.common.refusals import Refused
from fshell_tools.adapt.names.constants import Constants

HEAD = re.compile(r"^(\w+ \*?)(\w+)\(([^()]*)\) \{(.*)\}$")
WHOLE = ("memcpy", "memmove", "memset")  # those that may take elements of any type


class Model(NamedTuple):
    """A library's function by its model: the words of its result, its name, its parameters and its body."""

    result: str
    name: str
    parameters: list[str]
    body: str

    @property
    def gives_pointer(self) -> bool:
        """Whether a call of it is an index, by the type that its head has."""
        return "*" in self.result


@cache
def models() -> dict[str, Model]:
    """The models by their names."""
    found = {}
    with open(os.path.join(MODELS, "string.c"), encoding="utf-8") as file:
        for line in file:
            head = HEAD.match(line.rstrip("\n"))
            if head:
                result, name, listed, body = head.groups()
                found[name] = Model(result, name, listed.split(", "), body.strip())
    return found


def model_of(function: Optional[Meaning]) -> Optional[Model]:
    """The model of a function that no source defines."""
    return models().get(function.name) if isinstance(function, Function) and function.definition is None else None


def letter(parameter: str) -> str:
    """The name of a parameter."""
    return parameter.split()[-1].lstrip("*")


def element_count(constants: Constants, node: tree.Expression, size: int) -> Union[int, tree.Expression]:
    """A number of bytes as one of elements: a number, or the expression that it is. Raises Refused where they may be
    no whole number of elements."""
    if size == 1:
        return node
    known = constants.value(node)
    if known is not None and known % size == 0:
        return known // size
    while isinstance(node, tree.Cast):
        node = node.expr
    if isinstance(node, tree.BinaryOp) and node.op == "*":
        for one, other in ((node.left, node.right), (node.right, node.left)):
            if constants.value(other) == size:
                return one
    raise Refused(
        node.coord, f"a number of bytes that may be no whole number of elements of {size}", "multiply by sizeof"
    )
