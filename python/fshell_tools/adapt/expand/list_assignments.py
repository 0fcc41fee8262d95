"""Lists of first values as assignments, for declarations that no longer stand where the values do."""

import copy
from typing import Optional

from fshell_tools.adapt.common import tree
from fshell_tools.adapt.common.refusals import Refused

MOST_LISTED = 64


def target_name(node: tree.Expression) -> str:
    """The name of the object of which a target is an element."""
    while isinstance(node, tree.ArrayRef):
        node = node.name
    return node.name if isinstance(node, tree.ID) else ""


def counted(of: tree.TypeNode) -> tuple[Optional[tree.TypeNode], int]:
    """What an array has, and how many of them; nothing of what is no array, or has a length that is no number."""
    if isinstance(of, tree.ArrayDecl) and isinstance(of.dim, tree.Constant) and of.dim.value.isdecimal():
        return of.type, int(of.dim.value)
    return None, 0


def listed(
    of: tree.TypeNode, target: tree.Expression, init: tree.Expression, at: Optional[tree.Coord]
) -> list[tree.Node]:
    """The assignments that a list of first values is. Raises Refused for a list whose elements aren't plainly
    counted."""
    if isinstance(of, tree.TypeDecl):
        if isinstance(init, tree.InitList):
            whole = tree.TypeDecl(None, [], None, of.type, at)
            init = tree.CompoundLiteral(tree.Typename(None, [], None, whole, at), init, at)
        return [tree.Assignment("=", target, init, at)]
    if isinstance(of, tree.PtrDecl) and not isinstance(init, tree.InitList):
        return [tree.Assignment("=", target, init, at)]
    values = init.exprs or [] if isinstance(init, tree.InitList) else []
    plain = values and not any(isinstance(one, tree.NamedInitializer) for one in values)
    inner, count = counted(of)
    words = isinstance(inner, (tree.ArrayDecl, tree.PtrDecl))
    words = words or (isinstance(inner, tree.TypeDecl) and isinstance(inner.type, tree.IdentifierType))
    if inner is None or not plain or count > MOST_LISTED or (len(values) < count and not words):
        raise Refused(
            at, f"the list of first values of {target_name(target)}, in a function with goto back", "assign them"
        )
    made: list[tree.Node] = []
    for number in range(count):
        element = tree.ArrayRef(copy.deepcopy(target), tree.Constant("int", str(number), at), at)
        value = values[number] if number < len(values) else tree.Constant("int", "0", at)
        if number >= len(values) and isinstance(inner, tree.ArrayDecl):
            value = tree.InitList([tree.Constant("int", "0", at)], at)
        made += listed(inner, element, value, at)
    return made
