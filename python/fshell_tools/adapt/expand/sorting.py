"""qsort and bsearch (7.22.5): their models are written for each call, with the type of the elements that it sorts or searches, and call
the function that compares by its name, where it is named. The size that a call hands over must be that of an element."""

import copy
from typing import NamedTuple

from fshell_tools.adapt.common import tree
from fshell_tools.adapt.common.tree import walk

ELEMENT, COMPARE = "element", "compare"


class Spots(NamedTuple):
    """Where the pointer to the elements stands among the arguments, their size, and the function that compares."""

    base: int
    size: int
    compare: int


SORTING = {"qsort": Spots(0, 2, 3), "bsearch": Spots(1, 3, 4)}


class Sorted(NamedTuple):
    """A call with its model: the prototype, the definition, and what tells the size of the elements."""

    prototype: tree.Decl
    definition: tree.FuncDef
    size: tree.Expression
    element: tree.Typeof
    called: str


def is_void(node: tree.Typename) -> bool:
    """Whether a type's name is that of a pointer to void."""
    to = node.type.type if isinstance(node.type, tree.PtrDecl) else None
    of = to.type if isinstance(to, tree.TypeDecl) else None
    return isinstance(of, tree.IdentifierType) and "void" in of.names


def plain(node: tree.Expression) -> tree.Expression:
    """A pointer without a cast to `void *`."""
    while isinstance(node, tree.Cast) and is_void(node.to_type):
        node = node.expr
    return node


def named(node: tree.Expression, functions: set[str]) -> str:
    """The function that an argument names, if it does."""
    while isinstance(node, tree.Cast) or (isinstance(node, tree.UnaryOp) and node.op == "&"):
        node = node.expr
    return node.name if isinstance(node, tree.ID) and node.name in functions else ""


def written_for(call: tree.FuncCall, own: tree.ID, model: tree.FuncDef, name: str, functions: set[str]) -> Sorted:
    """The model of a call by the name that it has, which from now on calls it by another one; `functions` are those of the sources."""
    spots, called = SORTING[own.name], own.name
    given = call.given
    element = tree.Typeof(tree.UnaryOp("*", plain(given[spots.base]), call.coord), call.coord, known=True)
    compare = named(given[spots.compare], functions)
    gone = [spots.compare] if compare else []
    made = copy.deepcopy(model)
    tree.rename(made.decl, name)
    listed, args = made.head.args, call.args
    assert listed is not None and args is not None
    listed.params = [one for at, one in enumerate(listed.params) if at not in gone]
    for node in walk(made):
        for slot, child in list(node.children()):
            if isinstance(child, tree.IdentifierType) and child.names == [ELEMENT]:
                node.put(slot, element)
        if isinstance(node, tree.ID) and node.name == COMPARE and compare:
            node.name = compare
    own.name = name
    args.exprs = [one for at, one in enumerate(given) if at not in gone]
    return Sorted(copy.deepcopy(made.decl), made, given[spots.size], element, called)
