"""Functions with `void *` that calls use for objects of different types: each such call gets a copy of its own (6.3.2.3p1), and so does a
call by a pointer that meets one of them alone. What is copied is learned by a first reading, in which the types meet (type_feedback.py)."""

import copy
from collections.abc import Callable
from typing import TypeVar

from fshell_tools.adapt.common import tree
from fshell_tools.adapt.common.feedback import CopiedFunction, DirectCall, Learned
from fshell_tools.adapt.common.tree import walk
from fshell_tools.adapt.common.unit import Unit

MOST_COPIES, MOST_NODES = 8, 400
Copied = TypeVar("Copied", tree.Decl, tree.FuncDef)


class Clones:
    """Copies functions in the trees of the units. `fresh` gives a name that nothing else has."""

    def __init__(self, units: list[Unit], learned: set[Learned], fresh: Callable[[str], str]) -> None:
        self.fresh = fresh
        direct = {one.at: one.name for one in learned if isinstance(one, DirectCall)}
        names = {one.name for one in learned if isinstance(one, CopiedFunction)}
        for unit in units if names else []:
            for node in walk(unit.tree) if direct else []:
                is_call = isinstance(node, tree.FuncCall) and not isinstance(node.name, tree.ID)
                if isinstance(node, tree.FuncCall) and is_call and node.coord in direct:
                    node.name = tree.ID(direct[node.coord], node.coord)
            items = [one for one in unit.tree.ext if isinstance(one, tree.FuncDef) and one.decl.name in names]
            for item in reversed(items):
                if len(walk(item)) <= MOST_NODES and not self.keeps(item):
                    self.copied(unit, item)

    @staticmethod
    def keeps(item: tree.FuncDef) -> bool:
        """Whether a function has static objects, or calls itself."""
        name = item.decl.name
        return any(
            (isinstance(one, tree.Decl) and "static" in one.storage and one is not item.decl)
            or (isinstance(one, tree.ID) and one.name == name)
            for one in walk(item)
        )

    def copied(self, unit: Unit, item: tree.FuncDef) -> None:
        """Copies a function for each call of it, with its first declaration."""
        name = item.decl.name or ""
        called = [node.name for node in walk(unit.tree) if isinstance(node, tree.FuncCall)]
        calls = [one for one in called if isinstance(one, tree.ID) and one.name == name]
        made, heads, other = [], [], ""
        first = next((one for one in unit.tree.ext if isinstance(one, tree.Decl) and one.name == name), None)
        for number, call in enumerate(calls):
            if number < MOST_COPIES:
                other = self.fresh(name)
                made.append(self.renamed(item, other))
                if first is not None:
                    heads.append(self.renamed(first, other))
            call.name = other
        at = next(number for number, one in enumerate(unit.tree.ext) if one is item)
        unit.tree.ext[at + 1 : at + 1] = made
        if first is not None:
            at = next(number for number, one in enumerate(unit.tree.ext) if one is first)
            unit.tree.ext[at + 1 : at + 1] = heads

    @staticmethod
    def renamed(item: Copied, name: str) -> Copied:
        """A copy of a declaration or a function by another name, which is static."""
        made = copy.deepcopy(item)
        decl = made.decl if isinstance(made, tree.FuncDef) else made
        assert isinstance(decl, tree.Decl)
        decl.storage = ["static"]
        tree.rename(decl, name)
        return made
