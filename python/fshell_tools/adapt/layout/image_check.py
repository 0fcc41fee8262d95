"""Checks the layout: every byte of an object has one image, and a pointer derived from an object may reach all of it. A pointer that leads to
a member which lies in a column of its own must point to that member or to a part of it (6.3.2.3p7, 6.7.2.1p15). It asks each pointer's type
and each object by itself, so that it doesn't depend on what decided the layout."""

from fshell_tools.adapt.common import tree
from fshell_tools.adapt.common.c_types import Pointer, Region, Signature, Struct, Type
from fshell_tools.adapt.common.refusals import Refusals
from fshell_tools.adapt.layout.regions import Columns
from fshell_tools.adapt.points_to.object_images import fits
from fshell_tools.adapt.points_to.unification import words

ADVICE = "let pointers of that type lead to whole objects alone"


def check_images(columns: Columns, refusals: Refusals) -> None:
    """Refuses each pointer that leads out of a member with a column of its own, with the place of the pointer and that of the object."""
    seen: set[tuple[Region, str, str]] = set()
    for node, of in columns.points.values.items():
        if not isinstance(of, Pointer) or isinstance(of.to, Signature) or of.region.root().fault:
            continue
        region = of.region.root()
        for outer, name in columns.inner.get(region, []):
            key = outer, name, words(of.to)
            if key not in seen and leads_out(of.to, outer, name):
                seen.add(key)
                refused(columns, refusals, node, of, (outer, name))


def leads_out(view: Type, outer: Region, name: str) -> bool:
    """Whether a pointer to a type may reach bytes of an object that don't lie in the member's column."""
    whole = outer.root().type
    if outer.root().raw or outer.root().fault or not isinstance(whole, Struct) or not whole.has(name):
        return False
    return not fits(view, whole.type_of(name))


def refused(columns: Columns, refusals: Refusals, node: tree.Node, of: Pointer, owner: tuple[Region, str]) -> None:
    """Tells of one such pointer."""
    at = next((one.coord for one in columns.owned(owner[0]) if one.coord is not None), None)
    where = f"{at.file}:{at.line}" if at is not None and at.file else "an object without a place"
    whole = words(owner[0].root().type)
    cause = (
        f"a pointer to {words(of.to)} meets the member {owner[1]} of {whole} ({where}), which lies apart from the rest"
    )
    refusals.add(node.coord, cause, ADVICE)
