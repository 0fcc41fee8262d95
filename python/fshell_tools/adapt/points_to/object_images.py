"""One object, one image: every byte of an object has one image, and a pointer derived from an object may reach all of it. A member lies in a
region of its own only where all pointers that lead there point to the member or to a part of it, and go no further; else the whole object
stands as its bytes, in one region (6.2.6.1p4, 6.3.2.3p7, 6.7.2.1p15)."""

from collections.abc import Iterator
from math import inf
from typing import TYPE_CHECKING, Optional

from fshell_tools.adapt.bind.lvalues import arguments
from fshell_tools.adapt.common import c_types, tree
from fshell_tools.adapt.common.c_types import VOID, Array, Fault, Int, Pointer, Region, Signature, Struct, Type
from fshell_tools.adapt.points_to.models import WHOLE
from fshell_tools.adapt.points_to.unification import words

if TYPE_CHECKING:
    from fshell_tools.adapt.points_to.analysis import PointsTo

SPANS = (*WHOLE, "memcmp", "memchr")  # functions that take as many bytes as they are told
MOST_OFFSETS = 64  # the elements of an array whose pointers are looked at one by one


def fits(view: Type, of: Type) -> bool:
    """Whether what a pointer points to is an object of a type, or a part of one."""
    view, of = c_types.element(view), c_types.element(of)
    if view == of or view == VOID or (isinstance(view, Struct) and view.members is None):
        return True
    if isinstance(view, (Pointer, Signature)) or isinstance(of, (Pointer, Signature)):
        return isinstance(view, (Pointer, Signature)) and isinstance(of, type(view))
    if isinstance(view, Int) and isinstance(of, Int):
        return view.bits == of.bits
    if isinstance(view, Struct) and isinstance(of, Struct) and view.tag == of.tag:
        return [name for name, _ in view.members or []] == [name for name, _ in of.members or []]
    if isinstance(view, Int) and view.bits == 8 and not view.boolean:
        return False  # (a pointer to characters leads to all bytes)
    return isinstance(of, Struct) and any(fits(view, one) for _, one in of.members or [])


def spanned(points: "PointsTo", node: tree.FuncCall, name: str) -> None:
    """Notes how far a call of a function on memory reaches behind what its pointers point to."""
    given = arguments(node)
    if name not in SPANS:
        return
    count = points.constants.value(given[-1])
    for one in given[:-1]:
        of = points.value(one)
        if isinstance(of, Pointer) and not points.is_null(one):
            bare = one
            while isinstance(bare, tree.Cast):
                bare = bare.expr
            to = c_types.behind(points.constants.type_of(bare))
            size = c_types.size(to) if to is not None and to != VOID else None
            if count is None or size is None or count > size:
                root = of.region.root()
                root.reach = max(root.reach, inf if count is None else count)


def all_regions(points: "PointsTo") -> list[Region]:
    """Each region once that a home or a pointer leads to, with those of its members and elements."""
    found: dict[Region, None] = {}
    rest = [*points.homes.values(), *(of.region for of in points.values.values() if isinstance(of, Pointer))]
    while rest:
        one = rest.pop().root()
        if one not in found:
            found[one] = None
            rest += one.members.values()
            rest += [one.elem.region] if isinstance(one.elem, Pointer) else []
    return list(found)


def cause(outer: Region, name: str) -> Optional[Fault]:
    """Why the objects of a region can't have a member in a region of its own, if so: the place, what leads out of the member, and what
    to do."""
    inner, of = outer.root().members[name].root(), outer.root().type
    if not isinstance(of, Struct) or not of.has(name) or of.is_parts():
        return None
    member, at = of.type_of(name), inner.why[0] if inner.why else None
    view = next((one for one in inner.views if not fits(one, member)), None)
    if view is not None:
        return at, f"a pointer to {words(view)} meets the member {name} of {words(of)}", "name the whole object"
    if inner.reach > (c_types.size(member) or 0) and not (isinstance(member, Array) and inner.reach == inf):
        return at, f"a call reaches behind the member {name} of {words(of)}", "name the whole object"
    if inner.numbered is not None:
        return (
            inner.numbered,
            f"a pointer to the member {name} of {words(of)} becomes an integer",
            "name the whole object",
        )
    return None


def apart(points: "PointsTo") -> Iterator[tuple[Region, str]]:
    """The members that lie in regions of their own, to which pointers lead."""
    for outer in all_regions(points):
        for name, inner in list(outer.members.items()) if not outer.raw and not outer.fault else []:
            if outer.root() is outer and inner.root() is not outer and inner.root().pointed:
                yield outer, name


def made_whole(points: "PointsTo") -> int:
    """Lets objects stand whole as their bytes where a pointer to a member leads out of it. How many did."""
    count = 0
    for outer, name in apart(points):
        why = cause(outer, name) if outer.root() is outer and name in outer.members else None
        if why is not None:
            inner = outer.members[name]
            points.as_bytes(outer, [outer.type], why[0])
            if outer.raw:
                points.unify(outer, inner, why[0])
            count += 1
    return count


def pointers_at(of: Type, at: int = 0) -> Iterator[tuple[int, Pointer]]:
    """The pointers in an object, each with the number of its first byte."""
    if isinstance(of, Pointer):
        yield at, of
    elif isinstance(of, Array):
        for number in range(min(of.length or 0, MOST_OFFSETS)):
            yield from pointers_at(of.of, at + number * (c_types.size(of.of) or 0))
    elif isinstance(of, Struct) and of.members is not None:
        begins = c_types.bits_of(of)
        for name, member in of.members:
            yield from pointers_at(member, at + begins.get(name, 0) // 8)


def shared(points: "PointsTo") -> int:
    """Brings together the pointers that lie at one place of objects which stand as their bytes: what is set as the one may be read as
    the other. How many regions became one with another."""
    count = 0
    for region in all_regions(points):
        if not region.raw or region.into is not None:
            continue
        types = [*region.views, *(c_types.element(one.type) for one in region.objects)]
        found: dict[tuple[int, bool], Region] = {}
        for at, pointer in [one for of in types for one in pointers_at(of)]:
            key = at, isinstance(pointer.to, Signature)
            known = found.setdefault(key, pointer.region).root()
            if known is not pointer.region.root():
                points.unify(known, pointer.region, region.why[0] if region.why else None)
                count += 1
    return count
