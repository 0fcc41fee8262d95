"""Which objects stand as their bytes although no pointer to another type meets them: parts of a union that are pointed to, unions whose
members have no common form, and memory that is copied, set or compared by bytes."""

from typing import TYPE_CHECKING

from fshell_tools.adapt.bind.lvalues import arguments
from fshell_tools.adapt.common import c_types, tree
from fshell_tools.adapt.common.c_types import Int, Pointer, Region
from fshell_tools.adapt.common.refusals import Refused
from fshell_tools.adapt.points_to.call_flow import differ, handed_by_pointer
from fshell_tools.adapt.points_to.models import WHOLE, Model, element_count
from fshell_tools.adapt.points_to.object_images import made_whole, shared, spanned

if TYPE_CHECKING:
    from fshell_tools.adapt.points_to.analysis import PointsTo


def settle(points: "PointsTo") -> None:
    """Lets objects stand as their bytes where something needs them: parts of a union that are pointed to, unions whose members
    have no common form, and memory that is copied, set or compared by bytes."""
    before, done, joined = -1, set[tree.Node](), 0
    for node, model in points.modelled:
        spanned(points, node, model.name)
    while before != raws(points) + len(done) + joined:
        for variable in points.names.variables:
            if c_types.is_mixed(variable.type):
                points.home(variable)
        before = raws(points) + len(done) + joined
        handed_by_pointer(points, done)
        for made, region, at in points.parts:
            if made.root().pointed and made.root() is not region.root():
                made.root().fault = None
                points.as_bytes(region, [region.root().type], at)
                points.as_bytes(made, [made.root().type], at)
                points.unify(region, made, at)
        for variable, region in list(points.homes.items()):
            if c_types.is_mixed(variable.type) and not region.root().raw:
                points.as_bytes(region, [region.root().type], variable.coord)
        for one in pointers(points):
            if c_types.is_mixed(one.to) and not one.region.root().raw:
                points.as_bytes(one.region, [one.to], None)
        for region, at in points.by_bytes:
            of = region.root().type
            if not region.root().raw and of != c_types.VOID and not (isinstance(of, Int) and of.bits == 8):
                points.as_bytes(region, [of], at)
        for node, model in points.modelled:
            by_bytes(points, node, model)
        joined += made_whole(points) + shared(points)


def raws(points: "PointsTo") -> int:
    """How many objects and pointers' values have regions that stand as bytes, or can't be written; two of these may become one."""
    found = [one.root() for one in points.homes.values()] + [of.region.root() for of in pointers(points)]
    return sum(1 for one in found if one.raw or one.fault)


def pointers(points: "PointsTo") -> list[Pointer]:
    """The pointers among the values."""
    return [of for of in points.values.values() if isinstance(of, Pointer)]


def by_bytes(points: "PointsTo", node: tree.FuncCall, model: Model) -> None:
    """A call of a library's function on objects that it doesn't take as whole elements."""
    of = [points.value(one) for one in arguments(node) if not points.is_null(one)]
    regions = [one.region.root() for one in of if isinstance(one, Pointer)]
    elems = [one.type for one in regions]
    if all(isinstance(one, Int) and one.bits == 8 for one in elems) or any(one.fault for one in regions):
        return
    known = all(c_types.has_bytes(one) for one in elems)
    sizes = {c_types.size(one) for one in elems}
    alike = not any(one.raw for one in regions) and not any(differ(elems[0], one) for one in elems[1:])
    whole = (
        known and alike and len(sizes) == 1 and model.name in WHOLE and is_whole(points, node, model, sizes.pop() or 1)
    )
    if model.name == "memset" and points.constants.value(arguments(node)[1]) != 0:
        whole = False
    inner = any(has_raw(one) for one in regions)
    for one in regions:
        if known and (inner or not whole):
            points.as_bytes(one, [one.type], node.coord)
        elif inner:
            cause = f"{model.name} of objects with members that stand as their bytes"
            one.fault = one.fault or (node.coord, cause, "assign the members")


def has_raw(region: Region) -> bool:
    """Whether members of a region's elements stand as their bytes."""
    return any(one.root().raw or has_raw(one.root()) for one in region.root().members.values())


def is_whole(points: "PointsTo", node: tree.FuncCall, model: Model, size: int) -> bool:
    """Whether a call takes whole elements of a size."""
    try:
        element_count(points.constants, arguments(node)[-1], size)
    except Refused:
        return False
    return True
