"""What calls bring together: arguments and parameters, also of the library's functions, and of calls by pointers."""

from typing import TYPE_CHECKING

from fshell_tools.adapt.bind.bindings import key
from fshell_tools.adapt.bind.lvalues import arguments
from fshell_tools.adapt.common import c_types, tree
from fshell_tools.adapt.common.c_types import Int, Pointer, Signature, Struct, Type
from fshell_tools.adapt.common.objects import Function, Variable
from fshell_tools.adapt.common.refusals import Refused
from fshell_tools.adapt.names.constants import is_offset
from fshell_tools.adapt.points_to.heap import TAKES
from fshell_tools.adapt.points_to.models import WHOLE, element_count, model_of

if TYPE_CHECKING:
    from fshell_tools.adapt.points_to.analysis import PointsTo


def visit(points: "PointsTo", node: tree.Node) -> None:
    """What a node brings together. What is refused in it is told where it is written."""
    try:
        if isinstance(node, tree.Decl) and node.init is not None:
            variable = points.names.meaning.get(node)
            if isinstance(variable, Variable) and not isinstance(node.init, tree.InitList):
                points.flow(node.init, variable.type)
        elif isinstance(node, tree.Assignment):
            assigned(points, node)
        elif isinstance(node, tree.FuncCall):
            called(points, node)
        elif isinstance(node, tree.Return) and node.expr is not None and points.function is not None:
            points.flow(node.expr, points.function.result)
        elif isinstance(node, tree.UnaryOp) and node.op in ("++", "--", "p++", "p--"):
            of = points.value(node.expr)
            if isinstance(of, Pointer):
                root = of.region.root()
                root.moved, root.down = True, root.down or "--" in node.op
                points.moves_by_bytes(of, node.coord)
        elif isinstance(node, tree.BinaryOp):
            compared(points, node)
        elif isinstance(node, (tree.ArrayRef, tree.StructRef)) or (isinstance(node, tree.UnaryOp) and node.op == "*"):
            points.place(node)
        elif isinstance(node, (tree.Cast, tree.TernaryOp)):
            points.value(node)
    except Refused:
        pass  # (told where it is written)


def assigned(points: "PointsTo", node: tree.Assignment) -> None:
    """An assignment: the value becomes one of the target's type, or the target moves."""
    to = points.value(node.lvalue)
    if isinstance(to, Pointer) and node.op in ("+=", "-="):
        points.moves_by_bytes(to, node.coord)
        points.moves(to.region, node.rvalue, node.op == "-=")
    elif node.op == "=":
        points.flow(node.rvalue, to)


def compared(points: "PointsTo", node: tree.BinaryOp) -> None:
    """A comparison of pointers, which meet the same objects (6.5.8p5, 6.5.9p6)."""
    if node.op in ("==", "!=", "<", ">", "<=", ">="):
        if points.is_null(node.left) or points.is_null(node.right):
            return
        left, right = points.value(node.left), points.value(node.right)
        if isinstance(left, Pointer) and isinstance(right, Pointer):
            points.unify(left.region, right.region, node.coord)
    elif node.op in ("+", "-"):
        points.value(node)


def called(points: "PointsTo", node: tree.FuncCall) -> None:
    """A call: arguments become parameters."""
    function = points.names.meaning.get(node)
    if is_offset(node):
        return
    if points.of_heap(node):
        called_heap(points, node, points.of_heap(node))
        return
    if model_of(function):
        of_model(points, node)
    if not isinstance(function, Function):
        called_by_pointer(points, node)
    if not isinstance(function, Function) or function.definition is None:
        return
    for argument, parameter in zip(arguments(node), function.parameters):
        if parameter.is_bound and not isinstance(parameter.type, (Int, Struct)):
            of, region = points.bound(parameter)
            mine, _ = points.pointee(argument)
            if differ(of, mine):
                points.names.refusals.apart.add(key(parameter))
            points.same_type(of, mine, node.coord, region)
        else:
            points.tried(argument, parameter.type)


def called_by_pointer(points: "PointsTo", node: tree.FuncCall) -> None:
    """A call by a pointer, whose functions are known at the end. Raises Refused where it is none to a function."""
    of = points.value(node.name)
    if not isinstance(of, Pointer) or not isinstance(of.to, Signature):
        raise Refused(node.coord, "a call of what is no function", "call a function")
    points.pointer_calls.append((points.function, node))
    for argument in arguments(node):
        try:
            points.value(argument)
        except Refused:
            pass  # (told where it is written)


def handed_by_pointer(points: "PointsTo", done: set[tree.Node]) -> None:
    """What calls by pointers hand over reaches parameters where the pointer meets a function."""
    for _, node in points.pointer_calls:
        of = points.value(node.name)
        if not isinstance(of, Pointer) or not isinstance(of.to, Signature):
            continue
        if node not in done and of.region.root().targets:
            done.add(node)
            for argument, to in zip(arguments(node), of.to.parameters):
                points.tried(argument, to)


def of_model(points: "PointsTo", node: tree.FuncCall) -> None:
    """A call of a library's function goes through the objects of its pointers, and may copy from one to the other."""
    model = model_of(points.names.meaning.get(node))
    whole = model is not None and model.name in WHOLE and len(arguments(node)) == len(model.parameters)
    last = arguments(node)[-1] if whole else None
    given = [one for one in arguments(node) if not points.is_null(one)]
    found = [points.value(one) if last is None or one is last else copied(points, one, last) for one in given]
    regions = [of.region.root() for of in found if isinstance(of, Pointer)]
    for region in regions:
        region.pointed = region.moved = True
    if model is not None and len(arguments(node)) == len(model.parameters):
        points.modelled.append((node, model))
    if len(regions) == 2:
        left, right = [region.root().elem for region in regions]
        if left is not None and right is not None and not differ(left, right):
            points.same_type(left, right, node.coord, regions[0])


def differ(one: Type, other: Type) -> bool:
    """Whether objects of two types have one form only as their bytes."""
    one, other = c_types.element(one), c_types.element(other)
    if isinstance(one, Int) and isinstance(other, Int):
        return one.bits != other.bits or one.boolean != other.boolean
    if isinstance(one, Struct) and isinstance(other, Struct) and one.tag == other.tag:
        names = [[name for name, _ in of.members or []] for of in (one, other)]
        return names[0] != names[1]  # (else one struct, of several sources)
    if isinstance(one, Pointer) and isinstance(other, Pointer):
        return False
    return one is not other and c_types.has_bytes(one) and c_types.has_bytes(other)


def called_heap(points: "PointsTo", node: tree.FuncCall, name: str) -> None:
    """A call of the heap. Raises Refused where it is declared otherwise than in the library."""
    if len(arguments(node)) != TAKES[name]:
        raise Refused(node.coord, f"{name} is declared otherwise than in the library", "declare it as stdlib.h does")
    of = bare(points, arguments(node)[0]) if name == "free" else points.value(node)
    if isinstance(of, Pointer):
        of.region.root().freed = of.region.root().freed or name == "free"


def bare(points: "PointsTo", node: tree.Expression) -> Type:
    """What free is handed. A cast to another pointer there, as in `free((char *) p)`, changes nothing (6.3.2.3p1, 7.22.3.3p2)."""
    casts = list[tree.Cast]()
    while isinstance(node, tree.Cast) and isinstance(points.constants.type_of(node), Pointer):
        casts.append(node)
        node = node.expr
    of = points.value(node)
    if not isinstance(of, Pointer):
        return points.value(casts[0]) if casts else of
    points.values.update((one, of) for one in casts)
    return of


def copied(points: "PointsTo", node: tree.Expression, count: tree.Expression) -> Type:
    """What a function that takes whole elements is handed, with the number of bytes. A cast to a pointer to void or to characters there
    changes nothing, where the number is one of whole elements of what is cast (6.3.2.3p1)."""
    inner = node
    while isinstance(inner, tree.Cast) and is_of_bytes(points.constants.type_of(inner)):
        inner = inner.expr
    of = c_types.behind(points.constants.type_of(inner))
    size = None if of is None else c_types.size(c_types.element(of))
    if size is None or inner is node or isinstance(inner, tree.Cast):
        return points.value(node)
    try:
        element_count(points.constants, count, size)
    except Refused:
        return points.value(node)
    return bare(points, node)


def is_of_bytes(of: Type) -> bool:
    """Whether a type is that of pointers to void or to characters."""
    to = of.to if isinstance(of, Pointer) else None
    return to == c_types.VOID or (isinstance(to, Int) and to.bits == 8)
