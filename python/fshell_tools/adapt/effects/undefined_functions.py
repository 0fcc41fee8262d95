"""What a function that no source defines may do to the objects that it is handed: an object at a pointer that isn't to const has any
values behind the call, each of its integers an input of its own, and the pointers that it had."""

from typing import Optional

from fshell_tools.adapt.bind.lvalues import Places, arguments
from fshell_tools.adapt.common import c_types, tree
from fshell_tools.adapt.common.c_types import Array, Leaf, Pointer, Struct
from fshell_tools.adapt.common.objects import Function, Place
from fshell_tools.adapt.common.refusals import Refused

MOST_CHANGED = 64
# the library's functions that change objects, whatever their types say
CHANGING = set(
    """memcpy memmove memset strcpy strncpy strcat strncat strtok strtok_r sprintf snprintf vsprintf vsnprintf scanf sscanf
    fscanf fread fgets gets read recv getline qsort realloc strtol strtoul strtoll strtoull strtod stat fstat lstat time
    localtime_r gmtime_r mktime strftime memccpy stpcpy stpncpy bcopy bzero swab getcwd readlink pipe mbstowcs wcstombs
    mbtowc getopt getopt_long select poll ioctl utime utimes frexp modf free""".split()
)


def takes_const(function: Function, number: int) -> bool:
    """Whether a parameter is a pointer to what is const, or one of those that are any number of a function that only reads."""
    one = function.written[number] if number < len(function.written) else None
    if one is None or isinstance(one, tree.EllipsisParam):
        return function.variadic and function.name not in CHANGING
    of = one.type if isinstance(one, (tree.Decl, tree.Typename)) else None
    to = of.type if isinstance(of, tree.PtrDecl) else None
    return isinstance(to, (tree.TypeDecl, tree.PtrDecl)) and "const" in (to.quals or [])


def handed(places: Places, function: Function, number: int, argument: tree.Expression) -> Optional[Place]:
    """The object that a call may change by an argument, where its integers are known and few."""
    if takes_const(function, number):
        return None
    try:
        of = places.names.constants.type_of(argument)
    except Refused:  # (a floating point constant, which is told where it is written)
        return None
    whole = isinstance(argument, tree.UnaryOp) and argument.op == "&"
    if not isinstance(of, (Pointer, Array)) or not (
        whole or isinstance(of, Array) or isinstance(c_types.element(of.to), Struct)
    ):
        return None
    try:
        place = (
            places.place(argument.expr)
            if isinstance(argument, tree.UnaryOp) and whole
            else places.place(argument)
            if isinstance(of, Array)
            else places.pointed(argument)
        )
    except Refused:
        return None
    count = sum(leaf.count for leaf in c_types.leaves(place.type) if not is_of_pointer(leaf))
    plain = place.view is None and not c_types.is_mixed(place.type) and c_types.has_bytes(place.type)
    return place if plain and 0 < count <= MOST_CHANGED else None


def is_of_pointer(leaf: Leaf) -> bool:
    """Whether an integer of an object is one of those of a pointer."""
    return bool(leaf.path) and leaf.path[-1].startswith("@")


def changed(places: Places, node: tree.FuncCall, function: Optional[Function], inputs: set[str]) -> list[Place]:
    """The objects that a call may change."""
    if not isinstance(function, Function) or function.definition is not None or function.name not in inputs:
        return []
    found = [handed(places, function, number, one) for number, one in enumerate(arguments(node))]
    return [one for one in found if one is not None]
