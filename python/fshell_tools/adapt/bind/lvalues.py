"""Which object an expression names. A parameter that is a pointer may stand for one (bindings.py); other pointers are
indexes into columns (regions.py)."""

from dataclasses import dataclass, replace
from typing import Optional, Protocol, Union

from fshell_tools.adapt.bind.value_texts import Value
from fshell_tools.adapt.common import c_types, tree
from fshell_tools.adapt.common.c_types import Array, Int, Other, Pointer, Region, Struct, Type, fault_of
from fshell_tools.adapt.common.objects import Function, Place, Variable, View
from fshell_tools.adapt.common.refusals import Refused
from fshell_tools.adapt.names import unions
from fshell_tools.adapt.names.scopes import Names

Indexes = tuple[tuple[tree.Expression, int], ...]  # each with the array's length
Owner = Union[Variable, tuple[Region, str]]  # an object, or the member of all elements of another region
MOST_CALLS = 64  # of one function that run at once: more frames than that no run of the program has
FIELD = "@bit"  # of a bit-field of what stands as its bytes, before the number of its first bit in its first byte
USE = "name the object itself, or hand its address over as a parameter that is only dereferenced"


@dataclass(eq=False)
class At(tree.Expression):
    """The number of the element that a pointer points to, or of one at an index from it; each step is of `stride` elements.
    Where it points to bytes, `tests` are what makes the index bad, and `ends` where its object ends and begins."""

    SLOTS = ("pointer", "index")
    pointer: tree.Expression
    index: Optional[tree.Expression]
    stride: int
    coord: Optional[tree.Coord] = None
    raw: bool = False
    tests: Optional[list[str]] = None
    ends: Optional[dict[str, Value]] = None


@dataclass(eq=False)
class Level(tree.Expression):
    """The number of the call of a function that calls itself among those that run, each of which has locals of its own (6.2.4p6)."""

    function: Function
    coord: Optional[tree.Coord] = None


def aligned(size: int) -> int:
    """The bytes from an object that stands as its bytes to the next one, so that a test of an address tells the same of both."""
    return -(-size // 8) * 8


class Laid(Protocol):
    """What places ask of the columns, which are laid out later."""

    def home(self, variable: Variable) -> Optional[Region]:
        """The region in which a variable lies."""

    def begin(self, region: Region, owner: Owner) -> int:
        """The number of the element with which an object begins in its column."""

    def level(self, variable: Variable) -> Optional[Level]:
        """Which of a local's objects is meant, where there are several at once."""

    def pointer(self, node: tree.Expression) -> Pointer:
        """The type of a pointer's value, with its region. Raises Refused for what is no pointer."""

    def count(self, of: Type, region: Region) -> int:
        """How many elements an object takes in a column."""


class Places:
    """The objects that expressions name, by the columns where these are known."""

    def __init__(self, names: Names, columns: Optional[Laid] = None) -> None:
        self.names, self.columns = names, columns
        self.zero = tree.Constant("int", "0")

    def of_variable(self, variable: Variable) -> Place:
        """The place of a variable, which may lie in a column."""
        region = self.columns.home(variable) if self.columns is not None else None
        if self.columns is not None and region is not None and region.column is not None:
            whole = (c_types.size(variable.type) or 0) if region.raw else 0
            start, indexes = self.columns.begin(region, variable), self.levelled(variable)
            indexes += ((self.zero, aligned(whole)),) if region.raw and indexes else ()
            return Place(region.column, (), indexes, variable.type, start, region, whole=whole)
        return Place(variable, (), (), variable.type, 0, region)

    def levelled(self, variable: Variable) -> Indexes:
        """The index that leads to an object of a local in a column, where there are several at once."""
        level = self.columns.level(variable) if self.columns is not None else None
        return () if level is None else ((level, MOST_CALLS),)

    def member(self, base: Place, name: str, node: Optional[tree.Expression]) -> Place:
        """The place of a member. Raises Refused for a member that there isn't, or that can't be written."""
        path = unions.found(base.type, name)
        if path is None or not isinstance(base.type, Struct):
            if isinstance(base.type, Struct) and base.type.carrier and base.type.carrier[0] == name:
                return Place(base.variable, base.path + (name,), base.shifted(), base.type.carrier[1])
            raise Refused(node.coord if node else None, f"the member {name}", "use a struct")
        if len(path) > 1:
            return self.member(self.member(base, path[0], node), name, node)
        whole = base.type
        of = whole.type_of(name)
        if self.is_raw(base):
            bit = c_types.bits_of(whole)[name]
            field = isinstance(of, Int) and of.width > 0
            return replace(base, offset=base.offset + bit // 8, type=of, path=(f"{FIELD}{bit % 8}",) if field else ())
        if whole.fault:
            raise Refused(node.coord if node else None, f"member {name}: {whole.fault[1]}", whole.fault[2])
        if whole.is_parts():
            kind = of.of if isinstance(of, Array) else of
            assert isinstance(kind, Int)
            view = View(kind, None, of.length if isinstance(of, Array) else None)
            return Place(base.variable, base.path + (whole.path_of(name),), base.shifted(), of, view=view)
        stored = whole.type_of(whole.path_of(name))
        name = whole.path_of(name)
        fault = fault_of(of)
        if fault:
            tag = base.type.tag if isinstance(base.type, Struct) else ""
            raise Refused(node.coord if node else None, f"member {name} of struct {tag}: {fault[0]}", fault[1])
        inner = base.region.root().members.get(name) if base.region else None
        inner = inner.root() if inner else None
        if self.columns is not None and inner is not None and inner.column is not None and base.region is not None:
            start = self.columns.begin(inner, (base.region.root(), name))
            at = self.levelled(base.variable) + base.shifted()
            size = (c_types.size(of) or 0) if inner.raw else 0
            at += ((self.zero, size),) if inner.raw and at else ()
            return Place(inner.column, (), at, of, start, inner, whole=size)
        other = c_types.element(stored) if isinstance(c_types.element(of), Int) and stored != of else None
        return Place(base.variable, base.path + (name,), base.shifted(), of, 0, inner, stored=other)

    @staticmethod
    def is_raw(place: Place) -> bool:
        """Whether a place's object stands as its bytes."""
        region = place.region.root() if place.region is not None else None
        return region is not None and region.raw and place.variable is region.column

    @staticmethod
    def carrier_kind(place: Place) -> Int:
        """The kind of the integer of which a place is a part."""
        of = place.variable.type
        of = of.to if isinstance(of, Pointer) and place.variable.is_bound else of
        for name in place.path:
            of = c_types.member(c_types.element(of), name)
        found = c_types.element(of)
        assert isinstance(found, Int)
        return found

    def element(self, base: Place, index: tree.Expression) -> Place:
        """The place of an array's element. Raises Refused for what is no array."""
        if not isinstance(base.type, Array) or base.type.length is None:
            raise Refused(index.coord, "what is no array", USE)
        if base.row and isinstance(base.type.of, Array):
            raise Refused(index.coord, "a pointer to an array of arrays", "use indexes")
        if base.view is not None:
            return replace(base, view=replace(base.view, index=index), type=base.type.of)
        if self.is_raw(base):
            known, step = self.names.constants.value(index), c_types.size(base.type.of) or 1
            made = replace(base, type=base.type.of, around=base.around or base)
            if known is not None and (0 <= known < base.type.length or not base.whole):
                return replace(made, offset=base.offset + known * step)
            return replace(made, inside=base.inside + ((index, step),))
        length, around = 1 if base.row else base.type.length, base.around or base
        return replace(base, indexes=base.indexes + ((index, length),), type=base.type.of, around=around, row=False)

    def place(self, node: tree.Expression) -> Place:
        """The object that an expression names (6.5.1 to 6.5.3.2). Raises Refused where it names none, or one that
        can't be written."""
        if isinstance(node, tree.ID):
            meaning = self.names.meaning.get(node)
            if not isinstance(meaning, Variable):
                raise Refused(node.coord, f"{node.name} is no object here", "use a variable")
            if isinstance(meaning.type, Pointer) and meaning.is_bound:
                raise Refused(node.coord, f"the pointer {node.name}", USE)
            made = self.of_variable(meaning)
            fault = None if self.is_raw(made) else fault_of(meaning.type)
            if fault:
                raise Refused(node.coord, f"{node.name}: {fault[0]}", fault[1])
            return made
        if isinstance(node, tree.StructRef):
            base = self.pointed(node.name) if node.type == "->" else self.place(node.name)
            return self.member(base, node.field.name, node)
        if isinstance(node, tree.ArrayRef):
            if isinstance(self.names.constants.type_of(node.name), Int):  # (6.5.2.1p2: both orders are the same)
                return self.pointed(node.subscript, node.name)
            return self.pointed(node.name, node.subscript)
        if isinstance(node, tree.UnaryOp) and node.op == "*":
            return self.pointed(node.expr)
        raise Refused(node.coord, "what is no named object", "use a variable")

    def pointed(self, node: tree.Expression, index: Optional[tree.Expression] = None) -> Place:
        """The object at a pointer, or at an index from it. Raises Refused for arithmetic that leads to no object."""
        if isinstance(node, tree.BinaryOp) and node.op == "+" and index is None:
            if not isinstance(self.names.constants.type_of(node.left), Int):
                return self.pointed(node.left, node.right)
        first = index is None or self.names.constants.value(index) == 0
        if isinstance(node, tree.UnaryOp) and node.op == "&" and first:
            return self.place(node.expr)
        meaning = self.names.meaning.get(node) if isinstance(node, (tree.ID, tree.Constant)) else None
        if isinstance(meaning, Variable) and isinstance(meaning.type, Pointer) and first:
            if isinstance(meaning.binding, Place):
                made = self.of_variable(meaning.binding.variable)
                for name in meaning.binding.path:
                    made = self.member(made, name, node)
                return made
            if meaning.binding == "copy":
                fault = fault_of(meaning.type.to)
                if fault:
                    raise Refused(node.coord, f"{meaning.name} points to {fault[0]}", fault[1])
                region = self.columns.home(meaning) if self.columns is not None else None
                return Place(meaning, (), (), meaning.type.to, 0, region)
        if isinstance(meaning, Variable) and isinstance(node, tree.Constant) and isinstance(meaning.type, Array):
            return self.element(self.of_variable(meaning), index or self.zero)
        of = self.names.constants.type_of(node)
        if self.columns is not None and not isinstance(of, (Array, Other)):
            return self.at_pointer(node, index)
        if not isinstance(node, (tree.ID, tree.StructRef, tree.ArrayRef, tree.UnaryOp)):
            raise Refused(node.coord, "arithmetic with a pointer", "use an index")
        return self.element(self.place(node), index or self.zero)

    def at_pointer(self, node: tree.Expression, index: Optional[tree.Expression]) -> Place:
        """The object at a pointer that is an index into a column. Raises Refused where its objects have no type, or
        can't lie in one column."""
        assert self.columns is not None
        of = self.columns.pointer(node)
        region = of.region.root()
        if region.fault:
            raise Refused(node.coord, region.fault[1], region.fault[2])
        if region.column is None or not isinstance(c_types.element(of.to), (Int, Struct, Pointer)):
            raise Refused(
                node.coord, "an access by a pointer whose objects have no type", "name the type of the object"
            )
        fault = None if region.raw and c_types.size(of.to) is not None else fault_of(of.to)
        if fault:
            raise Refused(node.coord, f"what is pointed to: {fault[0]}", fault[1])
        at = At(node, index, self.columns.count(of.to, region), node.coord, region.raw)
        if region.raw:
            return Place(region.column, (), ((at, 1),), of.to, 0, region)
        return Place(region.column, (), ((at, 1),), of.to, 0, region, row=isinstance(of.to, Array))

    # ---- arguments

    def whole_array(self, node: tree.Expression) -> Place:
        """The array that an argument is. Raises Refused for a part of one."""
        if not isinstance(node, (tree.ID, tree.StructRef, tree.ArrayRef)):
            raise Refused(
                node.coord,
                "a part of an array is handed over, or no array",
                "hand over the whole array by its name, and an index",
            )
        return self.place(node)

    def handed(self, node: tree.Expression) -> Place:
        """The object whose address an argument is. Raises Refused for a null pointer and for one that is converted."""
        if self.names.constants.value(node) is not None:
            raise Refused(node.coord, "a null pointer is handed over", "hand over the address of a named object")
        if isinstance(node, tree.Cast):
            raise Refused(node.coord, "a pointer is converted", USE)
        return self.pointed(node)


def arguments(call: tree.FuncCall) -> list[tree.Expression]:
    """The expressions between the brackets of a call (6.5.2.2), in order."""
    return list(call.args.exprs) if call.args else []
