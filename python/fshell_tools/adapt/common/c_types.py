"""The types of C that are read: integers, arrays, structs and pointers, with the regions in which these point; their layout, promotions
and leaves."""

from collections.abc import Iterator
from dataclasses import dataclass, field
from typing import TYPE_CHECKING, Optional, Union

from fshell_tools.adapt.common.tree import Coord

if TYPE_CHECKING:
    from fshell_tools.adapt.common.objects import Function, Variable

MOST_INDEX = 32767  # no index of a column is greater, so no product of one with a stride wraps
NIL = -MOST_INDEX - 1  # a null pointer: below each index, also with the largest index added
INDEX, END, BEGIN = "@p", "@e", "@b"  # what a pointer is written as; they stand in paths behind the members
# a pointer in an object that stands as its bytes: in which of its 8 bytes each part begins, in how many it is, and what is added
# to it there, so that null has 0 in all
PACKED = {INDEX: (0, 3, -NIL), END: (3, 3, 0), BEGIN: (6, 2, 0)}
Fault = tuple[Optional[Coord], str, str]  # where something can't be written, why, and what to do


@dataclass(frozen=True)
class Int:
    """An integer type: its bits, its sign, and the words of the profile for it. A bit-field has a `width`, and its bits and
    its sign are those of the narrowest type that has its values and is promoted as it is (6.3.1.1p2)."""

    bits: int
    signed: bool
    text: str = field(compare=False)
    boolean: bool = False
    width: int = 0
    below_zero: bool = False  # of a bit-field, whether it has a sign


@dataclass(frozen=True)
class Array:
    """An array type; `length` is None where it has none of its own."""

    of: "Type"
    length: Optional[int]


@dataclass(eq=False)
class Struct:
    """A struct or a union by its tag. Its members are None until it is complete, and `fault` is why it can't be used, if so.
    What a union is written as is its `carrier`, and `dead` are members that are left out (unions.py)."""

    tag: str
    members: Optional[list[tuple[str, "Type"]]] = None
    fault: Optional[Fault] = None
    declared: list[tuple[str, "Type", Optional[int]]] = field(default_factory=list)  # with the widths of bit-fields
    union: bool = False
    carrier: Optional[tuple[str, "Type"]] = None
    dead: set[str] = field(default_factory=set)

    @property
    def held(self) -> list[tuple[str, "Type"]]:
        """The members that are written."""
        if self.union:
            return [self.carrier] if self.carrier else []
        return [one for one in self.members or [] if one[0] not in self.dead]

    def path_of(self, name: str) -> str:
        """The member as which one is written."""
        return self.carrier[0] if self.union and self.carrier else name

    def type_of(self, name: str) -> "Type":
        """The type of a member, or of what a union is written as."""
        if self.carrier and self.carrier[0] == name:
            return self.carrier[1]
        return dict(self.members or [])[name]

    def has(self, name: str) -> bool:
        """Whether it has a member, or is written as it."""
        return name in dict(self.members or []) or bool(self.carrier and self.carrier[0] == name)

    def is_parts(self) -> bool:
        """Whether a union's members are parts of one integer."""
        return bool(self.carrier and self.carrier[0] not in dict(self.members or []))


@dataclass(eq=False)
class Region:
    """The objects that one pointer may meet, which are written into one array, a column. Each type of a pointer has a region, and each
    object one in which its elements lie. What an assignment, an argument or a comparison brings together becomes one region
    (unification, as Steensgaard has it), member by member.

    `elem` is the type of its elements, which are no arrays, and None where only `void` is known. `pointed` says that a
    pointer to an element may be made, `moved` and `down` that one is moved, and moved down."""

    elem: Optional["Type"] = None
    objects: list["Variable"] = field(default_factory=list)
    members: dict[str, "Region"] = field(default_factory=dict)
    pointed: bool = False
    moved: bool = False
    down: bool = False
    fault: Optional[Fault] = None
    into: Optional["Region"] = None
    freed: bool = False
    raw: bool = False  # whether its objects stand as their bytes
    targets: list["Function"] = field(default_factory=list)  # the functions to which a pointer may point
    single: bool = False
    column: Optional["Variable"] = None
    views: list["Type"] = field(default_factory=list)  # what the pointers point to that lead to it, without arrays
    reach: float = 0  # how many bytes a call takes behind a pointer to it; infinite where that isn't known
    why: Optional[Fault] = None  # where its objects became bytes, and why
    numbered: Optional[Coord] = None  # where a pointer to it becomes an integer

    def root(self) -> "Region":
        """What the region has become a part of."""
        one = self
        while one.into is not None:
            if one.into.into is not None:
                one.into = one.into.into
            one = one.into
        return one

    @property
    def type(self) -> "Type":
        """The type of its elements; `void` where no more is known."""
        return VOID if self.elem is None else self.elem

    @property
    def laid(self) -> "Variable":
        """The variable of its column, of a region that has one."""
        assert self.column is not None
        return self.column

    @property
    def is_code(self) -> bool:
        """Whether pointers here point to functions."""
        return isinstance(self.root().elem, Signature)

    def parts(self) -> list[str]:
        """The integers of a pointer into the region: its index, and the end and the begin of its object where these matter."""
        root = self.root()
        several = root.pointed and not root.single and not root.is_code
        return [INDEX] + [END] * (several and root.moved) + [BEGIN] * (several and root.down)

    def member(self, name: str, elem: Optional["Type"]) -> "Region":
        """The region of a member of the elements."""
        if self.root().raw:
            return self.root()
        found = self.root().members.setdefault(name, Region(elem))
        return found.root()


@dataclass(eq=False)
class Pointer:
    """A pointer type, each with a region of its own."""

    to: "Type"
    region: Region = field(default_factory=Region)

    def __post_init__(self) -> None:
        if self.to != VOID:
            views, of = self.region.root().views, element(self.to)
            if of not in views:
                views.append(of)
            if self.region.elem is None:
                self.region.elem = element(self.to)


@dataclass(eq=False)
class Signature:
    """The type of a function: what it gives and takes."""

    result: "Type"
    parameters: list["Type"]
    variadic: bool = False


@dataclass(frozen=True)
class Other:
    """A type that isn't written: `void`, or one that is refused where an object of it is used, with what to do then."""

    name: str
    advice: str = "use an integer, an array or a struct"
    bytes: Optional[int] = None  # its size, where it is known
    align: int = 1


WORDS = {8: "char", 16: "short", 32: "int", 64: "long"}


def c_words(kind: Int) -> str:
    """C's own words for an integer type of these bits and sign."""
    return ("signed " if kind.signed else "unsigned ") + WORDS[kind.bits]


Type = Union[Int, Array, Struct, Pointer, Signature, Other]
VOID = Other("void")
FLOATING = ("a floating point number", "use integers in fixed point")
FLOATS = {size: Other(*FLOATING, size, size) for size in (4, 8, 16)}
UNION = ("a union", "use a struct, or one object for each member")
INT, UINT = Int(32, True, "int"), Int(32, False, "unsigned int")
LONG, SIZE = Int(64, True, "long"), Int(64, False, "size_t")
BOOL = Int(8, False, "uint8_t", True)
FIXED = {f"{u}int{n}_t": Int(n, not u, f"{u}int{n}_t") for n in (8, 16, 32, 64) for u in ("", "u")} | {"size_t": SIZE}


def element(of: Type) -> Type:
    """The type of an array's elements, through all its lengths; of what is no array the type itself."""
    while isinstance(of, Array):
        of = of.of
    return of


def behind(of: Type) -> Optional[Type]:
    """What a pointer leads to, or the elements of an array; nothing of another type."""
    return of.to if isinstance(of, Pointer) else of.of if isinstance(of, Array) else None


def member(of: Type, name: str) -> Type:
    """The type of a member of a struct or a union, which has it."""
    assert isinstance(of, Struct)
    return of.type_of(name)


def elements(of: Type) -> int:
    """How many elements an array has, through all its lengths; 1 of what is no array."""
    count = 1
    while isinstance(of, Array):
        count, of = count * (of.length or 0), of.of
    return count


def renewed(of: Type) -> Type:
    """The same type, in which pointers have regions of their own."""
    if isinstance(of, Array):
        return Array(renewed(of.of), of.length)
    if isinstance(of, Signature):
        return Signature(renewed(of.result), [renewed(one) for one in of.parameters], of.variadic)
    return Pointer(renewed(of.to)) if isinstance(of, Pointer) else of


def adjusted(of: Type) -> Type:
    """What the type of a parameter is adjusted to (6.7.6.3p7 and p8)."""
    return Pointer(of.of) if isinstance(of, Array) else Pointer(of) if isinstance(of, Signature) else of


def plain(words: list[str]) -> Optional[Int]:
    """The type that C's own words name (6.7.2p2), if it is an integer's."""
    if set(words) <= {"_Bool"}:
        return BOOL
    if not set(words) <= {"char", "short", "int", "long", "signed", "unsigned"}:
        return None
    bits = 8 if "char" in words else 16 if "short" in words else 64 if "long" in words else 32
    return Int(bits, "unsigned" not in words, " ".join(words))


def promoted(kind: Int) -> Int:
    """The type of the integer promotions (6.3.1.1p2)."""
    return kind if kind.bits >= 32 else INT


def common(left: Int, right: Int) -> Int:
    """The type of the usual arithmetic conversions (6.3.1.8)."""
    left, right = promoted(left), promoted(right)
    if left.bits != right.bits:
        return max(left, right, key=lambda kind: kind.bits)
    return left if not left.signed else right


def fit(value: int, kind: Int) -> int:
    """The number of the kind that is the value modulo 2^bits, or for `bool` whether it isn't 0."""
    if kind.boolean:
        return int(value != 0)
    if kind.width:
        value %= 1 << kind.width
        return value - (1 << kind.width) if kind.below_zero and value >> (kind.width - 1) else value
    value %= 1 << kind.bits
    return value - (1 << kind.bits) if kind.signed and value >> (kind.bits - 1) else value


def is_flexible(of: Type) -> bool:
    """Whether the last member of a struct is a flexible array member if it has this type: it takes no bytes (6.7.2.1p18)."""
    return isinstance(of, Array) and of.length is None


def has_bytes(of: Type) -> bool:
    """Whether an object of the type may stand as its bytes: it has a known size."""
    if isinstance(of, Pointer):
        return True
    if isinstance(of, Array):
        return of.length is not None and has_bytes(of.of)
    if isinstance(of, Struct):
        if of.members is None or of.fault:
            return False
        held = of.members[:-1] if of.members and is_flexible(of.members[-1][1]) else of.members
        return all(has_bytes(member) for _, member in held)
    return isinstance(of, Int) or (isinstance(of, Other) and of != VOID and of.bytes is not None)


def is_mixed(of: Type) -> bool:
    """Whether a union in it has members that aren't one object in what is written but by their bytes."""
    if isinstance(of, Array):
        return is_mixed(of.of)
    if not isinstance(of, Struct) or of.fault:
        return False
    return (of.union and of.members is not None and not of.carrier) or any(is_mixed(one) for _, one in of.held)


def has_others(of: Type) -> bool:
    """Whether an object has parts that aren't written but by their bytes, as floating point numbers."""
    if isinstance(of, Array):
        return has_others(of.of)
    return any(has_others(one) for _, one in of.members or []) if isinstance(of, Struct) else isinstance(of, Other)


def alignment(of: Type) -> int:
    """To how many bytes gcc aligns a type on x86-64: the number divides each address."""
    if isinstance(of, Struct):
        return max((alignment(member) for name, member, width in of.declared if name or width is None), default=1)
    if isinstance(of, Other):
        return of.align
    return alignment(of.of) if isinstance(of, Array) else of.bits // 8 if isinstance(of, Int) else 8


def size(of: Type) -> Optional[int]:
    """The bytes of a type as gcc lays it out on x86-64, where they are known."""
    if isinstance(of, Int):
        return of.bits // 8
    if isinstance(of, Array):
        one = size(of.of)
        return None if one is None or of.length is None else one * of.length
    if isinstance(of, Struct) and of.members is not None and not of.fault:
        end = laid_out(of)[1]
        return None if end is None else -(-end // alignment(of)) * alignment(of)
    return 8 if isinstance(of, Pointer) else of.bytes if isinstance(of, Other) else None


def offsets(of: Struct) -> dict[str, int]:
    """Where the members of a struct lie, but for bit-fields, as gcc lays it out on x86-64; none where that isn't known."""
    fields = {name for name, _, width in of.declared if width is not None}
    return {name: at // 8 for name, at in bits_of(of).items() if name not in fields}


def bits_of(of: Struct) -> dict[str, int]:
    """With which bit the members of a struct begin, as gcc lays it out on x86-64; none where that isn't known."""
    found, end = laid_out(of)
    return found if end is not None and not of.fault else {}


def laid_out(of: Struct) -> tuple[dict[str, int], Optional[int]]:
    """With which bit the members of a struct begin, and how many bytes they take before what is filled up."""
    at, found = 0, {}  # (in bits)
    if of.union:
        sizes = [size(member) if width is None else -(-width // 8) for _, member, width in of.declared]
        known = [one for one in sizes if one is not None]
        return {name: 0 for name, _, _ in of.declared}, max(known, default=0) if len(known) == len(sizes) else None
    for name, member, width in of.declared:
        one, step = size(member), alignment(member) * 8
        if is_flexible(member) and name == of.declared[-1][0]:
            one = 0
        if one is None:
            return {}, None
        if width is None or width == 0 or at % (one * 8) + width > one * 8:
            at = -(-at // step) * step
        if name:
            found[name] = at
        at += one * 8 if width is None else width
    return found, -(-at // 8)


Path = tuple[str, ...]


@dataclass(frozen=True)
class Leaf:
    """An integer within an object: the members that lead to it, the lengths of all arrays on the way, and its type."""

    path: Path
    dims: tuple[int, ...]
    kind: Int

    @property
    def count(self) -> int:
        """How many integers the arrays on the way make of it."""
        product = 1
        for one in self.dims:
            product *= one
        return product


def leaves(of: Type, path: Path = (), dims: tuple[int, ...] = ()) -> Iterator[Leaf]:
    """The leaves of an object of the type, in order; none for what has no integers."""
    if isinstance(of, Int):
        yield Leaf(path, dims, of)
    elif isinstance(of, Pointer):
        for part in of.region.parts():
            yield Leaf(path + (part,), dims, INT)
    elif isinstance(of, Array) and of.length is not None:
        yield from leaves(of.of, path, dims + (of.length,))
    elif isinstance(of, Struct):
        for name, member in of.held:
            yield from leaves(member, path + (name,), dims)


def fault_of(of: Type) -> Optional[tuple[str, str]]:
    """Why an object of the type can't be written, if so: the cause and what to do."""
    if isinstance(of, Array):
        if of.length == 0:
            return "an array without elements", "give it one at least"
        return ("an array without a length", "give its length") if of.length is None else fault_of(of.of)
    if isinstance(of, Signature):
        return "a function as an object", "call it by its name"
    if isinstance(of, Pointer):
        fault = of.region.root().fault
        return (fault[1], fault[2]) if fault else None
    if isinstance(of, Struct):
        if of.fault:
            return of.fault[1], of.fault[2]
        if of.members is None:
            return f"struct {of.tag} isn't complete", "give its members before its use"
        if of.union and not of.carrier:
            return UNION
        return None  # (members that can't be written are left out, and refused where they are used)
    return (of.name, of.advice) if isinstance(of, Other) else None
