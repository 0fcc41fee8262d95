"""What brings regions together: two become one, and with them the pointers in their elements, member by member."""

from typing import Optional

from fshell_tools.adapt.common import c_types, tree
from fshell_tools.adapt.common.c_types import Int, Other, Pointer, Region, Signature, Struct, Type
from fshell_tools.adapt.common.objects import Variable

ADVICE = "let one pointer point to objects of one type"


def words(of: Type) -> str:
    """What a type is called."""
    if isinstance(of, Struct):
        return f"struct {of.tag}"
    if isinstance(of, Signature):
        return f"a function of {len(of.parameters)} parameters"
    if isinstance(of, Other):
        return of.name
    return of.text if isinstance(of, Int) else "pointer" if isinstance(of, Pointer) else "array"


def whole_again(of: Type) -> None:
    """As its bytes an object has all of them: also members that nothing names, and a union what is no part of its carrier."""
    of = c_types.element(of)
    if isinstance(of, Struct) and not of.fault:
        of.dead.clear()
        if of.union and of.carrier and c_types.size(of.carrier[1]) != c_types.size(of):
            of.carrier = None
        for _, member in of.members or []:
            whole_again(member)


class Unification:
    """The regions of variables, and what makes two regions one."""

    def __init__(self) -> None:
        self.homes: dict[Variable, Region] = {}

    def home(self, variable: Variable) -> Region:
        """The region in which a variable's elements lie; of a parameter that stands for an object, those of that object."""
        if variable not in self.homes:
            of = variable.type
            if variable.is_bound and isinstance(of, Pointer):
                of = of.to
            self.homes[variable] = Region(c_types.element(of), [variable])
        return self.homes[variable].root()

    def unify(self, one: Region, other: Region, at: Optional[tree.Coord]) -> None:
        """Makes two regions one, with those of their members."""
        a, b = one.root(), other.root()
        if a is b:
            return
        b.into = a
        a.objects += [variable for variable in b.objects if variable not in a.objects]
        a.pointed, a.moved, a.down = a.pointed or b.pointed, a.moved or b.moved, a.down or b.down
        a.freed = a.freed or b.freed
        a.views += [of for of in b.views if of not in a.views]
        a.reach, a.numbered, a.why = max(a.reach, b.reach), a.numbered or b.numbered, a.why or b.why
        a.targets += [function for function in b.targets if function not in a.targets]
        a.fault = a.fault or b.fault
        left, right = a.elem, b.elem
        a.elem = right if left is None or self.is_open(left) else left
        if a.raw or b.raw:
            self.as_bytes(a, [one for one in (left, right) if one is not None], at)
        elif left is not None and right is not None and not self.is_open(left) and not self.is_open(right):
            self.same_type(left, right, at, a)
        members, b.members = b.members, {}
        for name, inner in members.items():
            mine = a.root() if a.root().raw else a.root().members.get(name)
            if mine is None:
                a.root().members[name] = inner
            else:
                self.unify(mine, inner, at)

    @staticmethod
    def count(of: Type, region: Region) -> int:
        """How many elements an object takes in a column: those of an array, or its bytes."""
        return (c_types.size(of) or 0) if region.root().raw else c_types.elements(of)

    @staticmethod
    def is_open(of: Type) -> bool:
        """Whether no more of a type is known than that it is a struct."""
        return isinstance(of, Struct) and of.members is None

    def as_bytes(self, region: Region, types: list[Type], at: Optional[tree.Coord]) -> None:
        """Lets the objects of a region stand as their bytes, where all may."""
        root = region.root()
        bad = [one for one in types if not c_types.has_bytes(one) and not self.is_open(one) and one != c_types.VOID]
        cause = f"a pointer to {words(types[0])} and to {words(types[-1])}" if types else "pointers to several types"
        if bad:
            cause = f"a pointer to {words(bad[0])} and to {words(next((one for one in types if one is not bad[0]), bad[0]))}"
            root.fault = root.fault or (at, cause, ADVICE)
            return
        root.why = root.why or (at, cause, ADVICE)
        for one in [*types, *(variable.type for variable in root.objects)]:
            whole_again(one)
        root.raw = root.pointed = root.moved = True
        root.elem = c_types.Int(8, False, "unsigned char")
        members, root.members = root.members, {}
        for inner in members.values():
            self.unify(root, inner, at)

    def same_type(self, one: Type, other: Type, at: Optional[tree.Coord], region: Region) -> None:
        """Brings the pointers within two types together; types that can't be one are a fault of the region."""
        one, other = c_types.element(one), c_types.element(other)
        if isinstance(one, Signature) and isinstance(other, Signature):
            self.same_signature(one, other, at, region)
            return
        if isinstance(one, Pointer) and isinstance(other, Pointer):
            self.unify(one.region, other.region, at)
        elif isinstance(one, Struct) and isinstance(other, Struct):
            if one is other:
                return
            names = [[name for name, _ in of.members or []] for of in (one, other)]
            if one.tag != other.tag or names[0] != names[1]:
                self.fault(region, one, other, at)
                return
            for (_, mine), (_, theirs) in zip(one.members or [], other.members or []):
                if isinstance(c_types.element(mine), Pointer):
                    self.same_type(mine, theirs, at, region)
        elif not (isinstance(one, Int) and isinstance(other, Int) and one.bits == other.bits):
            self.fault(region, one, other, at)
        elif one.boolean != other.boolean:
            self.fault(region, one, other, at)

    def same_signature(self, one: Signature, other: Signature, at: Optional[tree.Coord], region: Region) -> None:
        """Brings what functions of two types take and give together."""
        if one is other:
            return
        lists = [[of.result, *of.parameters] for of in (one, other)]
        if len(lists[0]) != len(lists[1]) or one.variadic or other.variadic:
            self.fault(region, one, other, at)
            return
        for mine, theirs in zip(*lists):
            if isinstance(mine, Pointer) and isinstance(theirs, Pointer):
                self.unify(mine.region, theirs.region, at)
            elif mine is not theirs and mine != theirs:
                self.fault(region, one, other, at)

    def fault(self, region: Region, one: Type, other: Type, at: Optional[tree.Coord]) -> None:
        """Objects of two types meet: they stand as bytes where both may, else the region has a fault."""
        root = region.root()
        if c_types.has_bytes(one) and c_types.has_bytes(other):
            self.as_bytes(root, [one, other], at)
            return
        root.fault = root.fault or (at, f"a pointer to {words(one)} and to {words(other)}", ADVICE)
