"""Unions, and members that nothing names. A union of which all named members have the same integers is one of them; a union of
integers, and of arrays of these, up to 64 bits is one integer, whose parts its members are (6.5.2.3p3, 6.2.6.1p4, little endian)."""

from typing import Optional

from fshell_tools.adapt.common import c_types
from fshell_tools.adapt.common.c_types import Array, Int, Pointer, Struct, Type

MOST_UNNAMED = 64  # a member that nothing names and that has more integers is left out
WHOLE = "@w"  # the integer of which the members are parts


def same(one: Type, other: Type, within: bool = False) -> bool:
    """Whether objects of two types have the same integers; within structs of the same sign too."""
    if isinstance(one, Int) and isinstance(other, Int):
        if (one.width, one.boolean) != (other.width, other.boolean) or one.width and one != other:
            return False
        return one.bits == other.bits and (one.signed == other.signed or not within)
    if isinstance(one, Array) and isinstance(other, Array):
        return one.length == other.length and same(one.of, other.of, within)
    if isinstance(one, Pointer) and isinstance(other, Pointer):
        return True
    if isinstance(one, Struct) and isinstance(other, Struct) and not one.union and not other.union:
        pairs = list(zip(one.members or [], other.members or []))
        named = all(mine[0] == theirs[0] and same(mine[1], theirs[1], True) for mine, theirs in pairs)
        return one is other or named and len(one.members or []) == len(other.members or [])
    return one is other


def part_kind(of: Type) -> Optional[Int]:
    """The kind of integers of a member that can be parts of one integer."""
    inner = of.of if isinstance(of, Array) else of
    bits = c_types.size(of)
    fits = isinstance(inner, Int) and not inner.width and not inner.boolean and bits is not None and 0 < bits <= 8
    return inner if fits and isinstance(inner, Int) else None


def carried(of: Struct, named: set[str]) -> None:
    """Settles how a union is written, by the members that are named somewhere."""
    members = [one for one in of.members or [] if c_types.fault_of(one[1]) is None]
    live = [one for one in members if one[0] in named or one[0].startswith("?")]
    faulty = [name for name, member in of.members or [] if c_types.fault_of(member) is not None and name in named]
    if not faulty and live and all(same(live[0][1], one[1]) for one in live[1:]):
        of.carrier = live[0]
        return
    if not faulty and live and all(part_kind(member) for _, member in live):
        bits = max((c_types.size(member) or 0) for _, member in live) * 8
        bits = next(one for one in (8, 16, 32, 64) if one >= bits)
        of.carrier = (WHOLE, c_types.FIXED[f"uint{bits}_t"])
        return
    if not live and members:
        of.carrier = members[0]


def unions_in(of: Type) -> list[Struct]:
    """The unions within a type."""
    if isinstance(of, Array):
        return unions_in(of.of)
    if not isinstance(of, Struct):
        return []
    return [of] * of.union + [one for _, member in of.members or [] for one in unions_in(member)]


def settle(structs: list[Struct], named: set[str], initialised: list[Type]) -> None:
    """Settles unions, and which members are left out. Those with first values have them for their first member (6.7.9p17)."""
    first = {one for of in initialised for one in unions_in(of)}
    for one in structs:
        if one.union and one.members and not one.fault:
            carried(one, named | ({one.members[0][0]} if one in first else set()))
    for one in structs:
        if not one.union:
            for name, member in one.members or []:
                count = sum(leaf.count for leaf in c_types.leaves(member))
                if name not in named and not name.startswith("?") and count > MOST_UNNAMED:
                    one.dead.add(name)


def found(of: Type, name: str) -> Optional[list[str]]:
    """The members that lead to one of a name, also through members that have no name (6.7.2.1p13)."""
    if not isinstance(of, Struct):
        return None
    for own, member in of.members or []:
        if own == name:
            return [own]
        inner = found(member, name) if own.startswith("?") else None
        if inner is not None:
            return [own, *inner]
    return None
