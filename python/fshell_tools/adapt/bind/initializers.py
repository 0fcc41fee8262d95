"""Which expression gives each integer of an object its first value (6.7.9)."""

from dataclasses import dataclass, field
from collections.abc import Callable, Iterator
from typing import Optional

from fshell_tools.adapt.common import c_types, tree
from fshell_tools.adapt.common.c_types import BEGIN, END, INDEX, NIL, Array, Int, Leaf, Path, Pointer, Struct, Type
from fshell_tools.adapt.common.refusals import Refused
from fshell_tools.adapt.names.constants import Constants
from fshell_tools.adapt.names.initializer_matching import Listed, Steps, has_effect

Spot = tuple[Path, tuple[int, ...]]
PARTS = (INDEX, END, BEGIN)


@dataclass(eq=False)
class Part(tree.Expression):
    """One of the integers of a pointer's value."""

    SLOTS = ("pointer",)
    pointer: tree.Expression
    part: str
    coord: Optional[tree.Coord] = None  # the pointer's

    def __post_init__(self) -> None:
        self.coord = self.pointer.coord


def none_of(leaf: Leaf) -> str:
    """What a leaf has that was given no value: a pointer is null, an integer 0."""
    return str(NIL) if leaf.path and leaf.path[-1] == INDEX else "0"


@dataclass
class Filled:
    """The expressions by the members and the indexes that lead to what they are for, with the type of each; `wholes` are structs'
    values. `words` has the parts of what is written as one integer, by their numbers, with what each is."""

    constants: Constants
    of_type: Type
    given: dict[Spot, tree.Expression] = field(default_factory=dict)
    types: dict[Spot, Type] = field(default_factory=dict)
    wholes: list[tuple[Spot, Type, tree.Expression]] = field(default_factory=list)
    words: dict[Spot, tuple[Int, dict[int, tuple[Int, tree.Expression]]]] = field(default_factory=dict)

    @property
    def expressions(self) -> list[tree.Expression]:
        """All values, in the order of the list."""
        return [*self.given.values(), *(source for _, _, source in self.wholes)]

    def integers(self) -> Iterator[tuple[Path, tuple[int, ...], tree.Expression]]:
        """All integers that have values: the members and the indexes that lead to each, and its expression."""
        for (path, spot), one in self.given.items():
            of = self.types[(path, spot)]
            if isinstance(of, Pointer):
                yield from ((path + (part,), spot, Part(one, part)) for part in of.region.parts())
            else:
                yield path, spot, one

    def of(self, leaf: Leaf) -> dict[int, tree.Expression]:
        """The expressions of a leaf by the numbers of its elements, in the order in which they are given."""
        part = leaf.path[-1] if leaf.path and leaf.path[-1] in PARTS else ""
        found = {
            flat(spot, leaf.dims): one
            for (path, spot), one in self.given.items()
            if path == (leaf.path[:-1] if part else leaf.path)
        }
        return {at: Part(one, part) if part else one for at, one in found.items()}

    def texts(self, leaf: Leaf, text: Callable[[tree.Expression], str]) -> list[str]:
        """What is written of a leaf's first values: 0 where there is none, up to the last that is another text."""
        found = [none_of(leaf)] * leaf.count
        for at, one in self.of(leaf).items():
            found[at] = text(one)
        while len(found) > 1 and found[-1] == "0":
            found.pop()
        return found

    def fill(self, init: tree.Expression) -> None:
        """Gives the object its first value: a list, a string, an expression, or a struct's value. Raises Refused where the list
        doesn't fit it."""
        for steps, (of, one) in Listed(self.constants, self.of_type, init).found.items():
            self.put(steps, of, one)
        for spot, (carrier, parts) in self.words.items():
            self.given[spot], self.types[spot] = self.word(carrier, parts), carrier

    def put(self, steps: Steps, of: Type, init: tree.Expression) -> None:
        """Puts a value where its part is written. Raises Refused for an effect on what isn't."""
        inner, path, index = self.of_type, list[str](), list[int]()
        for count, step in enumerate(steps):
            if isinstance(step, int):
                index.append(step)
                inner = inner.of if isinstance(inner, Array) else inner
                continue
            assert isinstance(inner, Struct)
            if inner.is_parts():
                carrier = inner.type_of(inner.path_of(step))
                assert isinstance(carrier, Int) and isinstance(of, Int)
                at = steps[count + 1] if len(steps) > count + 1 else 0
                spot = (*path, inner.path_of(step)), tuple(index)
                self.words.setdefault(spot, (carrier, {}))[1][int(at)] = of, init
                return
            if step in inner.dead:
                if has_effect(init):
                    raise Refused(
                        init.coord, f"an effect in a value of {step}, which nothing uses", "use two statements"
                    )
                return
            path.append(inner.path_of(step))
            inner = inner.type_of(step)
        if isinstance(of, (Int, Pointer)):
            self.given[(tuple(path), tuple(index))], self.types[(tuple(path), tuple(index))] = init, of
        else:
            self.wholes.append(((tuple(path), tuple(index)), of, init))

    def offset(self, spot: Spot) -> int:
        """The number of the first byte of a part."""
        of, at = self.of_type, 0
        names, numbers = list(spot[0]), list(spot[1])
        while names or (numbers and isinstance(of, Array)):
            if isinstance(of, Array):
                of = of.of
                at += numbers.pop(0) * (c_types.size(of) or 0)
            else:
                assert isinstance(of, Struct)
                at += 0 if of.union else c_types.bits_of(of)[names[0]] // 8
                of = of.type_of(names.pop(0))
        return at

    def word(self, carrier: Int, parts: dict[int, tuple[Int, tree.Expression]]) -> tree.Expression:
        """The value of a union that is written as one integer, by the values of its parts, little endian. Raises Refused where it is
        no constant."""
        word = 0
        for at, (of, one) in parts.items():
            if of.bits == carrier.bits:
                return one
            known = self.constants.value(one)
            if known is None:
                raise Refused(one.coord, "a first value of a part of a union that is no constant", "assign it")
            word |= known % (1 << of.bits) << (of.bits * at)
        coord = next(one.coord for _, one in parts.values())
        return tree.Constant("int", f"{word}u" if word < 1 << 32 else f"{word}ul", coord)


def filled(constants: Constants, of: Type, init: Optional[tree.Expression]) -> Filled:
    """The first values of an object of a type. Raises Refused where the list doesn't fit it."""
    made = Filled(constants, of)
    if init is not None:
        made.fill(init)
    return made


def flat(index: tuple[int, ...], dims: tuple[int, ...]) -> int:
    """The number of an element among all of them."""
    number = 0
    for one, length in zip(index, dims):
        number = number * length + one
    return number
