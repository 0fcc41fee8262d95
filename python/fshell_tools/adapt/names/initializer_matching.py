"""Which value a list of first values gives each part of an object, in order and by designators, also without braces of its own; of two
values of one part the later one counts (6.7.9p17 to p22)."""

from collections.abc import Sequence
from dataclasses import dataclass
from typing import TYPE_CHECKING, Union

from fshell_tools.adapt.common import c_types, tree
from fshell_tools.adapt.common.c_types import Array, Int, Other, Struct, Type
from fshell_tools.adapt.common.refusals import Refused
from fshell_tools.adapt.names import unions

if TYPE_CHECKING:
    from fshell_tools.adapt.names.constants import Constants

Steps = tuple[Union[int, str], ...]  # what leads to a part: the numbers of elements, and the names of members
EFFECTS = ("++", "--", "p++", "p--")


def has_effect(node: tree.Expression) -> bool:
    """Whether an expression may have an effect."""
    return any(
        isinstance(one, (tree.FuncCall, tree.Assignment, tree.StatementExpr))
        or (isinstance(one, tree.UnaryOp) and one.op in EFFECTS)
        for one in tree.walk(node)
    )


def same_struct(one: Type, other: Type) -> bool:
    """Whether two structs are one, which several sources may read from one header."""
    if not isinstance(one, Struct) or not isinstance(other, Struct):
        return False
    names = [[name for name, _ in of.members or []] for of in (one, other)]
    return one is other or (one.tag == other.tag and names[0] == names[1])


@dataclass
class Begun:
    """An object whose parts get values one after the other: the steps to it, and the number of its next part."""

    of: Type
    steps: Steps
    at: int = 0

    @property
    def is_over(self) -> bool:
        """Whether all of its parts had their values; a union has one of them."""
        if isinstance(self.of, Array):
            return self.of.length is not None and self.at >= self.of.length
        return not isinstance(self.of, Struct) or self.at >= (1 if self.of.union else len(self.of.members or []))


class Listed:
    """The values of a list for an object. `found` has those of integers and pointers, and of structs that are given whole, by the
    steps to them, each with the type of the part; `length` is how many elements an array has that has no length of its own.
    """

    def __init__(self, constants: "Constants", of: Type, init: tree.Expression) -> None:
        """Raises Refused where the list doesn't fit the object, or C leaves open what it gives."""
        self.constants = constants
        self.found: dict[Steps, tuple[Type, tree.Expression]] = {}
        self.reached: set[Steps] = set()
        self.wholes: set[Steps] = set()
        self.length = 0
        self.give(of, (), init)

    def give(self, of: Type, steps: Steps, init: tree.Expression) -> None:
        """An object gets the value that stands for it alone: a list, a string, a struct or an expression. Raises Refused for several
        values of an integer or a pointer."""
        if isinstance(init, tree.CompoundLiteral) and isinstance(of, (Array, Struct)):
            init = init.init  # (which has the same values, 6.5.2.5p7)
        if not isinstance(init, tree.InitList):
            self.put(of, steps, init)
            return
        items = init.exprs or []
        self.forget(steps)
        if isinstance(of, Array) and len(items) == 1 and self.is_text(of, items[0]):
            self.put(of, steps, items[0])
        elif isinstance(of, (Array, Struct)):
            self.in_order(of, steps, items)
        elif isinstance(of, Other):
            for one in items:
                self.put(of, steps, one)
        elif len(items) != 1:
            raise Refused(init.coord, "a list of values for an integer or a pointer", "give one value")
        else:
            self.give(of, steps, items[0])

    def is_text(self, of: Type, init: tree.Expression) -> bool:
        """Whether a value is a string that fills an array (6.7.9p14 and p15)."""
        if not isinstance(of, Array) or not isinstance(of.of, Int) or not isinstance(init, tree.Constant):
            return False
        given = self.constants.type_of(init) if init.type == "string" else None
        return isinstance(given, Array) and isinstance(given.of, Int) and given.of.bits == of.of.bits

    def put(self, of: Type, steps: Steps, init: tree.Expression) -> None:
        """Keeps a value; of a string each character. Raises Refused for an effect on what has no integers."""
        if isinstance(of, Array) and self.is_text(of, init):
            assert isinstance(init, tree.Constant)
            texts = self.constants.characters(init)[: of.length]
            self.forget(steps)
            self.length = self.length if steps else len(texts)
            for at, code in enumerate(texts):
                self.keep(of.of, steps + (at,), tree.Constant("int", str(code), init.coord))
            return
        if isinstance(of, Other):  # (which has no integers, so it gets no value)
            if has_effect(init):
                raise Refused(init.coord, "an effect in a value of what isn't written", "use two statements")
            return
        self.keep(of, steps, init)

    def keep(self, of: Type, steps: Steps, init: tree.Expression) -> None:
        """Keeps the value of a part in place of older ones. Raises Refused where a part is named of a struct that was given whole,
        since compilers differ in what its other parts have then."""
        self.forget(steps)
        if self.wholes and any(steps[:count] in self.wholes for count in range(len(steps))):
            raise Refused(init.coord, "a value of a part of what was given whole before", "give its parts one by one")
        self.found[steps] = of, init
        self.reached.update(steps[:count] for count in range(len(steps) + 1))
        if not isinstance(of, (Int, c_types.Pointer)):
            self.wholes.add(steps)

    def forget(self, steps: Steps) -> None:
        """Takes away what a part was given before. Raises Refused where that has an effect, which C leaves open whether it is
        evaluated (6.7.9p19, note)."""
        if steps not in self.reached:
            return
        for one in [one for one in self.found if one[: len(steps)] == steps]:
            init = self.found.pop(one)[1]
            self.wholes.discard(one)
            if has_effect(init):
                raise Refused(init.coord, "an effect in a value that a later one replaces", "leave one of them out")

    # ---- the next part

    def enter(self, begun: Begun, number: int, node: tree.Expression) -> tuple[Type, Steps]:
        """The part of a number, behind which the next one follows; of a union it is the only one. Raises Refused where there is
        none."""
        begun.at = number + 1
        of, steps = begun.of, begun.steps
        if isinstance(of, Array) and 0 <= number and (of.length is None or number < of.length):
            if of.length is None and steps:
                raise Refused(node.coord, "values of an array without a length", "give its length")
            self.length = self.length if steps else max(self.length, number + 1)
            return of.of, steps + (number,)
        members = (of.members or []) if isinstance(of, Struct) else []
        if not 0 <= number < len(members):
            raise Refused(node.coord, "more values than there are members or elements", "leave them out")
        if isinstance(of, Struct) and of.union:
            for name, _ in members[:number] + members[number + 1 :]:
                self.forget(steps + (name,))
        return members[number][1], steps + (members[number][0],)

    def numbers(self, of: Type, designator: tree.Expression) -> list[int]:
        """The number of the element or member that a designator names, behind those of members without a name that lead there
        (6.7.9p7). Raises Refused for a designator that is no constant, or no member."""
        found: list[int] = []
        if isinstance(of, Struct) and isinstance(designator, tree.ID):
            for name in unions.found(of, designator.name) or []:
                members = (of.members or []) if isinstance(of, Struct) else []
                found.append([own for own, _ in members].index(name))
                of = members[found[-1]][1]
            if not found:
                raise Refused(designator.coord, f"the member {designator.name}", "use a struct")
            return found
        known = self.constants.value(designator)
        if known is None:
            raise Refused(designator.coord, "a designator that is no constant", "give a number")
        return [known]

    def in_order(self, of: Type, steps: Steps, items: Sequence[tree.Expression]) -> None:
        """The parts of an array or a struct get the values of a list; behind a designator the next ones follow it (6.7.9p17). Raises
        Refused where there are more values than parts."""
        stack = [Begun(of, steps)]
        for item in items:
            if isinstance(item, tree.NamedInitializer):
                stack, part = [], (of, steps)
                for designator in item.name:
                    for number in self.numbers(part[0], designator):
                        stack.append(Begun(*part))
                        part = self.enter(stack[-1], number, item)
                self.without_braces(stack, part, item.expr)
                continue
            while len(stack) > 1 and stack[-1].is_over:
                stack.pop()
            if isinstance(stack[-1].of, Struct) and stack[-1].is_over:
                raise Refused(item.coord, "more values than there are members or elements", "leave them out")
            self.without_braces(stack, self.enter(stack[-1], stack[-1].at, item), item)

    def without_braces(self, stack: list[Begun], part: tuple[Type, Steps], init: tree.Expression) -> None:
        """A part gets a value, which may be that of its own first part (6.7.9p20)."""
        while not self.fits(part[0], init):
            stack.append(Begun(*part))
            part = self.enter(stack[-1], 0, init)
        self.give(*part, init)

    def fits(self, of: Type, init: tree.Expression) -> bool:
        """Whether a value is one of a part whole."""
        if isinstance(init, (tree.InitList, tree.NamedInitializer)) or not isinstance(of, (Array, Struct)):
            return True
        if self.is_text(of, init):
            return True
        given = self.constants.type_of(init)
        return same_struct(of, given) or (isinstance(of, Array) and isinstance(init, tree.CompoundLiteral))
