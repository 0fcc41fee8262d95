"""Calls of functions that no source defines: input functions, and those that were named as such."""

from typing import TYPE_CHECKING, Optional

from fshell_tools.adapt.bind.lvalues import arguments
from fshell_tools.adapt.bind.value_texts import PRIMARY, Value
from fshell_tools.adapt.common import tree
from fshell_tools.adapt.common.c_types import Array, Int, Pointer
from fshell_tools.adapt.common.objects import Function, Place
from fshell_tools.adapt.common.refusals import Refused
from fshell_tools.adapt.effects.undefined_functions import handed, is_of_pointer, takes_const
from fshell_tools.adapt.write.component import Component

if TYPE_CHECKING:
    from fshell_tools.adapt.write.writer import Writer


class OutsideCalls(Component):
    """The calls of functions that no source defines. `keeping` are those that are handed objects with pointers, which stay."""

    def __init__(self, writer: "Writer") -> None:
        super().__init__(writer)
        self.keeping: dict[Function, None] = {}

    def outer_call(self, node: tree.FuncCall, function: Function) -> tuple[str, list[str]]:
        """A call of a function that no source defines: an input function, or one that was named as such. Behind it
        stand the values that objects get by it. Raises Refused where an object is handed over that it may change."""
        after: list[str] = []
        if function.name in self.writer.inputs:
            for number, argument in enumerate(arguments(node)):
                place = handed(self.writer.places, function, number, argument)
                if place is not None:
                    after += self.given_values(function, place)
                elif self.may_change(function, number, argument):
                    raise Refused(
                        argument.coord or node.coord,
                        f"an object is handed to {function.name}, which no source defines",
                        "give the source that defines it, or declare that it takes a pointer to const",
                    )
                if not isinstance(argument, tree.Constant):
                    self.writer.assignments.effect(argument)
        else:
            self.check_outer(function, node.coord)
        return f"{self.writer.at(node)}{function.out}()", after

    def given_values(self, function: Function, place: Place) -> list[str]:
        """Gives each integer of an object a value that is an input; its pointers stay."""
        index, found = self.writer.elements.index(place, True), []
        for leaf, texts in self.writer.elements.integers(place, index):
            if is_of_pointer(leaf):
                self.keeping[function] = None
                continue
            key = (function, leaf.kind.text)
            if key not in self.writer.outer_values:
                self.writer.outer_values[key] = self.writer.spelling.fresh(f"{function.name}_gives", True)
            value = self.writer.conversions.converted(
                Value(f"{self.writer.outer_values[key]}()", leaf.kind, PRIMARY, calls=True), leaf.kind
            )
            found += [f"{text} = {value.text};" for text in texts]
        return found

    def check_outer(self, function: Function, coord: Optional[tree.Coord]) -> None:
        """Refuses a function that no source defines and that is no input function. Raises Refused then."""
        named = function.name in self.writer.inputs
        if (function.parameters or function.variadic) and not named or not isinstance(function.result, Int):
            advice = f"give the source that defines it, or name it (--input {function.name}) where its arguments don't matter and it changes no object"
            raise Refused(coord, f"no source defines {function.name}", advice)

    def may_change(self, function: Function, number: int, argument: tree.Expression) -> bool:
        """Whether a function that no source defines may change an object of these sources by an argument."""
        if not isinstance(self.writer.constants.type_of(argument), (Pointer, Array)) or self.writer.pointers.is_null(
            argument
        ):
            return False
        if isinstance(argument, tree.Constant) or self.writer.elements.stands(argument):
            return not isinstance(argument, tree.Constant)
        region = self.writer.columns.pointer(argument).region.root()
        ours = bool(region.objects) or region in self.writer.columns.inner
        return ours and not takes_const(function, number)
