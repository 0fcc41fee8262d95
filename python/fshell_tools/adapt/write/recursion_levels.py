"""How many calls of a function run that calls itself: each of them has locals of its own (6.2.4p6), which lie one behind the other in
their columns. A number goes up where a call begins, and down where it returns."""

from functools import cached_property

from fshell_tools.adapt.common.objects import Function
from fshell_tools.adapt.write.component import Component


class Levels(Component):
    """The numbers of such calls."""

    @cached_property
    def names(self) -> dict[Function, str]:
        """The name of the number of each function that calls itself and has locals in columns."""
        found = [one for one in self.writer.names.functions if one in self.writer.columns.levelled]
        return {one: self.writer.spelling.fresh(f"{one.name}_level", True) for one in found}

    def front(self) -> list[str]:
        """What stands in front of all else; no call runs at first."""
        return [f"static int {name} = -1;" for name in self.names.values()]

    def begin(self, function: Function) -> None:
        """Writes that a call begins."""
        if function in self.names:
            self.writer.emit(f"{self.names[function]}++;")

    def end(self, function: Function) -> None:
        """Writes that a call returns."""
        if function in self.names:
            self.writer.emit(f"{self.names[function]}--;")
