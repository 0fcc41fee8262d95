"""Writes that pointers which a function leaves behind with the address of one of its locals become -1 (lifetimes.py, 6.2.4p2)."""

from collections.abc import Iterator

from fshell_tools.adapt.bind.value_texts import number
from fshell_tools.adapt.common.c_types import INDEX, Region
from fshell_tools.adapt.common.objects import Function, Variable
from fshell_tools.adapt.layout.lifetimes import Inside, inner_region
from fshell_tools.adapt.write.component import Component

MOST_ENDED = 16  # so many pointers may become -1 where a function ends


class Endings(Component):
    """What is written where a function ends."""

    def texts(self, function: Function) -> list[str]:
        """The statements by which pointers that a function leaves behind become -1."""
        made, lifetimes = list[str](), self.writer.lifetimes
        for local, region in lifetimes.ended.get(function, []):
            own = lifetimes.points.home(local).root()
            count, place = self.writer.columns.count(local.type, own), self.writer.places.of_variable(local)
            begin = self.writer.elements.index(place, True)
            assert begin is not None
            holders = dict.fromkeys(text for one in lifetimes.owned[region] for text in self.holders(one, region))
            if len(holders) > MOST_ENDED:
                lifetimes.refuse(local, Inside(region))
                continue
            for text in holders:
                bad = f"(unsigned int) ({text} - {begin.within(9)})" if number(begin) != 0 else f"(unsigned int) {text}"
                made.append(f"{text} = {text} | -({bad} <= {count});")
        return made

    def holders(self, variable: Variable, region: Region) -> Iterator[str]:
        """The pointers of a variable that lie in a region."""
        writer = self.writer
        if not writer.lifetimes.outlives(variable, None):
            return
        place = writer.places.of_variable(variable)
        index = writer.elements.index(place, True) if place.shifted() else None
        for leaf, texts in writer.pointer_effects.each_integer(place, index):
            if leaf.path and leaf.path[-1] == INDEX:
                if inner_region(writer.columns.points.home(variable), variable.type, leaf.path[:-1])[1] is region:
                    yield from texts
