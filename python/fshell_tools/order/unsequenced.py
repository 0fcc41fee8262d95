"""The rule over a unit: which full expressions can give different results by the orders of evaluation that C allows.

What functions do is the least fixpoint over all calls, so it is over-approximated: a part that isn't told is free of its class,
and one that is told may still have one result alone (docs/ORDER.md).
"""

from collections import deque
from collections.abc import Iterable

from fshell_tools.order.side_effects import DEPTH, Effects, Told, Walk
from fshell_tools.order.tree import Unit
from fshell_tools.order.value_ranges import Object


class Rule(Walk):
    """From an entry on; `named` are the variables that predicates read, None where these aren't known."""

    def __init__(self, unit: Unit, entry: str, named: Iterable[str] | None = ()) -> None:
        super().__init__()
        self.functions, self.named = unit.functions, None if named is None else set(named)
        self.set_constants(unit)
        for one in unit.variables:
            self.globals[one.name] = self.variable(one, ("global", one.name))
        self.depth = self.depths(entry)
        self.reached = [name for name in self.functions if name in self.depth]
        self.of_function = {name: Effects() for name in self.functions}
        self.settle()
        self.watched = self.seen_by_predicates()
        self.found = {}
        for name in self.reached:
            self.function(name)
        self.told = sorted(self.found.values(), key=lambda one: (one.at, one.kind))

    def set_constants(self, unit: Unit) -> None:
        """Bounds of the enumeration constants: a value that is seen, or the one before and 1 more."""
        last: int | None = -1
        for name, value in unit.constants:
            bounds = self.bounds(value) if value else None if last is None else (last + 1, last + 1)
            last = bounds[0] if bounds and bounds[0] == bounds[1] else None
            self.constants[name] = bounds

    def depths(self, entry: str) -> dict[str, int]:
        """The functions that the entry reaches, each with how many activations may stand in a call of it, 64 at most."""
        found, agenda = {entry: 1}, [entry]
        while agenda:
            name = agenda.pop()
            deeper = min(DEPTH, found[name] + 1)
            for other in sorted(self.functions[name].calls & self.functions.keys()):
                if found.get(other, 0) < deeper:
                    found[other] = deeper
                    agenda.append(other)
        return found

    def settle(self) -> None:
        """The effects of all functions that are reached, and what stands for their parameters."""
        called = {name: sorted(self.functions[name].calls & self.depth.keys()) for name in self.reached}
        callers: dict[str, list[str]] = {name: [] for name in self.reached}
        for name in self.reached:
            for other in called[name]:
                callers[other].append(name)
        waiting, is_waiting = deque(self.reached), set(self.reached)
        while waiting:
            name = waiting.popleft()
            is_waiting.remove(name)
            before = {other: self.lent(other) for other in called[name]}
            made, again = self.function(name), list[str]()
            if made != self.of_function[name]:
                self.of_function[name] = made
                again += callers[name]
            again += [other for other, count in before.items() if self.lent(other) != count]
            waiting.extend(other for other in dict.fromkeys(again) if other not in is_waiting)
            is_waiting.update(again)

    def lent(self, name: str) -> int:
        """How many arrays are known to be lent to a function."""
        return sum(len(self.stands.get((name, at), ())) for at in range(len(self.functions[name].parameters)))

    def seen_by_predicates(self) -> set[Object]:
        """The variables of the file and the arrays that predicates with these names may read."""
        if self.named is None:
            return set()
        found: set[Object] = {("global", name) for name in self.named}
        for (name, at), things in self.stands.items():
            if self.functions[name].parameters[at].name in self.named:
                found |= things
        return found


def told(unit: Unit, entry: str, named: Iterable[str] | None = ()) -> list[Told]:
    """All that is told of the functions that an entry reaches, in the order of the sources."""
    return Rule(unit, entry, named).told
