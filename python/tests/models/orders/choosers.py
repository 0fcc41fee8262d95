"""Orders: that of the profile, and all or some of those that C allows. What a program comes to by them."""

import random
from collections.abc import Sequence
from typing import Any

from tests.models.orders.expressions import Expressions
from tests.models.orders.machine import Machine
from tests.models.orders.parts import DEPTH, Chooser, Part, Stop

Outcome = tuple[
    Any, ...
]  # the end, the value, the variables of the file, how many answers were read, and perhaps the views


class Profile:
    """The profile's order: calls, && || ?: first, from left to right, then the rest."""

    def flip(self) -> bool:
        """Whether an element of a list is set behind all values."""
        return False  # each element is set as its value comes

    def of(self, root: Part, leaves: list[Part], machine: Expressions) -> Part:
        """The part that is done next of an expression."""
        return self.first(root, machine) or leaves[0]

    def rest(self, part: Part) -> Part | None:
        """The first part from the left that can be done, or None."""
        leaves: list[Part] = []
        part.ready(leaves)
        return leaves[0] if leaves else None

    def first(self, part: Part, machine: Expressions) -> Part | None:
        """The first call, logical operator or choice from the left that this profile does before all others, or
        None. Raises Stop at a call too deep, whose words FShell leaves alone."""
        if part.done:
            return None
        for one in part.needs:
            found = self.first(one, machine)
            if found or (part.form in ("logic", "cond") and not one.done):
                return found or self.rest(one)
            if part.form == "list" and not one.done:
                return self.rest(one)
        if part.form == "call":
            if machine.depth >= DEPTH and part.node.name.name in machine.functions:
                raise Stop("deep")
            return self.rest(part)
        return None


class Picker:
    """Leftmost, rightmost, random, or by a list of choices, which is kept."""

    def __init__(self, way: str, seed: int = 0, script: Sequence[int] = ()) -> None:
        self.way, self.random, self.script = way, random.Random(seed), list(script)
        self.made: list[tuple[int, int]] = []

    def number(self, many: int) -> int:
        """A number below `many`, by the way of choosing, which is noted."""
        if self.way == "left":
            return 0
        if self.way == "right":
            return many - 1
        if self.way == "random":
            return self.random.randrange(many)
        at = len(self.made)
        chosen = self.script[at] if at < len(self.script) else 0
        self.made.append((chosen, many))
        return chosen

    def flip(self) -> bool:
        """Whether the elements of a list are set behind all values: one of two, by the way of choosing."""
        return bool(self.number(2))

    def of(self, root: Part, leaves: list[Part], machine: Expressions) -> Part:
        """The part that is done next: any of those that can be, where a call is left."""
        if len(leaves) == 1 or not root.calls():
            return leaves[0]
        return leaves[self.number(len(leaves))]


def outcomes(
    unit: Any, entry: str, args: list[int], answers: list[int], most: int = 250, samples: int = 40, views: bool = False
) -> tuple[Outcome, set[Outcome], bool]:
    """By the profile's order, and by all orders (up to most runs, and then samples). Also whether these were all.

    With views also the variables of the file at the begin and end of each call, in no order."""

    def run(chooser: Chooser) -> Outcome:
        machine = Machine(unit, chooser)
        made: Outcome = machine.run(entry, args, answers)
        return made + ((tuple(sorted(machine.views)),) if views else ())

    mine = run(Profile())
    found, script, whole = {mine}, list[int](), False
    for way in ("left", "right"):
        found.add(run(Picker(way)))
    for _ in range(most):
        picker = Picker("script", 0, script)
        found.add(run(picker))
        made = picker.made
        while made and made[-1][0] + 1 >= made[-1][1]:
            made.pop()
        if not made:
            whole = True
            break
        script = [one for one, _ in made[:-1]] + [made[-1][0] + 1]
    for seed in range(0 if whole else samples):
        found.add(run(Picker("random", seed)))
    return mine, found, whole


def seen(outcome: Outcome) -> Outcome:
    """What is told of an outcome: of a run that ended otherwise than by returning, how."""
    return outcome if outcome[0] == "returned" else outcome[:1]
