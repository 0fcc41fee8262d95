"""What the form of an expression or a loop shows: bounds of its values, and that it ends."""

from dataclasses import dataclass

from fshell_tools.order.tree import (
    Assign,
    Cast,
    Chain,
    Element,
    Expression,
    Kind,
    Loop,
    Name,
    Number,
    Ordered,
    Parts,
    Statement,
    Unary,
    Variable,
)

Bounds = tuple[int, int]
# a variable of the file, a parameter by its number, or a local by its name and the number of its first token
Object = tuple[str, ...]


@dataclass(frozen=True)
class Known:
    """What a name stands for: an object, its kind, and of an array its length."""

    thing: Object
    kind: Kind
    length: int | None


class Seen:
    """Scopes, from the outermost, have what names stand for; constants have bounds of their values."""

    def __init__(self) -> None:
        self.scopes: list[dict[str, Known]] = []
        self.constants: dict[str, Bounds | None] = {}

    def known(self, name: str) -> Known | None:
        """What a name stands for, the innermost scope first, or None."""
        for scope in reversed(self.scopes):
            if name in scope:
                return scope[name]
        return None

    def variable(self, one: Variable, thing: Object) -> Known:
        """What a declared variable is: the object, its kind and its length (0 where that isn't constant here)."""
        bounds = self.bounds(one.length) if one.length else None
        length = None if one.length is None else bounds[0] if bounds else 0
        return Known(thing, one.kind, length)

    def bounds(self, node: Expression) -> Bounds | None:
        """Bounds of a value by its form; None where they aren't seen."""
        if isinstance(node, Number):
            return node.value, node.value
        if isinstance(node, (Name, Element)):
            known = self.known(node.name)
            return known.kind.range if known else self.constants.get(node.name)
        if isinstance(node, Cast):
            inner, outer = self.bounds(node.inner), node.kind.range
            return inner if inner and outer[0] <= inner[0] and inner[1] <= outer[1] else outer
        if isinstance(node, Unary) and node.operator == "-":
            inner = self.bounds(node.inner)
            return (-inner[0], -inner[0]) if inner and 0 < inner[0] == inner[1] < 2**31 else None
        if isinstance(node, Chain):
            found = self.bounds(node.first)
            for operator, right in node.rest:
                found = of_operation(operator, found, self.bounds(right))
            return found
        return None

    def counts(self, loop: Loop, test: Expression | None) -> bool:
        """Whether a `for` is seen to end: a counter of its own goes by a constant to a bound, and never past its kind's range."""
        if isinstance(test, Ordered) and test.operator == "&&":
            return any(self.counts(loop, part) for part in test.parts)
        step = loop.step
        if not isinstance(step, Assign) or not isinstance(test, Chain) or len(test.rest) != 1:
            return False
        name, (comparison, limit) = step.target.name, test.rest[0]
        by = self.bounds(step.value) if step.value else (1, 1)
        known, bound = self.known(name), self.bounds(limit)
        is_counter = isinstance(step.target, Name) and isinstance(test.first, Name) and test.first.name == name
        if not is_counter or not known or known.thing[0] == "global" or not bound:
            return False
        if not by or by[0] != by[1] or by[0] <= 0 or name in assigned(loop.body):
            return False
        if bound[0] < 0 and not (known.kind.signed and known.kind.width <= 32):
            return False  # a comparison might change a value
        low, high = known.kind.range
        if step.operator == "+":
            return {"<": bound[1] + by[0] - 1, "<=": bound[1] + by[0]}.get(comparison, high + 1) <= high
        return (
            step.operator == "-" and {">": bound[0] - by[0] + 1, ">=": bound[0] - by[0]}.get(comparison, low - 1) >= low
        )


def of_operation(operator: str, a: Bounds | None, b: Bounds | None) -> Bounds | None:
    """Bounds of what an operator makes of two values."""
    if operator == "&":
        highs = [one[1] for one in (a, b) if one and one[0] >= 0]
        return (0, min(highs)) if highs else None
    if operator in ("+", "-", "*") and a and b and a[0] == a[1] and b[0] == b[1]:
        value = {"+": a[0] + b[0], "-": a[0] - b[0], "*": a[0] * b[0]}[operator]
        return (value, value) if 0 <= value < 2**31 else None
    return None


def assigned(body: Statement | None) -> set[str]:
    """The names of what the statements of a body assign to."""
    found: set[str] = set()
    agenda: list[Statement | None] = [body]
    while agenda:
        one = agenda.pop()
        if isinstance(one, Assign):
            found.add(one.target.name)
        elif isinstance(one, Parts):
            agenda += one.parts
        elif isinstance(one, Loop):
            agenda += [one.first, one.step, one.body]
    return found
