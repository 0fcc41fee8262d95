"""Between which numbers the value of an integer expression lies, as its kinds, constants and loops show: so an index that is small at
all events needs no test whether it wraps."""

from typing import Optional, Union

from fshell_tools.adapt.common import c_types, tree
from fshell_tools.adapt.common.c_types import MOST_INDEX, NIL, Int
from fshell_tools.adapt.common.objects import Variable
from fshell_tools.adapt.common.tree import walk
from fshell_tools.adapt.names.constants import COMPARED, LOGICAL, SHIFTS
from fshell_tools.adapt.names.scopes import Names

Range = tuple[int, int]  # the least and the greatest number
SMALL: Range = NIL, MOST_INDEX  # numbers by which no index wraps, and null comes to none


def of_kind(kind: Int) -> Range:
    """All values of a type (6.2.5)."""
    return (-(1 << (kind.bits - 1)), (1 << (kind.bits - 1)) - 1) if kind.signed else (0, (1 << kind.bits) - 1)


def within(one: Range, other: Range) -> bool:
    """Whether all numbers of the first are numbers of the other."""
    return other[0] <= one[0] and one[1] <= other[1]


def as_kind(one: Range, kind: Int) -> Range:
    """What a conversion to a type makes of values: the same, where it has them all (6.3.1.3p1)."""
    return one if within(one, of_kind(kind)) else of_kind(kind)


STEPS = {"++": 1, "p++": 1, "--": -1, "p--": -1}
Change = Union[tree.Assignment, tree.UnaryOp]


def by_how_much(node: Change, value: Optional[int]) -> int:
    """The number that a step adds; 0 of what is none, or where it isn't known."""
    if isinstance(node, tree.UnaryOp):
        return STEPS[node.op]
    return {"+=": 1, "-=": -1}.get(node.op, 0) * (value or 0)


def conjuncts(node: Optional[tree.Expression]) -> list[tree.Expression]:
    """The operands of an `&&`, each of which is evaluated where those before it hold (6.5.13p4)."""
    if isinstance(node, tree.BinaryOp) and node.op == "&&":
        return [*conjuncts(node.left), *conjuncts(node.right)]
    return [] if node is None else [node]


class Ranges:
    """What is known of the values of expressions. `known` has the names of locals that are set once, and of counters within the
    bodies of their loops."""

    def __init__(self, names: Names) -> None:
        self.names, self.constants = names, names.constants
        self.known: dict[tree.Node, Range] = {}
        self.changes: dict[Variable, list[tree.Node]] = {}

    # ---- locals

    def local(self, node: Optional[tree.Node]) -> Optional[Variable]:
        """The local integer that a name or a declaration stands for."""
        meaning = self.names.meaning.get(node) if isinstance(node, (tree.ID, tree.Decl)) else None
        found = isinstance(meaning, Variable) and meaning.home == "local" and isinstance(meaning.type, Int)
        return meaning if isinstance(meaning, Variable) and found else None

    def learn(self, body: tree.Node) -> None:
        """Looks at the locals of a function (6.8.5.3, 6.2.4)."""
        nodes = walk(body)
        self.changes = {}
        for node in nodes:
            target = self.local(node.lvalue) if isinstance(node, tree.Assignment) else None
            if isinstance(node, tree.UnaryOp) and (node.op in STEPS or node.op == "&"):
                target = self.local(node.expr)
            if target is not None:
                self.changes.setdefault(target, []).append(node)
        uses: dict[Variable, list[tree.Node]] = {}
        for node in nodes:
            named = self.local(node) if isinstance(node, tree.ID) else None
            if named is not None:
                uses.setdefault(named, []).append(node)
        for node in nodes:
            if isinstance(node, tree.For):
                self.loop(node)
            variable = self.local(node) if isinstance(node, tree.Decl) else None
            if variable is not None and variable not in self.changes:
                self.set_once(variable, node, uses.get(variable, []))

    def set_once(self, variable: Variable, node: tree.Node, uses: list[tree.Node]) -> None:
        """A local that has its first value alone; where that was jumped over it is 0, or what it was."""
        assert isinstance(node, tree.Decl) and isinstance(variable.type, Int)
        found = self.of(node.init) if isinstance(node.init, tree.Expression) else None
        if found is not None:
            found = as_kind((min(found[0], 0), max(found[1], 0)), variable.type)
            self.known |= {one: found for one in uses}

    # ---- counters

    def begun(self, node: Optional[tree.Node], variable: Variable) -> Optional[Range]:
        """What the head of a loop gives a variable first; None where it doesn't, or changes it more than once."""
        parts: list[tree.Node] = [] if node is None else [node]
        if isinstance(node, tree.DeclList):
            parts = [*node.decls]
        elif isinstance(node, tree.ExprList):
            parts = [*node.exprs]
        given: dict[tree.Node, Optional[tree.Node]] = {}
        for one in parts:
            if isinstance(one, tree.Decl) and self.local(one) is variable:
                given[one] = one.init
            if isinstance(one, tree.Assignment) and one.op == "=" and self.local(one.lvalue) is variable:
                given[one] = one.rvalue
        others = [one for part in parts for one in walk(part) if one in self.changes[variable] and one not in given]
        first = next(iter(given.values()), None)
        if len(given) != 1 or others or not isinstance(first, tree.Expression) or not isinstance(variable.type, Int):
            return None
        found = self.of(first)
        return as_kind(found, variable.type) if found else None

    def loop(self, node: tree.For) -> None:
        """A counter within its loop, where the steps of the head alone change it there."""
        tests = conjuncts(node.cond)
        for at, test in enumerate(tests):
            variable = self.local(test.left) if isinstance(test, tree.BinaryOp) else None
            if variable is None or not isinstance(test, tree.BinaryOp):
                continue
            found = self.counted(node, test, variable)
            if found is not None:
                inside = [one for part in [*tests[at + 1 :], node.stmt] for one in walk(part)]
                self.known |= {one: found for one in inside if isinstance(one, tree.ID) and self.local(one) is variable}

    def counted(self, node: tree.For, test: tree.BinaryOp, variable: Variable) -> Optional[Range]:
        """Where a counter lies behind a test of its loop, if it is known: it goes up to an end, or down to one, and never wraps."""
        kind, changes = variable.type, self.changes.get(variable, [])
        next_ = set(walk(node.next)) if node.next is not None else set()
        steps = [one for one in changes if one in next_]
        if not isinstance(kind, Int) or kind.boolean or len(steps) != 1:
            return None
        inside = {one for part in (node.cond, node.stmt) if part is not None for one in walk(part)}
        if any(one in inside or (isinstance(one, tree.UnaryOp) and one.op == "&") for one in changes):
            return None
        step = steps[0]
        assert isinstance(step, (tree.Assignment, tree.UnaryOp))
        by = by_how_much(step, self.constants.value(step.rvalue) if isinstance(step, tree.Assignment) else None)
        first, end, other = self.begun(node.init, variable), self.of(test.right), self.constants.type_of(test.right)
        if first is None or end is None or not isinstance(other, Int):
            return None
        signed, (least, most) = c_types.common(kind, other).signed, of_kind(kind)
        if by > 0 and test.op in ("<", "<=") and first[0] >= 0 and (signed or end[0] >= 0):
            last = end[1] - (test.op == "<")
            return (first[0], last) if last + by <= most and first[0] <= last else None
        if by < 0 and test.op in (">", ">=") and (signed or min(first[0], end[0]) >= 0):
            last = end[0] + (test.op == ">")
            return (last, first[1]) if last + by >= (least if signed else 0) and last <= first[1] else None
        return None

    # ---- expressions

    def of(self, node: tree.Expression) -> Optional[Range]:
        """Where the value of an expression lies at all events; None of one that is no integer."""
        known, kind = self.constants.value(node), self.constants.type_of(node)
        if known is not None or not isinstance(kind, Int):
            return None if known is None else (known, known)
        found = self.known.get(node)
        if isinstance(node, tree.Cast):
            found = None if kind.boolean else self.of(node.expr)
        elif isinstance(node, tree.UnaryOp):
            found = self.of_unary(node)
        elif isinstance(node, tree.TernaryOp):
            both = self.of(node.iftrue), self.of(node.iffalse)
            if both[0] is not None and both[1] is not None:
                found = min(both[0][0], both[1][0]), max(both[0][1], both[1][1])
        elif isinstance(node, tree.BinaryOp):
            found = (0, 1) if node.op in COMPARED or node.op in LOGICAL else self.of_binary(node, kind)
        return of_kind(kind) if found is None else as_kind(found, kind)

    def of_unary(self, node: tree.UnaryOp) -> Optional[Range]:
        """The same of `!`, and of a sign; None of others."""
        inner = self.of(node.expr) if node.op in ("+", "-") else None
        if node.op == "!":
            return 0, 1
        return inner if inner is None or node.op == "+" else (-inner[1], -inner[0])

    def of_binary(self, node: tree.BinaryOp, kind: Int) -> Optional[Range]:
        """The same of an operation of two integers whose type is this one (6.5.5 to 6.5.12); None where nothing is known."""
        left, right = self.of(node.left), self.of(node.right)
        if left is None or right is None:
            return None
        return operated(node.op, as_kind(left, kind), right if node.op in SHIFTS else as_kind(right, kind), kind)


def operated(op: str, left: Range, right: Range, kind: Int) -> Optional[Range]:
    """What an operation makes of numbers, as long as its type has them."""
    if op in ("+", "-"):
        return (left[0] + right[0], left[1] + right[1]) if op == "+" else (left[0] - right[1], left[1] - right[0])
    if op == "&":
        tops = [one[1] for one in (left, right) if one[0] >= 0]
        return (0, min(tops)) if tops else None
    if left[0] < 0 or right[0] < 0:
        return None
    if op in ("|", "^"):
        return 0, (1 << max(left[1], right[1]).bit_length()) - 1
    if op == "*":
        return left[0] * right[0], left[1] * right[1]
    if op == "%":
        return (0, min(left[1], right[1] - 1)) if right[0] > 0 else None
    if op == "/":
        return (left[0] // right[1], left[1] // right[0]) if right[0] > 0 else None
    if right[1] >= kind.bits:
        return None
    return (left[0] >> right[1], left[1] >> right[0]) if op == ">>" else (left[0] << right[0], left[1] << right[1])
