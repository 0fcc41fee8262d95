"""The parts of a full expression: a part is ready once those that it needs are done."""

from collections.abc import Sequence
from typing import TYPE_CHECKING, Any, Protocol

from pycparser import c_ast

from tests.models.orders.values import INT, Kind, Value

if TYPE_CHECKING:
    from tests.models.orders.expressions import Expressions

TURNS, DEPTH = 400, 64


class Stop(Exception):
    """The run has ended: a trap, an assumption that fails, too many turns or activations."""


class Jump(Exception):
    """Control leaves a statement: return, break or continue, with a value."""


class Cell:
    """A variable: its kind, its length (0 of one that is no array), its values, and those that it has first."""

    def __init__(self, of: Kind, length: int = 0, values: Sequence[int] = ()) -> None:
        self.kind, self.length = of, length
        self.values = list(values) + [0] * ((length or 1) - len(values))
        self.first = list(self.values)


Env = list[dict[str, Cell]]  # the scopes, the innermost last


class Part:
    """A part, by its form: read, place, call, logic, cond, list or pure. `env` has the scopes of what is still to become parts
    (logic, cond), `whole` the operator and the kind of an assignment, `is_read` says that a place is read too, `store` has the
    variable and the elements of a list that are set as their values come."""

    def __init__(
        self, form: str, node: Any, needs: list["Part"], cell: Cell | None = None, is_read: bool = False
    ) -> None:
        self.form, self.node, self.needs, self.is_read = form, node, needs, is_read
        self.cell = cell or Cell(INT)
        self.env: Env = []
        self.whole: tuple[str, Kind] | None = None
        self.store: tuple[Cell, list[Part]] | None = None
        self.arguments: list[Cell | None] = []
        self.done, self.trap, self.touched, self.kept = False, False, False, False
        self.value: Value = (0, INT)
        self.index = 0

    def ready(self, out: list["Part"]) -> None:
        """Adds the parts that can be done now."""
        if self.done:
            return
        wait = [one for one in self.needs if not one.done]
        if self.form == "list" and any(one.begun() for one in wait):  # the expressions of a list don't interleave
            wait = [one for one in wait if one.begun()]
        for one in wait:
            one.ready(out)
        if not wait:
            out.append(self)

    def begun(self) -> bool:
        """Whether something of it is done, but not all."""
        return not self.done and (self.touched or any(one.done or one.begun() for one in self.needs))

    def calls(self) -> bool:
        """Whether a call, a logical operator or a choice of it is still to be done."""
        return not self.done and (self.form in ("call", "logic", "cond") or any(one.calls() for one in self.needs))


class Chooser(Protocol):
    """What says in which order the parts of an expression are done."""

    def flip(self) -> bool:
        """Whether the elements of a list are set behind all values."""

    def of(self, root: Part, leaves: list[Part], machine: "Expressions") -> Part:
        """The part that is done next, one of the leaves."""


def has_call(node: Any) -> bool:
    """Whether a call stands in a tree."""
    if id(node) not in node_has:
        inner = any(has_call(child) for _, child in node.children())
        node_has[id(node)] = node, inner or isinstance(node, c_ast.FuncCall)
    return node_has[id(node)][1]


node_has: dict[int, tuple[Any, bool]] = {}  # by identity, with the node, so that no other one gets its identity
