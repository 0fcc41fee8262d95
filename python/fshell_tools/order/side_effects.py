"""What the parts of a function may do, and which of them C leaves without an order that matters (docs/ORDER.md)."""

from dataclasses import dataclass, field

from fshell_tools.order.tree import (
    Assign,
    Call,
    Cast,
    Chain,
    Check,
    Element,
    Expression,
    Function,
    Loop,
    Name,
    Ordered,
    Parts,
    Statement,
    Unary,
    Variable,
)
from fshell_tools.order.value_ranges import Known, Object, Seen

DEPTH = 64


@dataclass
class Effects:
    """What a part may do. `nodes` is that the automaton has nodes of it: of a call, an answer, `&&`, `||` or `?:`."""

    reads: set[Object] = field(default_factory=set)
    writes: set[Object] = field(default_factory=set)
    ends: set[str] = field(default_factory=set)
    answers: bool = False
    nodes: bool = False

    def add(self, other: "Effects") -> None:
        """Adds the effects of what is evaluated before or behind."""
        self.reads |= other.reads
        self.writes |= other.writes
        self.ends |= other.ends
        self.answers |= other.answers
        self.nodes |= other.nodes


@dataclass(frozen=True)
class Told:
    """A form, by the number of its first token, whose parts have no order, though it matters; and in which function."""

    at: int
    kind: str
    why: str
    function: str


class Walk(Seen):
    """Goes through a function, with what is known of the others."""

    def __init__(self) -> None:
        super().__init__()
        self.globals: dict[str, Known] = {}
        self.functions: dict[str, Function] = {}
        self.of_function: dict[str, Effects] = {}
        self.stands: dict[tuple[str, int], set[Object]] = {}  # the arrays that calls lend to a parameter
        self.depth: dict[str, int] = {}
        self.named: set[str] | None = set()  # what predicates read, by its name; None where it isn't known,
        self.watched: set[Object] = set()  # and those objects
        self.here: Function
        self.found: dict[tuple[int, str], Told] | None = None

    # ---- functions and statements

    def function(self, name: str) -> Effects:
        """What a call of a function may do to what outlives it."""
        self.here = self.functions[name]
        parameters = {
            one.name: self.variable(one, ("parameter", str(at))) for at, one in enumerate(self.here.parameters)
        }
        self.scopes, made = [self.globals, parameters], Effects()
        self.statement(self.here.body, made)
        made.reads = {one for one in made.reads if one[0] != "local"}
        made.writes = {one for one in made.writes if one[0] != "local"}
        return made

    def statement(self, node: Statement, made: Effects) -> None:
        """Adds what a statement may do; statements have an order, and so have the full expressions of one."""
        if isinstance(node, Parts):
            self.scopes += [{}] if node.opens else []
            for part in node.parts:
                self.statement(part, made)
            del self.scopes[len(self.scopes) - node.opens :]
        elif isinstance(node, Loop):
            self.loop(node, made)
        elif isinstance(node, Variable):
            self.declaration(node, made)
        elif isinstance(node, Assign):
            self.assignment(node, made)
        elif isinstance(node, Check):
            made.add(self.expression(node.value))
            made.ends.add("trap" if node.word == "assert" else "blocked")
        else:
            made.add(self.expression(node))

    def loop(self, node: Loop, made: Effects) -> None:
        """Walks over a loop; its effects go into `made`."""
        self.scopes.append({})
        if node.first:
            self.statement(node.first, made)
        if node.test:
            made.add(self.expression(node.test))
        if node.step:
            self.statement(node.step, made)
        self.statement(node.body, made)
        is_once = node.word == "do" and node.test is not None and self.bounds(node.test) == (0, 0)
        never = node.word == "while" and node.test is not None and self.bounds(node.test) == (0, 0)
        if not is_once and not never and not (node.word == "for" and self.counts(node, node.test)):
            made.ends.add("no end")
        self.scopes.pop()

    def declaration(self, node: Variable, made: Effects) -> None:
        """Walks over a variable and its first values; its effects go into `made`."""
        mine = self.scopes[-1][node.name] = self.variable(node, ("local", node.name, str(node.at)))
        if node.listed is not None:  # an element is set before, between or behind the others' values (6.7.9p23)
            parts = [self.expression(one) for one in node.listed]
            made.add(self.unordered(node.at, *parts, Effects(writes={mine.thing})))
        elif node.value:
            made.add(self.expression(node.value))

    def assignment(self, node: Assign, made: Effects) -> None:
        """Walks over an assignment, whose two sides C leaves in no order (6.5.16p3); its effects go into `made`."""
        target = node.target
        if isinstance(target, Element) and not node.operator:
            left = self.place(target)
        else:
            left = self.expression(target) if node.operator else Effects()
        if node.value:
            left = self.unordered(node.at, left, self.expression(node.value))
            left.ends |= self.trap(node.operator, node.value)
        made.add(left)
        known = self.known(target.name)
        if known and (known.thing[0] == "global" or isinstance(target, Element)):
            made.writes.add(known.thing)

    # ---- expressions

    def expression(self, node: Expression) -> Effects:
        """The effects of an expression; what is told of it goes to what is found."""
        if isinstance(node, Name):  # what is local to an activation no call can write
            known = self.known(node.name)
            return Effects({known.thing} if known and known.thing[0] == "global" else set())
        if isinstance(node, Element):
            made, known = self.place(node), self.known(node.name)
            made.reads |= {known.thing} if known else set()
            return made
        if isinstance(node, Chain):
            made = self.expression(node.first)
            for operator, right in node.rest:
                made = self.unordered(node.at, made, self.expression(right))
                made.ends |= self.trap(operator, right)
            return made
        if isinstance(node, Call):
            return self.call(node)
        made = Effects()
        if isinstance(node, Ordered):
            for part in node.parts:
                made.add(self.expression(part))
            made.nodes = True
        elif isinstance(node, (Unary, Cast)):
            made = self.expression(node.inner)
        return made

    def place(self, node: Element) -> Effects:
        """What finding an element may do."""
        made, bounds, known = self.expression(node.index), self.bounds(node.index), self.known(node.name)
        if not bounds or not known or bounds[0] < 0 or bounds[1] >= (known.length or 0):
            made.ends.add("trap")
        return made

    def trap(self, operator: str, right: Expression) -> set[str]:
        """The end that an operator may come to by its right operand."""
        bounds = self.bounds(right)
        if operator in ("/", "%"):
            is_safe = bounds is not None and (bounds[0] > 0 or bounds[1] < -1)
        else:
            is_safe = operator not in ("<<", ">>") or (bounds is not None and 0 <= bounds[0] and bounds[1] < 32)
        return set() if is_safe else {"trap"}

    def call(self, node: Call) -> Effects:
        """The effects of a call: those of its arguments, which C leaves in no order (6.5.2.2p10), and behind them
        the function's."""
        if node.name not in self.functions:
            return Effects(answers=True, nodes=True)
        parts, lent = [], dict[Object, Object]()
        for at, one in enumerate(node.arguments):
            known = self.known(one.name) if isinstance(one, Name) else None
            if known and known.length is not None:
                lent["parameter", str(at)] = known.thing
                self.stands.setdefault((node.name, at), set()).update(self.meant(known.thing))
            else:
                parts.append(self.expression(one))
        made, does = self.unordered(node.at, *parts), self.of_function[node.name]
        if self.depth[self.here.name] >= DEPTH:
            if made.ends - {"too deep"}:  # the profile asks for the depth before the arguments have their values
                self.tell(node.at, "end", "the call may be too deep, and an argument may end the run otherwise")
            made.ends.add("too deep")
        reads, writes = ({lent.get(one, one) for one in part} for part in (does.reads, does.writes))
        made.add(Effects(reads, writes, does.ends, does.answers, True))
        return made

    # ---- the rule

    def unordered(self, at: int, *parts: Effects) -> Effects:
        """What parts do together that C leaves without an order; where it matters, that is told."""
        made = Effects()
        for one in parts:
            if self.found is not None:
                self.compare(at, made, one)
            made.add(one)
        return made

    def compare(self, at: int, one: Effects, two: Effects) -> None:
        """Tells of two parts without an order what one does that the other would see."""
        for a, b in ((one, two), (two, one)):
            written = [w for w in sorted(a.writes) if any(self.same(w, other) for other in b.reads | b.writes)]
            if written:
                self.tell(at, "value", f"one part writes {self.face(written[0])}, and another reads or writes it")
            watched = [w for w in sorted(a.writes) if b.nodes and self.is_watched(w)]
            if watched:
                why = f"one part writes {self.face(watched[0])}, which a predicate reads, and another has nodes"
                self.tell(at, "watched", why)
            if a.ends and (b.writes or b.nodes):
                self.tell(at, "strict", f"one part may end the run ({listed(a.ends)}), and another does something")
        if one.answers and two.answers:
            self.tell(at, "answers", "two parts take answers")
        if one.ends and two.ends and len(one.ends | two.ends) > 1:
            self.tell(at, "end", f"two parts may end the run, and in several ways ({listed(one.ends | two.ends)})")

    def tell(self, at: int, kind: str, why: str) -> None:
        """Notes a class at a token, once, where something is looked for."""
        if self.found is not None:
            self.found.setdefault((at, kind), Told(at, kind, why, self.here.name))

    def meant(self, thing: Object) -> set[Object]:
        """What an object of this function may be, whichever function looks at it."""
        if thing[0] == "parameter":
            return self.stands.get((self.here.name, int(thing[1])), set())
        return {thing if thing[0] == "global" else (self.here.name, *thing)}

    def same(self, one: Object, two: Object) -> bool:
        """A parameter is no local array of its own activation, since it was lent before that began to stand."""
        if one == two or "local" in (one[0], two[0]):
            return one == two
        return not self.meant(one).isdisjoint(self.meant(two))

    def is_watched(self, thing: Object) -> bool:
        """Whether a predicate may read an object."""
        if self.named is None or self.face(thing) in self.named:
            return True
        return not self.watched.isdisjoint(self.meant(thing))

    def face(self, thing: Object) -> str:
        """An object's name."""
        return self.here.parameters[int(thing[1])].name if thing[0] == "parameter" else thing[1]


def listed(ends: set[str]) -> str:
    """The ends of runs, as a list of words in order."""
    return ", ".join(sorted(ends))
