"""The edges of a unit by the table of docs/GRAPH.md, each with the operations that are done along it.

`graph` prints edges, but not what is evaluated along them. So the edges are made here again, from the unit as it is read
here, and compared with those that `graph` prints, one by one: number, ends, location, kind of statement, operation, names that are
read and written. Only where all are the same each operation belongs to exactly one edge, and each edge has all of its operations.
"""

from collections.abc import Iterator, Sequence
from contextlib import contextmanager
from dataclasses import dataclass, field, replace

from fshell_tools.core.graph import Edge, Graph
from fshell_tools.core.program import Failure
from fshell_tools.order.tokens import Word
from fshell_tools.order.tree import (
    Assign,
    Call,
    Cast,
    Chain,
    Check,
    Element,
    Expression,
    Loop,
    Name,
    Number,
    Ordered,
    Parts,
    Statement,
    Unary,
    Unit,
    Variable,
)

FAILING = ("/", "%", "<<", ">>")
KINDS = {"": "EMPTY", ";": "EMPTY", ":": "LABEL", "declaration": "DECL", "break": "JUMP", "continue": "JUMP"}


@dataclass(frozen=True)
class Step:
    """An edge that the table makes: its ends, the number of the token that it has its location of, the kind of its statement,
    its operation with the function's name, the names that are written and read along it, and what is evaluated there: the
    marks of operations that may fail, by the numbers of their tokens."""

    source: int
    target: int
    at: int
    kind: str
    operation: str
    writes: frozenset[str] = frozenset()
    reads: frozenset[str] = frozenset()
    marks: tuple[int, ...] = ()
    uses: frozenset[tuple[int, int]] = frozenset()  # tokens of names that are read, each with its object
    unset: int = -1  # the object that a declaration leaves without a value
    whole: int = -1  # the object that gets a value as a whole
    call: int = -1  # of the edge of a call, the number of the call's first token
    gives: bool = False  # it returns a value
    is_dead: bool = False  # a guard that a constant never lets pass


@dataclass
class Scope:
    """The names that a scope declares, each with its object: the token of its declarator, or -1 of one that is no automatic
    object without a parameter's value. `node` is where the scope begins."""

    node: int
    objects: dict[str, int] = field(default_factory=dict)


def names_in(one: Expression | None) -> Iterator[tuple[int, str]]:
    """The names of what is read where an expression is evaluated, each with its token, but for its calls, `&&`, `||` and
    `?:`, which are evaluated before."""
    if isinstance(one, (Name, Element)):
        yield one.at, one.name
    for part in parts_of(one):
        yield from names_in(part)


def parts_of(one: Expression | None) -> list[Expression]:
    """The operands that are evaluated together with an expression."""
    if isinstance(one, Element):
        return [one.index]
    if isinstance(one, (Unary, Cast)):
        return [one.inner]
    return [one.first, *(right for _, right in one.rest)] if isinstance(one, Chain) else []


def marks_in(one: Expression | None) -> Iterator[int]:
    """The marks of the operations that may fail where an expression is evaluated, as `names_in` has it."""
    for part in parts_of(one):
        yield from marks_in(part)
    if isinstance(one, Element):
        yield one.at + 1
    if isinstance(one, Chain):
        yield from (mark for (operator, _), mark in zip(one.rest, one.marks) if operator in FAILING)


def folded(one: Ordered) -> tuple[Expression, Expression, Expression | None]:
    """The two or three operands of a row of `&&`, `||` (which group to the left) or `?:` (to the right)."""
    parts = one.parts
    if one.operator == "?:":
        rest = parts[2] if len(parts) == 3 else Ordered(parts[2].at, "?:", parts[2:])
        return parts[0], parts[1], rest
    return parts[0] if len(parts) == 2 else Ordered(one.at, one.operator, parts[:-1]), parts[-1], None


class Lowering:
    """Makes the edges of all functions of a unit, in the order of the automaton. `names` are the functions in its order."""

    def __init__(self, unit: Unit, names: Sequence[str]) -> None:
        self.unit, self.numbers = unit, {name: number for number, name in enumerate(names)}
        self.nodes, self.steps = 2 * len(names), list[Step]()
        self.at, self.kind = 0, ""  # of the innermost statement
        self.after, self.again = -1, -1  # where `break` and `continue` lead
        self.exit = 0
        self.owners: list[str] = []
        self.scopes: list[Scope] = []
        self.born: dict[int, set[int]] = {}  # by the node where a scope begins, its objects
        self.arrays = set[int]()  # the objects that are arrays
        self.used = set[int]()  # the first tokens of calls whose results are used
        self.named: dict[tuple[str, str], set[int]] = {}  # by a function and a name there, all objects that it means
        self.name = ""
        for name in names:
            self.function(name)

    def function(self, name: str) -> None:
        """Makes the edges of a function."""
        one, number = self.unit.functions[name], self.numbers[name]
        self.exit, self.name = 2 * number + 1, name
        with self.scope(2 * number) as scope:
            scope.objects |= {parameter.name: -1 for parameter in one.parameters}
            if one.body.parts:
                self.block(one.body.parts, 2 * number, self.exit)
            else:
                self.at, self.kind = one.at, "EMPTY"
                self.step(2 * number, self.exit, "skip")
        self.owners += [name] * (len(self.steps) - len(self.owners))

    @contextmanager
    def scope(self, node: int) -> Iterator[Scope]:
        """A scope that begins at a node (C11 6.2.1p4): each time a run comes there, its objects are new ones (6.2.4p6)."""
        self.scopes.append(Scope(node))
        yield self.scopes[-1]
        self.scopes.pop()

    def object(self, name: str) -> int:
        """The number of the object that a name means: -1 where it is a parameter, or isn't declared in the function."""
        found = next((scope.objects[name] for scope in reversed(self.scopes) if name in scope.objects), -1)
        self.named.setdefault((self.name, name), set()).add(found)
        return found

    def node(self) -> int:
        """Makes one; the number is its place among all nodes."""
        self.nodes += 1
        return self.nodes - 1

    def step(self, source: int, target: int, operation: str, at: int | None = None, target_of: Statement | None = None,
             values: Sequence[Expression | None] = (), sets: bool = True, call: int = -1) -> None:  # fmt: skip
        """Makes an edge; its location is that of the innermost statement, where no token `at` is given. `target_of` is the
        variable or element that is written, `values` what is evaluated (of a call, its arguments; `call` is its token). A
        declaration that leaves the variable without a value doesn't set it (`sets`)."""
        name = target_of.name if isinstance(target_of, (Name, Element, Variable)) else ""
        index = target_of.index if isinstance(target_of, Element) else None
        meant = self.object(name) if name else -1
        found = -1 if isinstance(target_of, Element) else meant
        reads = {*names_in(index), *(one for value in values for one in names_in(value))}
        uses = frozenset((token, self.object(one)) for token, one in reads)
        marks = [*marks_in(index), *(one for value in values for one in marks_in(value))]
        marks += [target_of.at + 1] if isinstance(target_of, Element) else []
        made = Step(source, target, self.at if at is None else at, self.kind, operation, frozenset([name] if name else []),
                    frozenset(one for _, one in reads), tuple(dict.fromkeys(marks)), uses, -1 if sets else found,
                    found if sets else -1, call)  # fmt: skip
        self.steps.append(made)

    # ---- expressions

    def pure(self, one: Expression | None, at: int) -> int:
        """Makes what is done before an expression is a value; the node at which it is."""
        if isinstance(one, Call):
            made = self.node()
            self.used.add(one.at)
            self.call(one, at, made)
            return made
        if isinstance(one, Ordered):
            return self.chosen(one, at)
        for part in parts_of(one):
            at = self.pure(part, at)
        return at

    def call(self, one: Call, at: int, target: int) -> None:
        """Makes the edges of a call, with those of its arguments."""
        for argument in one.arguments:
            at = self.pure(argument, at)
        if one.name not in self.numbers:
            self.step(at, target, f"answer {one.name}", call=one.at)
            return
        number = self.numbers[one.name]
        self.step(at, 2 * number, f"call {one.name}", values=one.arguments, call=one.at)
        self.step(2 * number + 1, target, f"return {one.name}")

    def chosen(self, one: Ordered, at: int) -> int:
        """Makes the edges of `&&`, `||` and `?:` as values."""
        yes, no, made = self.node(), self.node(), self.node()
        if one.operator != "?:":
            self.condition(one, at, yes, no)
            self.step(yes, made, "assign")
            self.step(no, made, "assign")
            return made
        first, second, third = folded(one)
        self.condition(first, at, yes, no)
        self.step(self.pure(second, yes), made, "assign", values=[second])
        self.step(self.pure(third, no), made, "assign", values=[third])
        return made

    def condition(self, one: Expression, at: int, yes: int, no: int) -> None:
        """Makes what leads to `yes` where an expression holds, and to `no` where it doesn't."""
        if isinstance(one, Unary) and one.operator == "!":
            self.condition(one.inner, at, no, yes)
        elif isinstance(one, Ordered) and one.operator in ("&&", "||"):
            first, second, _ = folded(one)
            middle = self.node()
            self.condition(first, at, *((middle, no) if one.operator == "&&" else (yes, middle)))
            self.condition(second, middle, yes, no)
        else:
            at = self.pure(one, at)
            for target, holds in ((yes, True), (no, False)):
                self.step(at, target, f"guard {'true' if holds else 'false'}", one.at, values=[one])
                if isinstance(one, Number) and (one.value != 0) != holds:
                    self.steps[-1] = replace(self.steps[-1], is_dead=True)

    # ---- statements

    def block(self, parts: Sequence[Statement], at: int, target: int) -> None:
        """Makes a row of statements; of none, an edge of the innermost statement."""
        rows = [one for part in parts for one in self.flat(part)]
        if not rows:
            self.step(at, target, "skip")
        for number, (place, one) in enumerate(rows):
            behind = self.node() if number + 1 < len(rows) else target
            self.statement(one, at, behind, place)
            at = behind

    def flat(self, part: Statement) -> Iterator[tuple[int, Statement]]:
        """The statements that one of a block counts as, each with its first token: a declaration has one for each
        declarator."""
        if isinstance(part, Parts) and part.word == "declaration":
            yield from ((part.at, one) for one in part.parts)
        else:
            yield part.at, part

    def statement(self, one: Statement, at: int, target: int, place: int) -> None:
        """Makes a statement, whose first token is `place`."""
        self.at = place
        if isinstance(one, Variable):
            self.kind = "DECL"
            self.declaration(one, at, target)
        elif isinstance(one, Assign):
            self.kind = "ASSIGN"
            self.assignment(one, at, target)
        elif isinstance(one, Check):
            self.kind = one.word.upper()
            at = self.pure(one.value, at)
            self.step(at, target, one.word, values=[one.value])
        elif isinstance(one, Call):
            self.kind = "CALL"
            self.call(one, at, target)
        elif isinstance(one, Loop):
            self.kind = one.word.upper()
            self.loop(one, at, target, place)
        elif isinstance(one, Parts):
            self.kind = KINDS.get(one.word, one.word.upper())
            self.others(one, at, target)

    def others(self, one: Parts, at: int, target: int) -> None:
        """Makes a block, an `if`, a `switch`, a label, a `return` or a jump."""
        if one.word == "if":
            self.choice(one, at, target)
        elif one.word == "switch":
            self.switch(one, at, target)
        elif one.word == ":":
            inner = self.node()
            self.step(at, inner, "skip")
            self.within(one.parts[0], inner, target)
        elif one.word == "return":
            value = expression(one.parts[0]) if one.parts else None
            at = self.pure(value, at)
            self.step(at, self.exit, "assign" if one.parts else "skip", values=[value])
            self.steps[-1] = replace(self.steps[-1], gives=bool(one.parts))
        elif one.word in ("break", "continue"):
            self.step(at, self.after if one.word == "break" else self.again, "skip")
        elif one.word == ";":
            self.step(at, target, "skip")
        elif one.opens:
            with self.scope(at):
                self.block(one.parts, at, target)
        else:
            self.block(one.parts, at, target)

    def within(self, part: Statement, at: int, target: int) -> None:
        """Makes the statement of an arm, a loop or a label."""
        if (
            isinstance(part, Parts)
            and part.opens
            and not part.word
            and len(part.parts) == 1
            and part.at == part.parts[0].at
        ):
            part = part.parts[0]
        with self.scope(at):
            self.statement(part, at, target, part.at)

    def declaration(self, one: Variable, at: int, target: int) -> None:
        """Lowers an initialised name. Its object is set by its last value; what is read before isn't (C11 6.2.1p7, 6.7.9p23)."""
        self.scopes[-1].objects[one.name] = one.at
        self.born.setdefault(self.scopes[-1].node, set()).add(one.at)
        if one.length is None:
            at = self.pure(one.value, at)
            self.step(at, target, "assign", target_of=one, values=[one.value], sets=one.value is not None)
            return
        self.arrays.add(one.at)
        values = one.listed or []
        behind = self.node() if values else target
        self.step(at, behind, "clear", target_of=one, sets=one.listed is not None and not values)
        for number, value in enumerate(values):
            at, behind = behind, self.node() if number + 1 < len(values) else target
            at = self.pure(value, at)
            self.step(at, behind, "assign", target_of=one, values=[value], sets=number + 1 == len(values))

    def assignment(self, one: Assign, at: int, target: int) -> None:
        """Makes an assignment or a step."""
        place = one.target
        at = self.pure(place.index, at) if isinstance(place, Element) else at
        at = self.pure(one.value, at)
        self.step(at, target, "assign", target_of=place, values=[*([place] if one.operator else []), one.value])
        if one.operator in FAILING:
            last = self.steps[-1]
            self.steps[-1] = replace(last, marks=(*last.marks, one.mark))

    def choice(self, one: Parts, at: int, target: int) -> None:
        """Makes an `if` with its arms."""
        parts, place, here = one.parts, one.at, at
        arms = len(parts) // 2
        for number in range(arms):
            self.at, self.kind = place, "IF"
            yes = self.node()
            no = target if 2 * number + 2 >= len(parts) else self.node()
            self.condition(expression(parts[2 * number]), here, yes, no)
            self.within(parts[2 * number + 1], yes, target)
            here = no
        if len(parts) % 2:
            self.within(parts[-1], here, target)

    def loop(self, one: Loop, at: int, target: int, place: int) -> None:
        """Lowers an iteration statement, which is a scope (C11 6.8.5p5)."""
        with self.scope(at):
            self.turns(one, at, target, place)

    def turns(self, one: Loop, at: int, target: int, place: int) -> None:
        """Makes the edges of a loop."""
        before = self.after, self.again
        if one.first:
            behind = self.node()
            self.block([one.first], at, behind)
            at, self.at, self.kind = behind, place, "FOR"
        head, body, last = self.node(), self.node(), self.node()
        self.after, self.again = target, body if one.word == "do" else last
        if one.word == "do":
            self.do(one, at, target, (head, body, last), place)
        else:
            self.step(at, head, "skip")
            if one.test:
                self.condition(one.test, head, body, target)
            else:
                self.step(head, body, "skip")
            self.within(one.body, body, last)
            if one.step:
                behind = self.node()
                self.statement(one.step, last, behind, one.step.at)
                last = behind
            self.at, self.kind = place, one.word.upper()
            self.step(last, head, "skip")
        self.after, self.again = before

    def do(self, one: Loop, at: int, target: int, nodes: tuple[int, int, int], place: int) -> None:
        """Makes a `do`, of whose three nodes the first is its head, the second its condition's, and the third behind it."""
        head, test, last = nodes
        self.step(at, head, "skip")
        self.within(one.body, head, test)
        self.at, self.kind = place, "DO"
        if one.test:
            self.condition(one.test, test, last, target)
        self.step(last, head, "skip")

    def switch(self, one: Parts, at: int, target: int) -> None:
        """Makes a `switch`: its groups are the labels that are next to each other with the statements behind them."""
        before, place, start = self.after, one.at, at
        labels, rows = groups(one.parts[1])
        nodes = [self.node() for _ in rows]
        test = self.node()
        value = expression(one.parts[0])
        at = self.pure(value, at)
        self.step(at, test, "assign", values=[value])
        default = next(
            (nodes[number] for number, there in enumerate(labels) for label in there if label.word == "default"), target
        )
        cases = [
            (nodes[number], label) for number, there in enumerate(labels) for label in there if label.word == "case"
        ]
        for number, (group, label) in enumerate(cases):
            behind = self.node() if number + 1 < len(cases) else default
            self.step(test, group, "guard true", label.at)
            self.step(test, behind, "guard false", label.at)
            test = behind
        if not cases:
            self.step(test, default, "skip")
        self.after = target
        with self.scope(start):
            for number, row in enumerate(rows):
                self.at, self.kind = place, "SWITCH" if row else "EMPTY"
                self.block(row, nodes[number], nodes[number + 1] if number + 1 < len(nodes) else target)
        self.after = before


def groups(body: Statement) -> tuple[list[list[Parts]], list[list[Statement]]]:
    """The labels of each group of a `switch`, and its statements."""
    inner = body.parts[0] if isinstance(body, Parts) and body.parts else body
    labels: list[list[Parts]] = []
    rows: list[list[Statement]] = []
    for part in inner.parts if isinstance(inner, Parts) else ():
        if isinstance(part, Parts) and part.word in ("case", "default"):
            if not labels or rows[-1]:
                labels.append([])
                rows.append([])
            labels[-1].append(part)
        elif rows:
            rows[-1].append(part)
    return labels, rows


def expression(part: Statement) -> Expression:
    """A part of a statement that is an expression. Raises ValueError where it is another."""
    if isinstance(part, (Variable, Assign, Check, Loop, Parts)):
        raise ValueError("an expression is missing")
    return part


def difference(step: Step, edge: Edge, words: Sequence[Word], constants: set[str]) -> str:
    """In what an edge of `graph` isn't the one that the table makes, or nothing."""
    word = words[step.at]
    pairs = {
        "its ends": ((step.source, step.target), (edge.source, edge.target)),
        "its location": ((word.file, word.line, word.column), (edge.file, edge.line, edge.column)),
        "its kind": (step.kind, edge.kind),
        "its operation": (step.operation, f"{edge.operation} {edge.name}".rstrip()),
        "what it writes": (step.writes, frozenset(edge.writes)),
        "what it reads": (step.reads - constants, frozenset(edge.reads) - constants),
    }
    return next((name for name, (due, found) in pairs.items() if due != found), "")


def of_unit(unit: Unit, graph: Graph, words: Sequence[Word]) -> Lowering:
    """The edges of a unit, which are those of an automaton. Raises Failure where they aren't: then no operation is known to
    belong to an edge."""
    try:
        made = Lowering(unit, [one.name for one in graph.functions])
    except (KeyError, ValueError) as fault:
        raise Failure(f"the sources aren't read as the program reads them: {fault}") from None
    constants = {name for name, _ in unit.constants}
    for number, (step, edge) in enumerate(zip(made.steps, graph.edges)):
        why = difference(step, edge, words, constants)
        if why:
            raise Failure(
                f"the sources aren't read as the program reads them: edge {number} at {edge.place} has another of {why}"
            )
    if len(made.steps) != len(graph.edges) or made.nodes != len(graph.nodes):
        raise Failure(
            "the sources aren't read as the program reads them: the automaton has more or fewer edges or nodes"
        )
    return made
