"""The operations of sources that can end a run wrongly, and the nodes of the automaton at which each is done.

An operation is done along one edge, and a run that it ends stands at the node from which that edge leads. Which edge it is goes by
the table of docs/GRAPH.md, by which all edges are made here again and compared with those of the program (lowering): so no
edge along which a run may be trapped is without its operations, and no operation is without its edge.
"""

from collections.abc import Iterator, Sequence
from dataclasses import dataclass

from fshell_tools.core import program
from fshell_tools.core.graph import Edge, Graph
from fshell_tools.core.sources import Source
from fshell_tools.order import main as order
from fshell_tools.order import tokens
from fshell_tools.order.statements import Items
from fshell_tools.order.tokens import Word
from fshell_tools.order.tree import Unit
from fshell_tools.rte import constants, lowering

KINDS = {"/": "division", "%": "remainder", "[": "index", "<<": "shift", ">>": "shift", "assert": "assert"}
OF_ANY = {"assume": "assume", "call": "call"}
# by the end of a run, which operations may have ended it
CAUSES = {
    "trapped zero-divisor": ("division", "remainder"),
    "trapped overflow-divisor": ("division", "remainder"),
    "trapped index": ("index",),
    "trapped shift": ("shift",),
    "trapped assert": ("assert",),
    "blocked": ("assume",),
    "too-deep": ("call",),
}
Place = tuple[str, int, int]


@dataclass(frozen=True)
class Form:
    """A form of the grammar by its name: the numbers, from 0, of its first token, of its mark (the token that a trap is
    told at) and of its last token."""

    name: str
    first: int
    mark: int
    last: int

    def has(self, at: int) -> bool:
        """Whether a token, by its number, is one of the form."""
        return self.first <= at <= self.last


@dataclass(frozen=True)
class Operation:
    """An operation, its place (lines and columns from 1) and text, and the numbers of the nodes at which a run may
    stand that it ended."""

    kind: str
    file: str
    line: int
    column: int
    text: str
    nodes: frozenset[int]
    span: tuple[int, int] = (0, 0)  # its first and its last token
    is_safe: bool = False  # by its constant it can't fail

    def has(self, other: "Operation") -> bool:
        """Whether another operation stands within it."""
        return self != other and self.span[0] <= other.span[0] and other.span[1] <= self.span[1]

    @property
    def place(self) -> str:
        """FILE:LINE:COLUMN of its mark."""
        return f"{self.file}:{self.line}:{self.column}"

    @property
    def told(self) -> str:
        """Its kind and its text, as rows have them; of an assert or assume the text alone, which says it."""
        return f"{self.kind} {self.text}" if self.kind not in ("assert", "assume") else self.text


class Reader(Items):
    """Reads a unit as the program does (docs/C_PROFILE.md), and keeps all its forms, and the span of each function."""

    def __init__(self, words: Sequence[Word]) -> None:
        super().__init__(words)
        self.forms: list[Form] = []
        self.bodies: dict[str, Form] = {}
        self.unit = Unit()

    def note(self, form: str, first: int, mark: int) -> None:
        """Keeps a form that was read up to the token before this one, by the numbers of its first token and its mark."""
        self.forms.append(Form(form, first, mark, self.at - 1))

    def read(self) -> None:
        """Reads all items. Raises ValueError or IndexError where the program's grammar has no such text."""
        while self.text:
            before, known = self.at, set(self.unit.functions)
            self.item(self.unit)
            for name in self.unit.functions.keys() - known:
                self.bodies[name] = Form("function", before, before, self.at - 1)


class Finder:
    """Finds the operations of the functions of a unit, and the nodes of its automaton at which each is done. Raises Failure
    where the edges of the unit aren't those of the automaton."""

    def __init__(self, graph: Graph, sources: Sequence[str], words: list[Word], reader: Reader) -> None:
        self.graph, self.words, self.forms, self.bodies = graph, words, reader.forms, reader.bodies
        self.texts = {name: Source(name, program.read(name)) for name in sources}
        self.unit = reader.unit
        self.lowering = lowering.of_unit(reader.unit, graph, words)
        self.safe = constants.Safe(reader.unit, words).marks
        self.statements = [one for one in self.forms if one.name == "statement"]
        self.constants = [one for one in self.forms if one.name == "constant"]
        self.at: dict[Place, list[int]] = {}
        for number, word in enumerate(words):
            self.at.setdefault((word.file, word.line, word.column), []).append(number)
        self.edges: dict[int, set[int]] = {}  # by the mark of an operation, the edges along which it is done
        self.calls: dict[int, list[Edge]] = {}  # by the first token of a call, its edges
        for number, step in enumerate(self.lowering.steps):
            for mark in step.marks:
                self.edges.setdefault(mark, set()).add(number)
            if step.call >= 0:
                self.calls.setdefault(step.call, []).append(graph.edges[number])
            if step.operation in ("assert", "assume"):
                self.edges.setdefault(step.at, set()).add(number)

    def statement(self, token: int) -> Form | None:
        """The innermost statement around a token, by its number; None where none is."""
        around = [one for one in self.statements if one.has(token)]
        return min(around, key=lambda one: one.last - one.first) if around else None

    def nodes(self, kind: str, form: Form) -> set[int]:
        """The numbers of the nodes at which an operation of a kind is done. Raises Failure where there is none."""
        if kind == "call":
            return {edge.source for edge in self.calls.get(form.mark, [])}
        return {self.graph.edges[edge].source for edge in self.edges.get(form.mark, ())}

    def text(self, form: Form) -> str:
        """The text of a form as the source has it, in one line, without a semicolon at its end."""
        end = form.last - (self.words[form.last].text == ";")
        first, last = self.words[form.first], self.words[end]
        source = self.texts[first.file]
        return source.between(source.index(first.line, first.column), source.index(last.line, last.column))

    def kind(self, form: Form, any_end: bool) -> str:
        """The kind of operation that a form is, or nothing; an assume and a call are one only where runs that they end
        count (`any_end`)."""
        word = self.words[form.first].text
        name = word if form.name == "statement" and word in ("assert", "assume") else form.name
        return (KINDS | (OF_ANY if any_end else {})).get(name, "")

    def is_constant(self, token: int) -> bool:
        """Whether a token is one of a constant expression."""
        return any(one.has(token) for one in self.constants)

    def operations(self, reached: set[str], any_end: bool) -> Iterator[Operation]:
        """The operations of the `reached` functions, in the order of the sources; those of constant expressions aren't
        any (C11 6.6: they are no part of a run). Raises Failure where an operation has no edge."""
        bodies = [form for name, form in self.bodies.items() if name in reached]
        for form in sorted(self.forms, key=lambda one: (one.mark, one.last)):
            kind = self.kind(form, any_end)
            if not kind or not any(one.has(form.mark) for one in bodies) or self.is_constant(form.mark):
                continue
            word, nodes = self.words[form.mark], self.nodes(kind, form)
            if not nodes:
                raise program.Failure(f"{word.place}: the operation {self.text(form)} belongs to no edge")
            span = (form.first, form.last)
            is_safe = form.mark in self.safe
            yield Operation(kind, word.file, word.line, word.column, self.text(form), frozenset(nodes), span, is_safe)


def finder_of(graph: Graph, sources: Sequence[str]) -> Finder:
    """What finds the operations of sources that the program accepts. Raises Failure where a source can't be read, or
    isn't read here as the program reads it."""
    words = tokens.of_sources(sources)
    order.deep()
    reader = Reader(words)
    try:
        reader.read()
    except (ValueError, IndexError) as fault:
        raise program.Failure(f"the sources aren't read as the program reads them: {fault}") from None
    return Finder(graph, sources, words, reader)


def of_sources(graph: Graph, entry: str, sources: Sequence[str], ends: str) -> list[Operation]:
    """The operations of sources that the program accepts, as far as the entry may come to them, in their order. Raises
    Failure as `finder_of` does."""
    return of_finder(graph, finder_of(graph, sources), entry, ends)


def of_finder(graph: Graph, finder: Finder, entry: str, ends: str) -> list[Operation]:
    """The operations that are found, as far as the entry may come to them, each once, in the order of the sources;
    `ends` is trapped, or any for those that end a run otherwise too."""
    return list(dict.fromkeys(finder.operations(set(graph.reached(entry)), ends == "any")))
