"""The automaton of sources, as the command `graph` writes it (docs/FORMATS.md), and the letters of goals over it."""

import re
from collections.abc import Iterator, Sequence
from dataclasses import dataclass, field

from fshell_tools.core import program
from fshell_tools.core.reports import Goal, Report

_NODE = re.compile(r"node (\d+) (\w+) (.*):(\d+) depth (\d+)")
_EDGE = re.compile(
    r"edge (\d+) from (\d+) to (\d+) (.*):(\d+):(\d+) ([A-Z]+)"
    r" (skip|assign|clear|guard true|guard false|call \w+|return \w+|answer \w+|assert|assume)"
    r"( decision)?( outcome)?( enter)?( back)?(?: label (\w+))?(?: writes((?: \w+)+?))?(?: reads((?: \w+)+))?"
)
_LETTER = re.compile(r'([en])(\d+)@|(!?)\{([^{}"]*)\}|"([^"]*)"')


@dataclass(frozen=True)
class Node:
    """A place of control: the name of its function, its file and line, and how many loops it lies in."""

    number: int
    function: str
    file: str
    line: int
    depth: int

    @property
    def place(self) -> str:
        """`FILE:LINE` of its statement, as `graph` tells it."""
        return f"{self.file}:{self.line}"


@dataclass(frozen=True)
class Edge:
    """A step of a run. `operation` is its word, and `name` the function that it calls, returns from or asks."""

    number: int
    source: int
    target: int
    file: str
    line: int
    column: int
    kind: str
    operation: str
    name: str
    decision: bool
    outcome: bool
    enter: bool
    back: bool
    label: str
    writes: tuple[str, ...]
    reads: tuple[str, ...]

    @property
    def place(self) -> str:
        """`FILE:LINE:COLUMN` of its span's first byte, the column in bytes from 1."""
        return f"{self.file}:{self.line}:{self.column}"

    @property
    def is_guard(self) -> bool:
        """Whether it is taken where a condition holds, or doesn't."""
        return self.operation.startswith("guard")

    @property
    def truth(self) -> bool:
        """Of a guard, whether it is taken where its test holds."""
        return self.operation == "guard true"


@dataclass(frozen=True)
class Function:
    """A function by its name, with the numbers of its entry node and its exit node."""

    name: str
    entry: int
    exit: int


@dataclass
class Graph:
    """The automaton; nodes and edges stand at their numbers."""

    functions: list[Function] = field(default_factory=list)
    inputs: list[str] = field(default_factory=list)
    nodes: list[Node] = field(default_factory=list)
    edges: list[Edge] = field(default_factory=list)
    leaving: list[list[Edge]] = field(default_factory=list)

    def function(self, name: str) -> Function:
        """A function by its name; a failure where none is called so."""
        for one in self.functions:
            if one.name == name:
                return one
        raise program.Failure(f"no function is called {name}")

    def reached(self, entry: str) -> list[str]:
        """The functions that runs of an entry may call, and the entry, in the automaton's order."""
        calls: dict[str, set[str]] = {}
        for edge in self.edges:
            if edge.operation == "call":
                calls.setdefault(self.owner(edge), set()).add(edge.name)
        found, waiting = {entry}, [entry]
        while waiting:
            new = calls.get(waiting.pop(), set()) - found
            found |= new
            waiting.extend(new)
        return [one.name for one in self.functions if one.name in found]

    def owner(self, edge: Edge) -> str:
        """The name of the function to which an edge belongs: for a return the caller's."""
        return self.nodes[edge.target if edge.operation == "return" else edge.source].function

    def guards(self) -> Iterator[tuple[Edge, Edge]]:
        """Each test with its guards: that of truth, then the other."""
        for edges in self.leaving:
            if len(edges) == 2 and all(edge.is_guard for edge in edges):
                first, second = edges
                yield (first, second) if first.truth else (second, first)

    def other(self, guard: Edge) -> Edge:
        """The other guard of a guard's test."""
        return next(edge for edge in self.leaving[guard.source] if edge != guard)


@dataclass(frozen=True)
class Letter:
    """A letter of a goal: an edge, a node, or a predicate or a quoted expression as its text."""

    edge: Edge | None = None
    node: Node | None = None
    text: str = ""


def _names(words: str | None) -> tuple[str, ...]:
    return tuple((words or "").split())


def _edge(line: str) -> Edge:
    found = _EDGE.fullmatch(line)
    if not found:
        raise ValueError(line)
    word, _, name = found[8].partition(" ")
    is_guard = word == "guard"
    return Edge(
        int(found[1]), int(found[2]), int(found[3]), found[4], int(found[5]), int(found[6]), found[7],
        found[8] if is_guard else word, "" if is_guard else name,
        bool(found[9]), bool(found[10]), bool(found[11]), bool(found[12]), found[13] or "",
        _names(found[14]), _names(found[15]),
    )  # fmt: skip


def of_text(text: str) -> Graph:
    """The automaton that a text of `graph` is; ValueError where it is none."""
    graph = Graph()
    for line in text.removesuffix("\n").split("\n"):
        words = line.split(" ")
        if words[0] == "function":
            graph.functions.append(Function(words[2], int(words[4]), int(words[6])))
        elif words[0] == "input":
            graph.inputs.append(words[2])
        elif words[0] == "node":
            found = _NODE.fullmatch(line)
            if not found:
                raise ValueError(line)
            graph.nodes.append(Node(int(found[1]), found[2], found[3], int(found[4]), int(found[5])))
        elif words[0] == "edge":
            graph.edges.append(_edge(line))
        elif words[0] != "functions":
            raise ValueError(line)
    graph.leaving = [[] for _ in graph.nodes]
    for edge in graph.edges:
        graph.leaving[edge.source].append(edge)
    return graph


def of_sources(sources: Sequence[str], folder: str | None = None) -> Graph:
    """The automaton of sources, as the program tells it. Raises Failure where it refuses them."""
    program.check_names(sources)
    if not program.has_command("graph"):
        raise program.Failure("the program has no command graph; a newer one is needed (FSHELL names another)")
    try:
        return of_text(program.answer(["graph", *sources], folder))
    except ValueError as line:
        raise program.Failure(f"fshell graph wrote a line that isn't known: {line}") from None


def goals_of(graph: Graph, query: str, sources: Sequence[str], folder: str | None = None) -> Report:
    """The goals of a query. Where it has line breaks, their texts may have some, and then they are taken from a
    measurement of no input, which is written as JSON, for the first function that may be an entry. Raises Failure
    where the program refuses it."""
    if not re.search(r"[\r\n]", query):
        return program.report(["goals", query, *sources], folder)
    with program.as_file("[]\n") as none:
        for function in graph.functions:
            words = ["measure", function.name, query, none, *sources]
            ended = program.run(program.with_json(words), folder)
            if not ended.stderr.startswith("error 36 "):
                found = program.report_of(words, ended)
                goals = [Goal(goal.number, "", None, goal.text) for goal in found.goals]
                return Report("goals", goals)
    raise program.Failure("the query has line breaks, and no function may be an entry: write it in one line")


def letters(graph: Graph, text: str) -> list[Letter]:
    """The letters of a goal's text; ValueError where it isn't one over this automaton."""
    found: list[Letter] = []
    at = 0
    while not found or text.startswith(" . ", at):
        at += 3 if found else 0
        letter = _LETTER.match(text, at)
        if not letter:
            raise ValueError(text)
        at = letter.end()
        if letter[1]:
            part: Node | Edge = graph.edges[int(letter[2])] if letter[1] == "e" else graph.nodes[int(letter[2])]
            place = f"{part.file}:{part.line}"
            if not text.startswith(place, at):
                raise ValueError(text)
            at += len(place)
            found.append(Letter(edge=part) if isinstance(part, Edge) else Letter(node=part))
        else:
            found.append(Letter(text=letter[0]))
    if at != len(text):
        raise ValueError(text)
    return found
