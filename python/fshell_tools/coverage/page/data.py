"""The data of the page: the goals of all reports with their places, labels and functions."""

import json
from collections import Counter
from collections.abc import Iterable, Iterator
from typing import Any

from fshell_tools.core import graph as graphs
from fshell_tools.core import named_inputs, verdicts
from fshell_tools.core.graph import Graph, Letter, Node
from fshell_tools.core.program import Failure
from fshell_tools.core.reports import Goal, Input
from fshell_tools.core.sources import Faces
from fshell_tools.core.verdicts import Tally, Verdict
from fshell_tools.coverage.explain import letter_line
from fshell_tools.coverage.page.report_context import Shown, commands, paths
from fshell_tools.coverage.page.syntax import Coloured

LONGEST_NAME = 40
# of goals at one place, or on one line, the verdict that is shown is the first of these that one has
WORST = (
    Verdict.MISSED,
    Verdict.FAILS,
    Verdict.UNDECIDED,
    Verdict.COVERED,
    Verdict.RETURNING,
    Verdict.REFUTED,
    Verdict.OUTSIDE,
    Verdict.UNREACHABLE,
)


def first_place(faces: Faces, letters: list[Letter]) -> tuple[str, int, int] | None:
    """The place of the first letter that has one, as the file, the line and the column from 1 in the user's own source;
    a node's column is 0, and None is where no letter has a place."""
    for letter in letters:
        if letter.edge:
            edge = faces.shown(letter.edge)
            return edge.file, *faces.spot(edge)[1:]
        if letter.node:
            return letter.node.file, faces.node_line(letter.node), 0
    return None


def kind_of(letters: list[Letter]) -> str:
    """The kind of a goal, by which boxes filter: its statement's kind where it is one edge, else node, predicate, path
    (of edges alone) or several."""
    if len(letters) == 1:
        edge = letters[0].edge
        return edge.kind.lower() if edge else "node" if letters[0].node else "predicate"
    return "path" if all(letter.edge for letter in letters) else "several"


def node_label(faces: Faces, node: Node) -> str:
    """What a node is, in a few words: the entry or the exit of its function, or what stands behind it."""
    function = faces.graph.function(node.function)
    if node.number in (function.entry, function.exit):
        return f"{'entry' if node.number == function.entry else 'exit'} of {node.function}"
    return f"before {faces.node_text(node)}"


def letter_label(faces: Faces, letter: Letter) -> str:
    """What a letter asks for, in a few words behind its line: `198 x > 2: true`."""
    if letter.edge:
        line = faces.line(letter.edge)
        if letter.edge.is_guard:
            return f"{line} {faces.condition(letter.edge)}: {'true' if letter.edge.truth else 'false'}"
        deed = faces.deed(letter.edge)
        return f"{line} {faces.statement(letter.edge)}" + (f": {deed}" if deed else "")
    if letter.node:
        return f"{faces.node_line(letter.node)} {node_label(faces, letter.node)}"
    return f"not {letter.text[1:]}" if letter.text.startswith("!") else letter.text


def folded(name: str) -> str:
    """A path as it is shown: one of more than 40 letters as … and its end, as many whole parts as fit."""
    if len(name) <= LONGEST_NAME:
        return name
    parts = name.split("/")
    for first in range(1, len(parts)):
        rest = "/".join(parts[first:])
        if len(rest) < LONGEST_NAME - 1 or first == len(parts) - 1:
            return f"…/{rest}"
    return name


def worst(states: Iterable[Verdict]) -> Verdict:
    """The verdict that is shown where several stand together, at least one: the first of WORST that is there."""
    states = set(states)
    return next(one for one in WORST if one in states)


class Page:
    """The page's data: the goals of all reports, with their places, functions and labels, and how many goals of each
    function have which verdict. Raises Failure where a goal isn't one of these sources."""

    def __init__(self, reports: list[Shown], graph: Graph, faces: Faces) -> None:
        self.reports, self.graph, self.faces = reports, graph, faces
        self.goals: list[dict[str, Any]] = []
        self.places: dict[tuple[str, int, int], list[int]] = {}
        self.functions: dict[str, Counter[Verdict]] = {}
        self.letters: dict[str, str] = {}
        self.labels: dict[str, str] = {}
        for number, one in enumerate(reports):
            for goal, verdict in zip(one.report.goals, one.verdicts):
                self.add(number, one, goal, verdict)

    def add(self, number: int, one: Shown, goal: Goal, verdict: Verdict) -> None:
        """Adds a goal of the report at place `number`, from 0. Raises Failure where it isn't one of these sources."""
        try:
            letters = graphs.letters(self.graph, goal.text)
        except (ValueError, IndexError):
            raise Failure(f"{one.name}: goal {goal.number} isn't one of these sources: {goal.text[:80]}") from None
        place = first_place(self.faces, letters)
        if place:
            self.places.setdefault(place, []).append(len(self.goals))
        owner = next((owner for letter in letters if (owner := self.owner(letter))), "(no place)")
        self.functions.setdefault(owner, Counter())[verdict] += 1
        found = {
            "r": number,
            "n": goal.number,
            "v": verdict.mark,
            "t": verdict,
            "k": kind_of(letters),
            "f": owner,
            "l": [self.key(letter) for letter in letters],
        }
        found |= {"i": goal.input} if goal.input else {}
        found |= {"c": commands(one, goal)} if verdict in verdicts.UNHIT else {}
        self.goals.append(found)

    def owner(self, letter: Letter) -> str:
        """The function of a letter, or nothing where it has no place."""
        return self.graph.owner(letter.edge) if letter.edge else letter.node.function if letter.node else ""

    def key(self, letter: Letter) -> str:
        """A letter's name in the page's data (e or n and its number, or a predicate's text), under which its line and
        its label are kept once."""
        key = f"e{letter.edge.number}" if letter.edge else f"n{letter.node.number}" if letter.node else letter.text
        if key not in self.letters:
            self.letters[key] = letter_line(self.faces, letter)
            self.labels[key] = letter_label(self.faces, letter)
        return key

    def label(self, goal: dict[str, Any]) -> str:
        """What a goal of the data asks for, in a few words: its letters' labels with arrows between."""
        return " → ".join(self.labels[key] for key in goal["l"])

    def tally(self, function: str) -> Tally:
        """How many goals of a function have which verdict. KeyError where the function has no goal."""
        return Tally(self.functions[function])

    def percentage(self, tally: Tally) -> str:
        """How much of a tally is covered, in percent of the goals that can be, or a dash where there are none."""
        return verdicts.percentage(tally.counts[Verdict.COVERED], tally.reachable) if tally.reachable else "–"

    def home(self, function: str) -> str:
        """The name of a function's first line in links, or nothing where the automaton has no such function."""
        found = [one for one in self.graph.functions if one.name == function]
        node = self.graph.nodes[found[0].entry] if found else None
        return f"l{list(self.faces.sources).index(node.file)}:{self.faces.node_line(node)}" if node else ""

    # ---- the data

    def named(self, one: Shown, taken: dict[int, list[int]]) -> list[list[list[Any]]]:
        """The arguments and answers of each input of a report, as pairs of a name and a number; `taken` has of inputs,
        by their numbers from 1, the edges of their runs, which say whose answers they are. An empty list where the
        entry isn't known."""
        if not one.entry:
            return []
        try:
            parameters = [
                self.faces.name(name) for name in named_inputs.signature(self.faces.sources.values(), one.entry).names
            ]
        except Failure:
            parameters = []  # (a macro makes the entry's head)
        edges = self.graph.edges
        found = []
        for number, given in enumerate(one.given, 1):
            asked = [
                self.faces.name(edges[edge].name) for edge in taken.get(number, []) if edges[edge].operation == "answer"
            ]
            found.append(pairs(given, parameters, asked))
        return found

    def data(self) -> str:
        """The data as JSON that may stand within a script element of HTML."""
        taken = [paths(one) for one in self.reports]
        for edge in {edge for of_one in taken for path in of_one.values() for edge in path}:
            self.key(Letter(edge=self.graph.edges[edge]))
        names = {name: number for number, name in enumerate(self.faces.sources)}
        value = {
            "goals": self.goals,
            "letters": self.letters,
            "labels": self.labels,
            "lines": [f"{names[edge.file]}:{self.faces.line(edge)}" for edge in self.graph.edges],
            "nodes": [f"{names[node.file]}:{self.faces.node_line(node)}" for node in self.graph.nodes],
            "reports": [one.name for one in self.reports],
            "inputs": [[given.told() for given in one.given] for one in self.reports],
            "named": [self.named(one, path) for one, path in zip(self.reports, taken)],
            "paths": taken,
        }
        return json.dumps(value).replace("<", "\\u003c").replace("\u2028", "\\u2028")

    # ---- the sources

    def lines(self, name: str) -> Iterator[tuple[int, str, list[tuple[list[tuple[str, str]], list[dict[str, Any]]]]]]:
        """Each line of a source: its number from 1, the mark of the verdict that it shows, if any, and its parts, each
        as pieces with their colours, and with the goals that are marked before it."""
        source = self.faces.own(name)
        coloured = Coloured(source.text)
        columns: dict[int, dict[int, list[int]]] = {}
        for (file, line, column), goals in self.places.items():
            if file == name:
                columns.setdefault(line, {}).setdefault(column, []).extend(goals)
        for number, text in enumerate(source.text.removesuffix("\n").split("\n"), 1):
            marks = columns.get(number, {})
            starts = sorted({max(column - 1, 0) for column in marks} | {0})
            parts = []
            for at, end in zip(starts, starts[1:] + [len(text)]):
                goals = marks.get(at + 1, []) + (marks.get(0, []) if at == 0 else [])
                pieces = [(decoded(words), kind) for words, kind in coloured.cut(number, text, at, end)]
                parts.append((pieces, [{**self.goals[goal], "at": goal} for goal in goals]))
            states: set[Verdict] = {self.goals[goal]["t"] for of_column in marks.values() for goal in of_column}
            yield number, worst(states).mark if states else "", parts

    def file_tally(self, name: str) -> Tally:
        """How many goals of a file have which verdict."""
        numbers = [goal for place, goals in self.places.items() if place[0] == name for goal in goals]
        return verdicts.tally(self.goals[number]["t"] for number in numbers)


def decoded(text: str) -> str:
    """A text of bytes, one a letter, as UTF-8 has it; what isn't UTF-8 is shown as U+FFFD."""
    return text.encode("latin-1").decode("utf-8", "replace")


def pairs(given: Input, parameters: list[str], asked: list[str]) -> list[list[Any]]:
    """The numbers of an input, each with its name: a parameter's, where there are as many as arguments, `answer N of
    NAME` for the answers that were `asked` in this order, and `answer N` for those that no run read."""
    known = (
        parameters if len(parameters) == len(given.args) else [f"argument {at + 1}" for at in range(len(given.args))]
    )
    args = [[name, value] for name, value in zip(known, given.args)]
    names = [f"answer {at} of {name}" for at, name in enumerate(asked, 1)]
    names += [f"answer {at}" for at in range(len(names) + 1, len(given.answers) + 1)]
    return args + [[name, value] for name, value in zip(names, given.answers)]
