"""What an earlier version of the sources leaves to a later one: inputs to begin with, and certificates that are checked again.

Goals are named by numbers of edges and nodes, which an edit moves. An edge or a node is found again by its function and its place
among those of the function, as far as these are the same ones. Where that guess is wrong nothing wrong is said: inputs are measured
anew, and `check` rejects a certificate of another formula (91).
"""

import difflib
import json
import os
import re
import shutil
from collections.abc import Sequence
from typing import TYPE_CHECKING, Any

from fshell_tools.core import graph as graphs
from fshell_tools.core import inputs, program
from fshell_tools.core.graph import Edge, Graph, Node
from fshell_tools.project.settings import Entry
from fshell_tools.project.unit import sum_of_file
from fshell_tools.project.work_folder import Place

if TYPE_CHECKING:
    from fshell_tools.project.tasks import Context

_LETTER = re.compile(r"\b([en])(\d+)@[^ ]*?:\d+(?= |$)")
Key = tuple[str, int]


class Ordinals:
    """The place of each edge and node of an automaton among those of its function, from 0, in the automaton's order. An
    edit of another function leaves it."""

    def __init__(self, graph: Graph) -> None:
        self.graph = graph
        self.edges: dict[str, list[int]] = {}
        self.nodes: dict[str, list[int]] = {}
        for node in graph.nodes:
            self.nodes.setdefault(node.function, []).append(node.number)
        for edge in graph.edges:
            self.edges.setdefault(graph.owner(edge), []).append(edge.number)

    def of_node(self, number: int) -> Key:
        """The function of a node of this number, and its place there. IndexError where there is no such number."""
        function = self.graph.nodes[number].function
        return function, self.nodes[function].index(number)

    def of_edge(self, number: int) -> Key:
        """The function of an edge of this number, and its place there. IndexError where there is no such number."""
        function = self.graph.owner(self.graph.edges[number])
        return function, self.edges[function].index(number)

    def edge(self, key: Sequence[Any]) -> int:
        """The number of the edge at a place of a function; KeyError or IndexError where it has none there."""
        return int(self.edges[key[0]][key[1]])

    def node(self, key: Sequence[Any]) -> int:
        """The number of the node at a place of a function; KeyError or IndexError where it has none there."""
        return int(self.nodes[key[0]][key[1]])


def ordinals(graph: Graph) -> Ordinals:
    """The places of an automaton's edges and nodes. It goes over the automaton once."""
    return Ordinals(graph)


def _face(edge: Edge) -> tuple[object, ...]:
    """What stays of an edge where other code around it changes."""
    return (edge.kind, edge.operation, edge.name, edge.decision, edge.outcome, edge.label, edge.writes, edge.reads)


def _matched(old: Sequence[object], new: Sequence[object]) -> list[tuple[int, int]]:
    """The pairs of places of two rows that are the same ones."""
    blocks = difflib.SequenceMatcher(None, old, new, autojunk=False).get_matching_blocks()
    return [(one.a + at, one.b + at) for one in blocks for at in range(one.size)]


class Mapping:
    """Where the edges and nodes of an older automaton are in a newer one, by their numbers. Within a function an edge
    is the same one where what it does stays in the same order (difflib's longest matching blocks); what isn't found has
    no entry."""

    def __init__(self, old: Graph, new: Graph) -> None:
        self.new = new
        before, after = Ordinals(old), Ordinals(new)
        self.edges: dict[int, int] = {}
        self.nodes: dict[int, int] = {}
        for name, mine in before.edges.items():
            theirs = after.edges.get(name, [])
            faces = [_face(old.edges[one]) for one in mine], [_face(new.edges[one]) for one in theirs]
            for first, second in _matched(*faces):
                self.edges[mine[first]] = theirs[second]
                self._ends(old.edges[mine[first]], new.edges[theirs[second]])
        for function in old.functions:
            other = next((one for one in new.functions if one.name == function.name), None)
            if other:
                self.nodes |= {function.entry: other.entry, function.exit: other.exit}

    def _ends(self, old: Edge, new: Edge) -> None:
        self.nodes.setdefault(old.source, new.source)
        self.nodes.setdefault(old.target, new.target)

    def text(self, old: str) -> str:
        """A goal's text with the newer automaton's numbers and lines; nothing where an edge or a node of it is gone."""
        is_lost = False

        def letter(found: re.Match[str]) -> str:
            nonlocal is_lost
            number = (self.edges if found[1] == "e" else self.nodes).get(int(found[2]))
            if number is None:
                is_lost = True
                return ""
            part: Edge | Node = self.new.edges[number] if found[1] == "e" else self.new.nodes[number]
            return f"{found[1]}{number}@{part.file}:{part.line}"

        text = _LETTER.sub(letter, old)
        return "" if is_lost else text


def texts(goals: str) -> list[str]:
    """The goals of a text of `fshell goals`, in their order: the first is goal 1. One whose predicate has line feeds is
    one text."""
    lines = goals.split("\n")[1:]
    found: list[str] = []
    for line in lines:
        head = re.match(rf"goal {len(found) + 1} ", line)
        if head:
            found.append(line[head.end() :])
        elif found and line:
            found[-1] += "\n" + line
    return found


def _is_same(place: Place, context: "Context", entry: Entry, query: str) -> bool:
    """Whether a campaign stands in a folder that asks for just this."""
    value = place.value("campaign.json")
    if not isinstance(value, dict):
        return False
    unit = context.unit
    sums = [sum_of_file(unit.at(name)) for name in unit.sources]
    asked = (entry.function, query, list(unit.sources), unit.place, sums, entry.bounds, entry.ends)
    return tuple(value.get(name) for name in ("entry", "query", "sources", "place", "sums", "bounds", "ends")) == asked


def _settled(path: str, last: str) -> None:
    """Ends a change of a folder that was stopped: a new one that is whole, or else the old one, takes the place; `last` is the
    file that is put into a new one at its end."""
    if not os.path.exists(path):
        kept = next((one for one in (path + ".new", path + ".old") if os.path.exists(os.path.join(one, last))), "")
        if kept:
            os.rename(kept, path)
    shutil.rmtree(path + ".old", ignore_errors=True)
    shutil.rmtree(path + ".new", ignore_errors=True)


def _exchange(path: str) -> None:
    """Puts the new folder into the place of the old one."""
    if os.path.exists(path):
        os.rename(path, path + ".old")
    os.rename(path + ".new", path)
    shutil.rmtree(path + ".old", ignore_errors=True)


def prepare(place: Place, goals: str, context: "Context", entry: Entry, query: str) -> None:
    """Makes the folder of a campaign ready: as it is where it asks for just this, else a new one that takes the old
    one's place, with its inputs and the certificates of goals that are there still. A change that was stopped is ended
    first. `goals` is what `fshell goals` wrote of the query. Raises Failure where a file can't be written."""
    _settled(place.path, "graph.txt")
    if _is_same(place, context, entry, query):
        return
    new = Place(place.path + ".new")
    os.makedirs(new.at("certificates"))
    was_whole = os.path.exists(place.at("report.json")) or bool(carried(place).get("was_whole"))
    new.keep("carried.json", {"inputs": _inputs(place, context.arity(entry)), "was_whole": was_whole})
    _certificates(place, new, goals, context.graph)
    program.write_whole(new.at("goals.txt"), goals)
    program.write_whole(new.at("graph.txt"), program.read(context.unit.at("graph.txt")).decode())
    _exchange(place.path)


def carried(place: Place) -> dict[str, Any]:
    """What an earlier campaign left to the one in this folder: `inputs`, and whether it `was_whole`; nothing where it
    is the first."""
    found = place.value("carried.json")
    return found if isinstance(found, dict) else {}


def _inputs(old: Place, arity: int) -> list[dict[str, Any]]:
    """The inputs that an older campaign had and found."""
    values = [*carried(old).get("inputs", ()), *(old.value("inputs.json") or [])]
    for name in sorted(os.listdir(old.at("found"))) if os.path.isdir(old.at("found")) else []:
        try:
            values += [{"args": one.args, "answers": one.answers} for one in inputs.of_file(old.at("found", name))]
        except program.Failure:
            continue
    found = {}
    for one in values:
        if isinstance(one, dict) and len(one.get("args", ())) == arity:
            numbers = {"args": list(one["args"]), "answers": list(one.get("answers", ()))}
            found[json.dumps(numbers)] = numbers
    return list(found.values())


def _certificates(old: Place, new: Place, goals: str, graph: Graph) -> None:
    """Puts the certificates of an older campaign into a new folder, by their goals' new numbers; they are checked there."""
    try:
        before = graphs.of_text(program.read(old.at("graph.txt")).decode())
        then = texts(program.read(old.at("goals.txt")).decode())
    except (program.Failure, ValueError):
        return
    numbers = {text: number for number, text in enumerate(texts(goals), 1)}
    mapping = Mapping(before, graph)
    for number, text in enumerate(then, 1):
        path = old.at("certificates", f"{number}.cert")
        found = numbers.get(mapping.text(text)) if os.path.isfile(path) else None
        if found:
            shutil.copyfile(path, new.at("certificates", f"{found}.cert"))
