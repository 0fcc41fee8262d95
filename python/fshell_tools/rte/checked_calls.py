"""The operations that fshell adapt --check-overflow wrote as calls: each call of a function of overflow.h is one, of its own.

overflow.json beside the header says which operation of the original a call is. A run that an operation ends wrongly is
in the function when it ends, and came there by the call's edge; so the goals are that edge, steps of the function, and a node of it
where the run ends. The goals have a folder of their own, `overflow`.
"""

import json
import os
from collections.abc import Sequence
from dataclasses import dataclass, replace

from fshell_tools.campaign.main import measured
from fshell_tools.campaign.request import Asked
from fshell_tools.campaign.state_folder import Folder
from fshell_tools.core import graph as graphs
from fshell_tools.core import original_sources, program
from fshell_tools.core.graph import Edge, Graph
from fshell_tools.core.program import Failure
from fshell_tools.core.reports import Input, Run
from fshell_tools.core.verdicts import Limits
from fshell_tools.rte.failing_operations import Finder, Operation
from fshell_tools.rte.rows import Row, Verdict, refuted
from fshell_tools.rte.search import Failed, decide, runs_of

HEADER, TABLE, FOLDER = "overflow.h", "overflow.json", "overflow"


@dataclass(frozen=True)
class Table:
    """What overflow.json says: the header, its functions, and of the place of a call (file, line and column) the
    operation that it is."""

    header: str = ""
    functions: tuple[str, ...] = ()
    calls: dict[tuple[str, int, int], tuple[str, str, str]] | None = None

    def operation(self, file: str, line: int, column: int) -> tuple[str, str, str]:
        """What is done at a call, the place of the operation and its text; three empty texts where the table doesn't
        know the call."""
        return (self.calls or {}).get((os.path.basename(file), line, column), ("", "", ""))


@dataclass(frozen=True)
class Site:
    """A call: the operation that it is, the function, the edges by which that is entered there, and the call's own
    place."""

    operation: Operation
    function: str
    edges: tuple[Edge, ...]
    file: str
    spot: tuple[int, int]


@dataclass(frozen=True)
class Said:
    """What is known of a site: its goals, the input with which it fails, and why it is open; else it is refuted."""

    goals: tuple[int, ...]
    failed: Failed | None = None
    open: str = ""


def header_of(sources: Sequence[str]) -> str:
    """The name of the header of checked operations, if it is among the sources and its table beside it; else nothing."""
    named = [one for one in sources if os.path.basename(one) == HEADER]
    return next((one for one in named if os.path.exists(os.path.join(os.path.dirname(one), TABLE))), "")


def table_of(sources: Sequence[str], graph: Graph) -> Table:
    """The table of the sources, an empty one where they have no header of checked operations. Raises Failure where it
    isn't what fshell adapt wrote."""
    source = header_of(sources)
    if not source:
        return Table()
    path = os.path.join(os.path.dirname(source), TABLE)
    try:
        value = json.loads(program.read(path))
        names = {one.name for one in graph.functions if graph.nodes[one.entry].file == source}
        calls = {
            (row["file"], int(row["line"]), int(row["column"])): (row["what"], row["place"], row["text"])
            for row in value["calls"]
        }
        return Table(source, tuple(name for name in value["functions"] if name in names), calls)
    except (ValueError, KeyError, TypeError):
        raise Failure(f"{path} isn't what fshell adapt wrote") from None


def of_call(finder: Finder, table: Table, edges: tuple[Edge, ...], token: int, text: str, at: str) -> Site:
    """The site of a call whose function's name is a token; `at` is the folder in which the sources' names stand, `text`
    the call's own text."""
    word = finder.words[token]
    kind, place, told = table.operation(word.file, word.line, word.column)
    file, line, column = word.file, word.line, word.column
    if place:
        file, *spot = place.rsplit(":", 2)
        named = original_sources.place_of(word.file, word.line, 0, at).rsplit(":", 1)[0]
        file = file if named == word.file else named  # (as the other rows of that file have it)
        line, column = map(int, spot)
    nodes = frozenset(edge.source for edge in edges)
    return Site(
        Operation(kind or "call", file, line, column, told or text, nodes),
        word.text,
        edges,
        word.file,
        (word.line, word.column),
    )


def of_finder(graph: Graph, finder: Finder, table: Table, entry: str, at: str) -> list[Site]:
    """The sites that an entry may come to, in the order of the sources; a call that isn't found there is one by its
    edge alone."""
    reached = graph.reached(entry)
    calls = [edge for edge in graph.edges if edge.operation == "call" and edge.name in table.functions]
    left = {edge.number: edge for edge in calls if graph.owner(edge) in reached}
    found: list[Site] = []
    for form in sorted((one for one in finder.forms if one.name == "call"), key=lambda one: one.mark):
        if finder.words[form.mark].text not in table.functions:
            continue
        edges = tuple(edge for edge in finder.calls.get(form.mark, []) if edge.number in left)
        if edges:
            found.append(of_call(finder, table, edges, form.mark, finder.text(form), at))
    known = {edge.number for site in found for edge in site.edges}
    for number, edge in left.items():
        if number not in known:
            one = Operation("call", edge.file, edge.line, edge.column, edge.name, frozenset((edge.source,)))
            found.append(Site(one, edge.name, (edge,), edge.file, (edge.line, edge.column)))
    return found


def query_of(functions: Sequence[str]) -> str:
    """The query of runs that end in one of the functions, by each call of it."""
    return "cover " + " + ".join(f'@CALL({one}) . "@FUNC({one})*" . NODES(@FUNC({one}))' for one in functions) + "$"


class Sites:
    """Has the goals of sites decided, in a folder of their own below `path`. Raises Failure where the program refuses
    the query."""

    def __init__(self, graph: Graph, path: str, asked: Asked, sites: list[Site], jobs: int) -> None:
        self.graph, self.sites = graph, sites
        names = sorted({site.function for site in sites})
        self.asked = replace(asked, query=query_of(names))
        self.folder = Folder(os.path.join(path, FOLDER))
        self.folder.begin(self.asked, [])
        self.folder.clean()
        self.goals = self.goals_of()
        wanted = [goal for rows in self.goals.values() for goal in rows]
        self.found = decide(self.folder, self.asked, wanted, jobs)
        self.refuted = set(self.folder.refuted(self.asked))
        self.open = self.folder.open(asked.budget)
        shown = [one for goal, one in self.found.items()]
        self.runs = dict(zip(self.found, runs_of(self.asked, shown)))

    def goals_of(self) -> dict[int, dict[int, int]]:
        """By the number of a call's edge the goals that begin with it, each with its node. Raises Failure where a
        goal's text isn't known."""
        made: dict[int, dict[int, int]] = {edge.number: {} for site in self.sites for edge in site.edges}
        for goal in measured(self.asked, []).goals:
            letters = graphs.letters(self.graph, goal.text)
            edge, node = letters[0].edge, letters[-1].node
            if not edge or not node:
                raise Failure(f"the goal {goal.text} isn't known")
            if edge.number in made:
                made[edge.number][goal.number] = node.number
        return made

    def fails(self, edge: int, node: int, run: Run) -> bool:
        """Whether a run ends wrongly at a node behind a call's edge."""
        at = self.graph.edges[run.edges[-1]].target if run.edges else -1
        inner = self.graph.nodes[node].function
        came = next((one for one in reversed(run.edges) if self.graph.owner(self.graph.edges[one]) != inner), None)
        return at == node and came == edge and run.end.split(" ")[0] not in ("returned", "cut")

    def said(self, site: Site) -> Said:
        """What is known of a site: an input whose run fails there, else why it is open, else that it is refuted."""
        rows = [(edge.number, goal, node) for edge in site.edges for goal, node in self.goals[edge.number].items()]
        numbers = tuple(sorted(goal for _, goal, _ in rows))
        for edge, goal, node in rows:
            if goal in self.runs and self.fails(edge, node, self.runs[goal]):
                return Said((goal,), Failed(self.input(goal), self.runs[goal].end))
        left = [goal for _, goal, _ in rows if goal not in self.refuted]
        if left or not rows:
            return Said(
                numbers, None, self.open.get(left[0], "it wasn't decided") if left else "its goals aren't known"
            )
        return Said(numbers)

    def input(self, goal: int) -> Input:
        """The input that hits a goal. KeyError where none is known."""
        return self.found[goal]

    def row(self, site: Site, limits: Limits, unreached: set[int]) -> Row:
        """The row of a site; `unreached` are the nodes that no run comes to."""
        one, said = site.operation, self.said(site)
        failed = said.failed
        verdict, why = Verdict.OPEN, said.open
        if failed:
            verdict, why = Verdict.FAILS, f"{failed.end} by the input {failed.input.line()}"
        elif not said.open:
            verdict, why = refuted(limits, one.nodes <= unreached)
        given, end = (failed.input, failed.end) if failed else (None, "")
        return Row(one.place, one.told, verdict, why, given, end, (one,), said.goals, FOLDER)
