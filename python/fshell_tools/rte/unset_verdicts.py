"""Verdicts of reads of objects that may never have been set, and of results of functions that may end without a `return`.

Of a read the goals are the runs that come from the object's declaration to the read and don't write the object between. Of a result
they are the edges by which its function ends without a value. Where all are refuted, none is ever used. Each input that is found is
run, and goes along its edges here: it fails where that run uses what has no value. Each question has a folder of its own, `unset/N`.
"""

import os
from collections.abc import Callable
from dataclasses import dataclass, replace

from fshell_tools.campaign.main import measured
from fshell_tools.campaign.request import Asked
from fshell_tools.campaign.state_folder import Folder
from fshell_tools.core import graph as graphs
from fshell_tools.core.graph import Graph, Letter
from fshell_tools.core.program import Failure
from fshell_tools.core.reports import Input
from fshell_tools.core.verdicts import Limits
from fshell_tools.rte.failing_operations import Finder, Operation
from fshell_tools.rte.rows import Row, Verdict, refuted
from fshell_tools.rte.search import Failed, decide, runs_of
from fshell_tools.rte.unset_objects import Flow, Read, Result

Letters = list[Letter]
MOST = 64  # questions
READ, RESULT, ELEMENTS = "read", "result", "elements"
WORDS = {READ: "read of", RESULT: "use of the result of", ELEMENTS: "reads of elements of"}
NEVER_SET, NO_VALUE = "it was never set", "the function ended without a value"
ARRAY = "it isn't shown that elements are set before they are read"
NO_QUESTION = "it isn't shown to be set on each path, and no query asks for that"
ELSEWHERE = "the function can end without a value, by another call of it"


@dataclass(frozen=True)
class Said:
    """What is known of a read or a result: its goals, the folder that has their certificates, and why it is open, or nothing
    where all goals are refuted."""

    goals: tuple[int, ...] = ()
    folder: str = ""
    why: str = ""


class Unset:
    """Has the reads and results decided, in folders below `path`. Raises Failure where a file can't be written."""

    def __init__(self, graph: Graph, finder: Finder, flow: Flow, path: str, asked: Asked, jobs: int) -> None:
        self.graph, self.finder, self.flow, self.path, self.jobs = graph, finder, flow, path, jobs
        self.asked = replace(asked, ends="any")
        self.failed: dict[int, Failed] = {}  # by the token of a read or a call
        self.queries: list[str] = []

    def rows(self, limits: Limits) -> list[tuple[set[int], Row]]:
        """The rows of all reads and results that the flow alone doesn't show to be right, each with its tokens."""
        said: list[tuple[Read | Result, Said]] = [(read, self.of_read(read)) for read in self.flow.reads()]
        said += [(result, self.of_result(result)) for result in self.flow.results()]
        return [({one.token}, self.row(one, known, limits)) for one, known in said]

    def row(self, one: Read | Result, said: Said, limits: Limits) -> Row:
        """The row of a read or a result."""
        word, kind = self.finder.words[one.token], self.kind(one)
        what = Operation(kind, word.file, word.line, word.column, word.text, one.nodes, (one.token, one.token))
        failed = self.failed.get(one.token)
        verdict, why = (Verdict.OPEN, said.why) if said.why else refuted(limits, False)
        if failed:
            verdict, why = Verdict.FAILS, f"{failed.end} by the input {failed.input.line()}"
        given, end = (failed.input, failed.end) if failed else (None, "")
        return Row(what.place, f"{WORDS[kind]} {word.text}", verdict, why, given, end, (what,), said.goals, said.folder)

    def kind(self, one: Read | Result) -> str:
        """The heading of a row: a result, an element of an array, or a read."""
        if isinstance(one, Result):
            return RESULT
        return ELEMENTS if one.object in self.flow.lowering.arrays else READ

    def of_read(self, read: Read) -> Said:
        """The verdict on one use of an object, by the flow or by a query."""
        if read.object in self.flow.lowering.arrays:
            return Said(why=ARRAY)
        if not self.flow.can_ask(read):
            return Said(why=NO_QUESTION)
        name, function = self.finder.words[read.object].text, read.function
        written = f"INTERSECT(@FUNC({function}),@DEF({name}))"
        query = f'cover {written} . "NOT({written})*" . NODES(INTERSECT(@FUNC({function}),@USE({name})))'
        begins = {number for number, step in enumerate(self.flow.steps) if step.unset == read.object}

        def is_ours(letters: Letters) -> bool:
            """Whether a goal begins with the declaration and ends at the read."""
            first, last = letters[0].edge, letters[-1].node
            return first is not None and last is not None and first.number in begins and last.number in read.nodes

        return self.decided(query, is_ours, len(begins) * len(read.nodes), NO_QUESTION)

    def of_result(self, result: Result) -> Said:
        """The verdict on one use of a value that a function may end without."""

        def is_ours(letters: Letters) -> bool:
            """Whether a goal is an edge by which the function ends without a value."""
            return letters[0].edge is not None and letters[0].edge.number in result.edges

        return self.decided(f"cover @EXIT({result.function})", is_ours, len(result.edges), ELSEWHERE)

    def decided(self, query: str, is_ours: Callable[[Letters], bool], count: int, otherwise: str) -> Said:
        """What is known once those goals of a query are decided that are asked for, of which there must be `count`; each input
        that is found is run. Why it is open `otherwise` is told where no run shows it."""
        if query not in self.queries and len(self.queries) >= MOST:
            return Said(why=f"more than {MOST} such questions")
        asked = replace(self.asked, query=query)
        try:
            ours = [goal.number for goal in measured(asked, []).goals if is_ours(graphs.letters(self.graph, goal.text))]
        except (Failure, ValueError):
            return Said(why=NO_QUESTION)
        if len(ours) != count:
            return Said(why=NO_QUESTION)
        self.queries += [] if query in self.queries else [query]
        name = os.path.join("unset", str(self.queries.index(query)))
        folder = Folder(os.path.join(self.path, name))
        folder.begin(asked, [])
        folder.clean()
        found = decide(folder, asked, ours, self.jobs)
        self.run(asked, [found[goal] for goal in ours if goal in found])
        shown = set(folder.refuted(asked))
        left = [goal for goal in ours if goal not in shown]
        return Said(tuple(ours), name, folder.open(asked.budget).get(left[0], otherwise) if left else "")

    def run(self, asked: Asked, given: list[Input]) -> None:
        """Runs inputs, and keeps of each token that fails the first one."""
        for one, run in zip(given, runs_of(asked, given)):
            for token in sorted(self.flow.failing(run)):
                is_result = token in self.flow.lowering.used or token == self.flow.unit.functions[asked.entry].name_at
                self.failed.setdefault(token, Failed(one, NO_VALUE if is_result else NEVER_SET))
