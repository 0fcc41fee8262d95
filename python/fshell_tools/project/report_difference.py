"""The difference of two reports: goals that are new, that are gone, that are newly covered, and that were covered and aren't."""

import json
import os
from dataclasses import dataclass, field
from typing import Any

from fshell_tools.core import graph as graphs
from fshell_tools.core import program
from fshell_tools.core.program import Failure
from fshell_tools.core.verdicts import Verdict
from fshell_tools.project.carry_over import Mapping
from fshell_tools.project.results import Results


@dataclass
class Difference:
    """The goals of two reports by what became of them, each as its criterion and its text. What `kept` names was
    covered before and is so still."""

    folder: str
    new: list[str] = field(default_factory=list)
    gone: list[str] = field(default_factory=list)
    covered: list[str] = field(default_factory=list)
    lost: list[str] = field(default_factory=list)
    kept: list[str] = field(default_factory=list)

    def lines(self) -> list[str]:
        """What is told: a line of numbers, and one for each goal that is new, gone, newly covered or lost."""
        parts = (("new", self.new), ("gone", self.gone), ("newly covered", self.covered), ("lost", self.lost))
        head = ", ".join(f"{len(goals)} {name}" for name, goals in parts)
        return [f"since {self.folder}: {head}", *(f"{name}: {goal}" for name, goals in parts for goal in goals)]


def earlier(folder: str) -> tuple[dict[str, Any], graphs.Graph]:
    """The report that stands in a folder, as its goals' criteria, texts and verdicts (`rows`), with its automaton.
    Raises Failure where none does."""
    path = os.path.join(folder, "report.json")
    try:
        value = json.loads(program.read(path))
        rows = [(one["criterion"], one["text"], one["verdict"]) for one in value["goals"]]
        graph = graphs.of_text(program.read(os.path.join(folder, "graph.txt")).decode())
    except (ValueError, KeyError, TypeError, RecursionError):
        raise Failure(f"{path} is no report of fshell run") from None
    return {"rows": rows}, graph


def difference(folder: str, results: Results) -> Difference:
    """What became of the goals of the report in `folder`, which are found again by their edges and nodes. Raises
    Failure where none stands there."""
    value, graph = earlier(folder)
    found = Difference(folder)
    mapping = Mapping(graph, results.graph)
    now = {(row.criterion, row.text): row.verdict for row in results.rows}
    matched = set()
    for criterion, text, verdict in value["rows"]:
        key = criterion, mapping.text(text)
        if key not in now:
            found.gone.append(f"{criterion}: {text}")
            continue
        matched.add(key)
        was, is_covered = verdict == Verdict.COVERED, now[key] is Verdict.COVERED
        rows = {(True, False): found.lost, (False, True): found.covered, (True, True): found.kept}.get(
            (was, is_covered)
        )
        if rows is not None:
            rows.append(f"{criterion}: {key[1]}")
    found.new = [f"{criterion}: {text}" for criterion, text in now if (criterion, text) not in matched]
    return found
