"""The rows of fshell rte for other programs: findings at places, and a C file that repeats the failures under gcc's sanitizers."""

import dataclasses
import os
import re
from collections.abc import Sequence

from fshell_tools.campaign.request import Asked
from fshell_tools.core import original_sources, sarif, source_map
from fshell_tools.core.graph import Graph
from fshell_tools.core.sarif import Finding
from fshell_tools.rte.checked_calls import FOLDER, header_of
from fshell_tools.rte.rows import Row, Verdict

RULES = {
    "run-time-error": ("error", "A run is ended by an operation: the input is told."),
    "possible-error": ("warning", "It isn't shown that no run is ended by an operation."),
    "dead-operation": ("note", "No run comes to an operation."),
}
OF_VERDICT = {
    Verdict.FAILS: "run-time-error",
    Verdict.OPEN: "possible-error",
    Verdict.WITHIN: "possible-error",
    Verdict.NOT_REACHED: "dead-operation",
}


def place_of(row: Row) -> tuple[str, int, int]:
    """The file, the line and the column of a row, from 1; a node has column 1. Names are those from this folder."""
    found = re.fullmatch(r"(.*?):(\d+)(?::(\d+))?", row.place)
    file, line, column = (found[1], found[2], found[3] or "1") if found else (row.place, "1", "1")
    return os.path.relpath(file) if os.path.isabs(file) else file, int(line), int(column)


def of_the_user(row: Row, asked: Asked) -> Row:
    """A row as the user knows it: of a source that fshell adapt wrote the place in the original, and its names; `asked`
    says where the sources stand. An operation that was written as a call has these already."""
    if row.folder == FOLDER:
        return row
    file, *spot = row.place.rsplit(":", 2) if row.operations else row.place.rsplit(":", 1)
    place = original_sources.place_of(file, int(spot[0]), int(spot[1]) if len(spot) > 1 else 0, asked.place)
    what = original_sources.words_of(row.what, asked.sources, asked.place)
    return dataclasses.replace(row, place=place, what=what)


def findings(rows: Sequence[Row]) -> list[Finding]:
    """What is to be looked at, in the order of the rows; a row that is never wrong is nothing."""
    found = []
    for row in rows:
        rule = OF_VERDICT.get(row.verdict)
        if rule:
            text = f"{row.verdict}: {row.what}" + (f": {row.why}" if row.why else "")
            found.append(Finding(rule, RULES[rule][0], *place_of(row), text))
    return found


def not_looked_at(graph: Graph, asked: Asked) -> list[str]:
    """What can go wrong in runs of the entry, or in the sources, without a row."""
    reached = graph.reached(asked.entry)
    others = [one.name for one in graph.functions if one.name not in reached]
    found = []
    if not header_of(asked.sources):
        found.append("signed overflow (fshell adapt --check-overflow)")
    if asked.ends != "any":
        found.append("assumes that fail and calls that are too deep (--ends any)")
    if others:
        found.append(f"functions that {asked.entry} doesn't call ({', '.join(others)})")
    if any(os.path.exists(os.path.join(os.path.dirname(name), source_map.NAME)) for name in asked.sources):
        found.append("memory that was freed (docs/ADAPT.md)")
    return found


def lines_of(missing: Sequence[str]) -> list[str]:
    """The line that says what isn't looked at; none where nothing is missing."""
    return [f"not looked at: {'; '.join(missing)}"] if missing else []


def sarif_of(rows: Sequence[Row], asked: Asked, missing: Sequence[str]) -> str:
    """The rows as SARIF 2.1.0 (OASIS); names of files are those from the folder of the question. What isn't looked at is a
    property of the run."""
    return sarif.text_of(findings(rows), RULES, os.path.realpath(asked.place), {"notLookedAt": list(missing)})
