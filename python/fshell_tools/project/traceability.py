"""The traceability matrix: each requirement with its goals, its tests and its certificates."""

import csv
import io
import json
from typing import Any

from fshell_tools.project.records import Goal
from fshell_tools.project.results import Results, state_of


def _goal(goal: Goal) -> dict[str, Any]:
    """A goal of a requirement as JSON."""
    value: dict[str, Any] = {"text": goal.text, "verdict": str(goal.verdict)}
    if goal.test:
        value["test"] = goal.test.id
    if goal.certificate:
        value["certificate"] = goal.certificate
    return value


def rows(results: Results) -> list[dict[str, Any]]:
    """The rows of the matrix as JSON's values, one a requirement, in the order of their file."""
    found = []
    for one in results.requirements:
        state, goals, tests = state_of(one, results)
        found.append(
            {
                "id": one.id,
                "text": one.text,
                "entry": one.entry,
                "query": one.query,
                "never": one.is_never,
                "state": state,
                "goals": [_goal(goal) for goal in goals],
                "tests": [test.id for test in tests],
                "certificates": [goal.certificate for goal in goals if goal.certificate],
            }
        )
    return found


def as_json(results: Results) -> str:
    """The matrix as JSON: an object whose key `requirements` has the rows."""
    return json.dumps({"requirements": rows(results)}, indent=1, ensure_ascii=False) + "\n"


# what a spreadsheet takes a formula to begin with, by OWASP's list (CSV injection), which has the wide forms too
_FORMULA = ("=", "+", "-", "@", "\t", "\r", "\n", "\uff1d", "\uff0b", "\uff0d", "\uff20")


def cell(text: str) -> str:
    """A cell that no spreadsheet takes for a formula: what would be one has ' before it."""
    return "'" + text if text.startswith(_FORMULA) else text


def line_of(cells: list[str]) -> str:
    """A line of CSV (RFC 4180), with each cell in quotes, so that none begins another."""
    file = io.StringIO()
    csv.writer(file, quoting=csv.QUOTE_ALL).writerow([cell(text) for text in cells])
    return file.getvalue()


def as_csv(results: Results) -> str:
    """The matrix as CSV (RFC 4180): a line for each goal of a requirement, or one where it has none. A cell that a
    spreadsheet would take for a formula has ' before it, and all stand in quotes."""
    lines = [line_of(["requirement", "text", "state", "entry", "goal", "verdict", "tests", "certificate"])]
    for row in rows(results):
        head = [row["id"], row["text"], row["state"], row["entry"]]
        tests = " ".join(row["tests"])
        for goal in row["goals"] or [{}]:
            behind = [
                goal.get("text", ""),
                goal.get("verdict", ""),
                goal.get("test", tests),
                goal.get("certificate", ""),
            ]
            lines.append(line_of(head + behind))
    return "".join(lines)
