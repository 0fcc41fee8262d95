"""The sums of the table of the gate's processor minutes in bench/RESULTS.md; and that each figure of time or memory that a decision
of docs/DECISIONS.md has stands on that page too, where its day is told."""

import os
import re

from tests import environment
from tests.text_files import text_of

HOME = os.path.join(environment.ROOT, "bench", "RESULTS.md")
DECISIONS = os.path.join(environment.ROOT, "docs", "DECISIONS.md")
# a number, perhaps from another one on, with a unit
FIGURE = re.compile(r"\b(?:\d[\d.,]* to )?(\d[\d.,]*) (s|ms|seconds|minutes|hours|KB|MB|GB)\b")
PARTS = ("Libraries and programs", "Tests", "Both", "Of edits")


def table(text: str) -> list[dict[str, str]]:
    """The rows of the first table behind the heading `The gate`, each with its cells by the heads of their columns."""
    found = re.search(r"^## The gate\n(?:(?!\|).*\n)*((?:\|.*\n)+)", text, re.MULTILINE)
    rows = [[cell.strip() for cell in line.split("|")[1:-1]] for line in found[1].splitlines()] if found else []
    return [dict(zip(rows[0], row)) for row in rows[2:]]


def faults(text: str) -> list[str]:
    """A line for each row whose parts, where it has some, don't come to the whole."""
    wrong, rows = [], table(text)
    if not rows:
        return ["there is no table of the gate's processor minutes"]
    for row in rows:
        parts = [int(row[part]) for part in PARTS if row.get(part)]
        if not row.get("In all") or (parts and sum(parts) != int(row["In all"])):
            wrong.append(
                f"the gate of {row.get('Crates')} crates, {row.get('Day')}: {parts} don't come to {row.get('In all')}"
            )
    return wrong


def untold(decisions: str, results: str) -> list[str]:
    """The figures of a page of decisions that a page of results hasn't: numbers with their unit, which may follow several numbers
    (`2, 3 and 4 MB`)."""
    found = []
    for figure in FIGURE.finditer(decisions):
        among = rf"(?<![\d.,]){re.escape(figure[1])}(?:[\d.,]| and | to )*(?<=[\d ]) ?{figure[2]}\b"
        if not re.search(among, results) and figure[0] not in found:
            found.append(figure[0])
    return found


def wrong() -> list[str]:
    """A line for each fault of the page, and for each figure of a decision that it hasn't."""
    results = text_of(HOME)
    return [f"bench/RESULTS.md: {fault}" for fault in faults(results)] + [
        f"docs/DECISIONS.md: bench/RESULTS.md hasn't the figure {one}" for one in untold(text_of(DECISIONS), results)
    ]
