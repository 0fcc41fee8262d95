"""The decisions of docs/DECISIONS.md: their form, and the index at the page's head.

    python/tests/documents/decisions.py            prints the index
    python/tests/documents/decisions.py --write    puts it there

A decision is a heading `###` and, behind an empty line, four lines: `- Context (DAY): `, `- Choice: `, `- Reason: ` and
`- Would change it: `. Read at 120 columns it has fewer than ten lines. Each part, a heading `##`, has the newest first, and no two
decisions have one title. bin/test fails where the page is of another form or has another index.
"""

import os
import re
import sys
import textwrap

from tests import environment
from tests.text_files import anchor, put, text_of

HOME = os.path.join(environment.ROOT, "docs", "DECISIONS.md")
INDEX = re.compile(r"(?<=^## The parts\n\n)(?: *- \[.*\n)*", re.MULTILINE)
FORM = re.compile(r"\n- Context \((\d{4}-\d\d-\d\d)\): \S.*\n- Choice: \S.*\n- Reason: \S.*\n- Would change it: \S.*\n")
MOST_LINES, COLUMNS = 9, 120


def parts(text: str) -> list[tuple[str, list[tuple[str, str]]]]:
    """The parts of a page but the index, each with its decisions: title and what stands below it."""
    found = re.split(r"^## (.*)$", text, flags=re.MULTILINE)
    answer = []
    for heading, part in zip(found[1::2], found[2::2]):
        decisions = re.split(r"^### (.*)\n", part, flags=re.MULTILINE)
        if heading != "The parts":
            answer.append((heading, list(zip(decisions[1::2], decisions[2::2]))))
    return answer


def index(text: str) -> str:
    """The lines that stand at the head of a page and lead to each decision, with those of its part behind the part."""
    lines = []
    for heading, decisions in parts(text):
        lines.append(f"- [{heading}](#{anchor(heading)})")
        lines += [f"  - [{title}](#{anchor(title)})" for title, _ in decisions]
    return "".join(line + "\n" for line in lines)


def faults(text: str) -> list[str]:
    """What is wrong in the form of a page's decisions, a line each."""
    wrong, titles = [], [title for _, decisions in parts(text) for title, _ in decisions]
    wrong += [f"two decisions are called {title}" for title in sorted({t for t in titles if titles.count(t) > 1})]
    for heading, decisions in parts(text):
        days = []
        for title, body in decisions:
            found = FORM.fullmatch(body.rstrip("\n") + "\n")
            if found is None:
                wrong.append(
                    f"{title}: it isn't a line each for context with its day, choice, reason, what would change it"
                )
                continue
            days.append(found[1])
            lines = [line for part in body.strip().splitlines() for line in textwrap.wrap(part, COLUMNS)]
            if len(lines) > MOST_LINES:
                wrong.append(f"{title}: {len(lines)} lines of {COLUMNS} columns, more than {MOST_LINES}")
        if days != sorted(days, reverse=True):
            wrong.append(f"{heading}: the newest decision isn't first")
    return wrong


def wrong() -> list[str]:
    """A line for each fault of form, and one where the page has another index than the one that is due."""
    text = text_of(HOME)
    found = INDEX.search(text)
    lines = [f"docs/DECISIONS.md: {fault}" for fault in faults(text)]
    if found is None or found[0] != index(text):
        lines.append("docs/DECISIONS.md: its index is another one; bin/test --write puts it right")
    return lines


def write() -> None:
    """Puts the index into its place."""
    text = text_of(HOME)
    put(HOME, INDEX.sub(lambda _: index(text), text, count=1))


if __name__ == "__main__":
    if sys.argv[1:] == ["--write"]:
        write()
    else:
        print(index(text_of(HOME)), end="")
