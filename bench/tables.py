"""Tables as RESULTS.md has them: a script prints its rows in Markdown, and below them the line that says of what they are."""

import datetime
import hashlib
import os
import subprocess

from programs import ROOT


def heads(*names: str) -> str:
    """The two lines that begin a table with columns of these names."""
    return f"{row(*names)}\n|{'---|' * len(names)}"


def row(*cells: object) -> str:
    """A line of a table."""
    return f"| {' | '.join(str(cell) for cell in cells)} |"


def commit() -> str:
    """The commit that stands checked out, or nothing where this is no checkout."""
    words = ["git", "-C", ROOT, "rev-parse", "--short=8", "HEAD"]
    found = subprocess.run(words, stdout=subprocess.PIPE, stderr=subprocess.DEVNULL, text=True, check=False)
    return found.stdout.strip()


def sum_of(path: str) -> str:
    """The first twelve digits of a file's SHA-256, by which a program is told from another."""
    with open(path, "rb") as file:
        return hashlib.sha256(file.read()).hexdigest()[:12]


def stamp(program: str, begun: float) -> str:
    """The line below a table: the day, the commit, the program's sum, and the machine's load at the begin and now."""
    day = datetime.datetime.now(datetime.timezone.utc).date().isoformat()
    loads = f"{begun:.0f} at the begin, {os.getloadavg()[0]:.0f} at the end"
    return f"{day}, commit {commit()}, program {sum_of(program)}, the machine's load {loads}"


def load() -> float:
    """How many processes wanted a processor in the last minute."""
    return os.getloadavg()[0]
