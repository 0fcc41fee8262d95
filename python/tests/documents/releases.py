"""The form of CHANGELOG.md: releases with their days, the newest first, each with what users get and what those who prove get."""

import os
import re

from tests import environment
from tests.text_files import text_of

HOME = os.path.join(environment.ROOT, "CHANGELOG.md")
READERS = ["For users", "For those who prove"]


def faults(text: str) -> list[str]:
    """A line for each fault of a page."""
    wrong, days = [], []
    for release in re.split(r"^## ", text, flags=re.MULTILINE)[1:]:
        title, _, body = release.partition("\n")
        found = re.match(r"(\d{4}-\d\d-\d\d): \S", title)
        if found is None:
            wrong.append(f"{title}: a release begins with its day and has a title")
        else:
            days.append(found[1])
        if re.findall(r"^### (.*)$", body, re.MULTILINE) != READERS:
            wrong.append(f"{title}: it hasn't the parts {' and '.join(READERS)}")
        wrong += [f"{title}: {line[:60]}" for line in body.splitlines() if line and not line.startswith(("### ", "- "))]
    if not days or days != sorted(set(days), reverse=True):
        wrong.append("the newest release isn't first, or two have one day")
    return wrong


def wrong() -> list[str]:
    """A line for each fault of CHANGELOG.md."""
    return [f"CHANGELOG.md: {fault}" for fault in faults(text_of(HOME))]
