"""What `fshell adapt --compare` found of the sources of a campaign: the report `compare.json` beside what it wrote (docs/FORMATS.md)."""

import json
import os
from collections.abc import Sequence
from dataclasses import asdict, dataclass
from typing import Any

from fshell_tools.core import program, source_map
from fshell_tools.core.program import Failure

NAME = "compare.json"
FORM = "fshell compare 1"
NONE = "compared with the original on no inputs (fshell adapt --compare)"


@dataclass(frozen=True)
class Compared:
    """A report: its path, the inputs of each kind, the differences, the runs that C gives no meaning, and the builds."""

    path: str
    random: int
    boundary: int
    differences: int
    without_meaning: int
    builds: list[str]

    @property
    def line(self) -> str:
        """What a campaign tells of it."""
        inputs = f"{self.random} random and {self.boundary} boundary inputs"
        return (
            f"compared with the original on {inputs}, {self.differences} differ, of {self.without_meaning} C gives the end no "
            f"meaning: {self.path}, by {', '.join(self.builds)}"
        )


def _read(path: str) -> dict[str, Any]:
    """A report as it stands. Raises ValueError, KeyError or TypeError where it is none."""
    value = json.loads(program.read(path))
    if not isinstance(value, dict) or value["form"] != FORM:
        raise ValueError
    return value


def _is_of(value: dict[str, Any], folder: str) -> bool:
    """Whether all files that a report names are as they were."""
    try:
        return all(
            source_map.sum_of(program.read(os.path.normpath(os.path.join(folder, name)))) == noted
            for part in ("written", "originals")
            for name, noted in value[part].items()
        )
    except Failure:
        return False


def of_folder(folder: str, place: str) -> Compared | str:
    """The report of a folder in which sources stand that were written, or why none counts."""
    shown = os.path.join(folder, NAME)
    path = os.path.join(place, shown)
    if not os.path.exists(path):
        return NONE
    try:
        value = _read(path)
        if not _is_of(value, os.path.dirname(path)):
            return f"{shown} is of other files; run fshell adapt --compare again"
        counts = value["inputs"]
        builds = [f"{one['compiler']} {one['level']}" for one in value["builds"]]
        apart = sum(value["without_meaning"].values())
        return Compared(shown, counts["random"], counts["boundary"], len(value["differences"]), apart, builds)
    except (ValueError, KeyError, TypeError, AttributeError, RecursionError):
        return f"{shown} is no report of fshell adapt --compare"


def of_sources(sources: Sequence[str], place: str) -> dict[str, Compared | str]:
    """What is known of each folder whose sources fshell adapt wrote, in their order."""
    written = [one for one in sources if source_map.of_source(one, place)]
    return {folder: of_folder(folder, place) for folder in dict.fromkeys(os.path.dirname(one) for one in written)}


def lines(sources: Sequence[str], place: str) -> list[str]:
    """What a campaign tells of its sources, a line a folder; nothing where fshell adapt wrote none of them."""
    found = of_sources(sources, place)
    return [
        f"{folder or '.'} was written by fshell adapt, {one if isinstance(one, str) else one.line}"
        for folder, one in found.items()
    ]


def values(sources: Sequence[str], place: str) -> list[dict[str, object]]:
    """The same as JSON."""
    found = of_sources(sources, place)
    return [
        {"folder": folder or "."} | ({"why": one} if isinstance(one, str) else asdict(one))
        for folder, one in found.items()
    ]
