"""What a campaign was asked, with the sums of its sources."""

import hashlib
import os
from dataclasses import dataclass

from fshell_tools.campaign import source_changes
from fshell_tools.core import snapshots
from fshell_tools.core.program import Failure


def sum_of(path: str) -> str:
    """The SHA-256 sum of a file."""
    with open(path, "rb") as file:
        return hashlib.file_digest(file, "sha256").hexdigest()


@dataclass(frozen=True)
class Asked:
    """What a campaign was asked. `place` is the folder in which the sources' names stand."""

    entry: str
    query: str
    sources: tuple[str, ...]
    place: str
    sums: tuple[str, ...]
    bounds: dict[str, int]
    ends: str
    budget: int
    meaning: str = ""
    places: str = ""

    def words(self) -> list[str]:
        """The options of bounds and ends."""
        pairs = [(f"--{name}", str(value)) for name, value in self.bounds.items()]
        return [word for pair in pairs for word in pair] + ([] if self.ends == "returned" else ["--ends", self.ends])

    def differs(self, other: "Asked") -> str:
        """What differs from another campaign's, if something does; a budget may."""
        for name in ("entry", "query", "sources", "place", "bounds", "ends"):
            if getattr(self, name) != getattr(other, name):
                return name
        return ""

    def changed(self, other: "Asked") -> list[str]:
        """The names of the sources whose bytes aren't those of the other question."""
        return [name for name, one, two in zip(self.sources, self.sums, other.sums) if one != two]

    def has_the_goals_of(self, other: "Asked") -> bool:
        """Whether the goals are the same, though sources have changed."""
        is_same = bool(self.meaning) and self.meaning == other.meaning
        return is_same and (self.places == other.places or not source_changes.names_lines(self.query))


def read_sums(sources: tuple[str, ...], place: str) -> tuple[str, ...]:
    """The sums of sources; one that isn't read is a failure."""
    found = []
    for source in sources:
        path = os.path.join(place, source)
        try:
            known = snapshots.held(path)
            found.append(sum_of(path) if known is None else hashlib.sha256(known).hexdigest())
        except OSError as fault:
            raise Failure(f"{source}: {fault.strerror}") from None
    return tuple(found)
