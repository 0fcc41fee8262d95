"""The traps that fshell adapt adds, by the map beside what it wrote (fshell.map): a run of the original goes on, or has no meaning, where one of
these ends a run of what was written. A goal that is refuted of what was written is refuted of the original only if no run comes to such a
trap; `reachable` asks the program, with its certificates, by one query."""

from collections.abc import Sequence
from dataclasses import dataclass

from fshell_tools.core import environments, program, source_map
from fshell_tools.core.program import Failure

MOST = 400  # traps in one query


@dataclass(frozen=True)
class Trap:
    """A trap: the file and the line of what was written, the reason and C's clause, and whether C gives no meaning to a run that comes to
    it, so that it is a fault of the original."""

    file: str
    line: int
    reason: str
    clause: str
    is_fault: bool

    @property
    def text(self) -> str:
        """What stands behind `refuted unless`."""
        return f"the translation traps at {self.file}:{self.line} ({self.reason})"


def listed(sources: Sequence[str], place: str = ".") -> list[Trap]:
    """The traps of sources that fshell adapt wrote; none of others. Raises Failure where a map isn't that of its sources."""
    found = []
    for name in sources:
        mapped = source_map.of_source(name, place)
        for line, reason, clause, fault in mapped.traps if mapped else ():
            found.append(Trap(name, line, reason, clause, fault))
    return found


def query(traps: Sequence[Trap]) -> str:
    """The query of runs that end on a line of one of the traps, for `--ends trapped`."""
    lines = dict.fromkeys((one.file, one.line) for one in traps)
    filters = [f"INTERSECT(@FILE({file}), @LINE({line}))" for file, line in lines]
    whole = filters[0]
    for one in filters[1:]:
        whole = f"UNION({whole}, {one})"
    return f"cover NODES({whole})$"


def restriction(entry: str, sources: Sequence[str], bounds: Sequence[str], place: str | None = None) -> str:
    """Why a goal that is refuted of what fshell adapt wrote isn't called unreachable in the original, in words; nothing where the entry's
    environment is closed and no run within the bounds comes to a trap that was added, or none was."""
    try:
        if is_open := environments.restriction(entry, sources, place):
            return is_open
        found = reachable(entry, sources, bounds, place or ".")
    except Failure as failure:
        return f"whether the translation traps isn't known: {failure}"
    if not found:
        return ""
    more = f" and at {len(found) - 1} more lines, which fshell.map lists" if len(found) > 1 else ""
    return f"{found[0].text}{more}"


def reachable(entry: str, sources: Sequence[str], bounds: Sequence[str], place: str = ".") -> list[Trap]:
    """The traps that a run within the bounds may come to: those on whose lines a run that ends by a trap is found, or isn't refuted by
    `generate`. `bounds` are the program's words for these. Raises Failure where the program refuses."""
    traps, found = listed(sources, place), list[Trap]()
    for at in range(0, len(traps), MOST):
        own = traps[at : at + MOST]
        asked = ["generate", entry, query(own), *sources, *bounds, "--ends", "trapped"]
        left = {goal.text for goal in program.report(asked, place).goals if goal.verdict != "refuted"}
        graph_lines = {text.rsplit("@", 1)[-1] for text in left}
        found += [one for one in own if any(f"{one.file}:{one.line}" == where for where in graph_lines)]
    return found
