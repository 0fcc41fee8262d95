"""The requirements of a module: ids and texts, and for some of them the clause that says them in the language of queries.

    [[requirement]]
    id = "R-1"
    text = "The pump never runs while the tank is empty."
    entry = "pump_step"                      where runs begin
    passing = "^NOT(@CALL(start))*$"         a run to the entry's end that is so; or
    cover = "{running == 1 && level == 0}"   goals of their own; PRED(..) too
    never = true                             no run may meet them
"""

import re
from dataclasses import dataclass

from fshell_tools.project.settings import Entry, Settings
from fshell_tools.project.toml_tables import File, Table
from fshell_tools.project.unit import sum_of_text


@dataclass(frozen=True)
class Requirement:
    """A requirement, at a line of its file; its query is empty where inputs alone say that they test it. One that
    `is_never` holds where no run meets its query."""

    id: str
    text: str
    entry: str = ""
    query: str = ""
    is_never: bool = False
    line: int = 0


def _query(table: Table, entry: str, is_never: bool) -> str:
    """The query of a requirement's clause."""
    passing, cover = table.text("passing"), table.text("cover")
    if passing is None and cover is None:
        if is_never:
            table.fault("never", "never needs the clause passing or cover")
        return ""
    if not entry:
        table.file.fault(table.path, f"{table.name} has no key entry, from which its runs begin")
    clause = "" if passing is None else f" passing {passing}"
    return f"cover {cover or f'@EXIT({entry})'}{clause}"


def _requirement(table: Table, entries: dict[str, Entry]) -> Requirement:
    name, text = table.text("id", need=True) or "", table.text("text", need=True) or ""
    entry = table.text("entry") or ""
    if entry and entry not in entries:
        table.fault("entry", f"{entry} is no [[entry]]; they are {', '.join(entries)}")
    is_never = table.flag("never")
    found = Requirement(name, text, entry, _query(table, entry, is_never), is_never, table.line)
    table.end()
    return found


def of_settings(settings: Settings) -> tuple[Requirement, ...]:
    """The requirements of the file that the settings name, none where they name none. Raises Failure where it can't be
    read, and Faults with all that is wrong in it."""
    if settings.requirements is None:
        return ()
    file = File(settings.at(settings.requirements))
    top = file.top()
    entries = {entry.function: entry for entry in settings.entries}
    found: dict[str, Requirement] = {}
    for table in top.tables("requirement"):
        one = _requirement(table, entries)
        if one.id in found:
            table.fault("id", f"the requirement {one.id} stands at line {found[one.id].line} already")
        found.setdefault(one.id, one)
    top.end()
    file.end()
    return tuple(found.values())


def task_name(requirement: Requirement) -> str:
    """The name of the task of a requirement: its id, as far as a file's name may have it (60 letters), and where that
    isn't all of it eight digits of its sum."""
    plain = re.sub(r"[^A-Za-z0-9_-]", "_", requirement.id)[:60]
    told = "" if plain == requirement.id else "-" + sum_of_text(requirement.id)[:8]
    return f"requirement-{plain}{told}"
