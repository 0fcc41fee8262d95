"""What fshell.toml says, as records. Everything that is wrong with it is told with its line."""

import os
from dataclasses import dataclass, field

from fshell_tools.core import program
from fshell_tools.core.reports import BOUNDS as BOUND_NAMES
from fshell_tools.core.reports import ENDS
from fshell_tools.project import criteria
from fshell_tools.project.toml_tables import File, Table

BOUNDS = {"turns": 4, "frames": 8, "answers": 16}
BUDGET = 5_000_000
ADAPT = ("where needed", "always", "never")


@dataclass(frozen=True)
class Module:
    """The sources, and how they are read; names are from the settings' folder. `defines` are NAME=VALUE, `answered` the
    functions that give inputs (--input of fshell adapt), `adapt` one of ADAPT, `left_out` functions that no entry needs to
    reach."""

    sources: tuple[str, ...]
    drivers: tuple[str, ...] = ()
    include: tuple[str, ...] = ()
    defines: tuple[str, ...] = ()
    answered: tuple[str, ...] = ()
    adapt: str = ADAPT[0]
    left_out: tuple[str, ...] = ()

    @property
    def all_sources(self) -> tuple[str, ...]:
        """The sources, and behind them those of drivers and stubs."""
        return self.sources + self.drivers


@dataclass(frozen=True)
class Entry:
    """A function from which runs begin, and what is asked of it, at a line of the file: criteria or queries, bounds,
    which ends count (ENDS), the budget in moves of a search, and files of inputs."""

    function: str
    queries: tuple[str, ...]
    bounds: dict[str, int] = field(default_factory=lambda: dict(BOUNDS))
    ends: str = "returned"
    budget: int = BUDGET
    inputs: tuple[str, ...] = ()
    line: int = 0

    def options(self) -> list[str]:
        """The bounds as options of the program."""
        return [word for name in BOUND_NAMES for word in (f"--{name}", str(self.bounds[name]))]


@dataclass(frozen=True)
class Gate:
    """What must hold: least percentages, from 0 to 100, of covered goals and of shown conditions, no run-time errors,
    and all requirements. What is None or False isn't asked for. `allow_traps` names places (FILE:LINE) and functions at which runs
    may trap."""

    at_least: float | None = None
    mcdc: float | None = None
    no_run_time_errors: bool = False
    requirements: bool = False
    allow_traps: tuple[str, ...] = ()

    @property
    def asks(self) -> bool:
        """Whether it asks for anything."""
        return self != Gate(allow_traps=self.allow_traps)


@dataclass(frozen=True)
class Settings:
    """What the file at `path` says; `folder` is the one that its names are read from."""

    path: str
    folder: str
    module: Module
    entries: tuple[Entry, ...]
    gate: Gate
    requirements: str | None = None

    def at(self, name: str) -> str:
        """The path of a file that the settings name."""
        return os.path.join(self.folder, name)


def _module(table: Table) -> Module:
    found = Module(
        table.files("sources", need=True),
        table.files("drivers"),
        table.files("include", is_folder=True),
        table.texts("defines"),
        table.texts("answered"),
        table.choice("adapt", ADAPT),
        table.texts("left-out"),
    )
    if table.has("sources") and not found.sources:
        table.fault("sources", "sources of [module] is empty")
    table.end()
    return found


def _bounds(table: Table) -> dict[str, int]:
    """The bounds of an entry."""
    found = dict(BOUNDS)
    inner = table.table("bounds")
    if inner:
        for name in found:
            value = inner.whole(name, *program.RANGES[name])
            found[name] = found[name] if value is None else value
        inner.end()
    return found


def _entry(table: Table) -> Entry:
    function = table.text("function", need=True) or ""
    queries = table.texts("queries", need=True)
    if table.has("queries") and not queries:
        table.fault("queries", "queries of [[entry]] is empty")
    for number, one in enumerate(queries):
        wrong = criteria.fault(one)
        if wrong:
            table.file.fault((*table.path, "queries", number), wrong)
    budget = table.whole("budget", *program.RANGES["budget"])
    found = Entry(
        function,
        queries,
        _bounds(table),
        table.choice("ends", ENDS),
        budget or BUDGET,
        table.files("inputs"),
        table.line,
    )
    table.end()
    return found


def _gate(table: Table | None) -> Gate:
    if table is None:
        return Gate()
    found = Gate(
        table.percent("at-least"),
        table.percent("mcdc"),
        table.flag("no-run-time-errors"),
        table.flag("requirements"),
        table.texts("allow-traps"),
    )
    table.end()
    return found


def _entries(file: File, tables: list[Table]) -> tuple[Entry, ...]:
    """The entries; each stands once."""
    found: dict[str, Entry] = {}
    for table in tables:
        one = _entry(table)
        if one.function in found:
            table.fault("function", f"the entry {one.function} stands at line {found[one.function].line} already")
        found.setdefault(one.function, one)
    if not tables:
        file.fault((), "it has no [[entry]]")
    return tuple(found.values())


def _requirements(top: Table) -> str | None:
    """The name of the file of requirements."""
    table = top.table("requirements")
    if table is None:
        return None
    name = table.text("file", need=True)
    if name is not None and not os.path.isfile(os.path.join(table.file.folder, name)):
        table.fault("file", f"{name}: there is no such file")
    table.end()
    return name


def of_file(path: str) -> Settings:
    """What a file of settings says (docs/MODULE.md). Raises Failure where it can't be read or is no TOML, and Faults
    with all that is wrong with it, each with its line."""
    file = File(path)
    top = file.top()
    module = top.table("module")
    if module is None and not top.has("module"):
        file.fault((), "it has no [module]")
    read = _module(module) if module else Module(())
    entries = _entries(file, top.tables("entry"))
    gate, requirements = _gate(top.table("gate")), _requirements(top)
    top.end()
    file.end()
    return Settings(path, file.folder, read, entries, gate, requirements)
