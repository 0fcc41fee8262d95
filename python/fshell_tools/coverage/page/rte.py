"""The page of a folder of fshell rte: each operation with its verdict, and the sources with a mark at each."""

import json
import os
import shlex
from dataclasses import dataclass, field
from typing import Any

from fshell_tools.bounds import sufficiency
from fshell_tools.campaign.state_folder import Folder
from fshell_tools.core import program, source_map, templates
from fshell_tools.core.program import Failure
from fshell_tools.core.reports import BOUNDS
from fshell_tools.coverage.page.report_context import take_judged
from fshell_tools.rte import checked_calls, search
from fshell_tools.rte.export import lines_of
from fshell_tools.rte.rows import Verdict

TEMPLATE = os.path.join(os.path.dirname(os.path.realpath(__file__)), "rte.html")
MARKS = {
    Verdict.FAILS: "fails",
    Verdict.OPEN: "open",
    Verdict.WITHIN: "within",
    Verdict.NOT_REACHED: "unreached",
    Verdict.NEVER: "never",
}
SIGNS = {"fails": "✗", "open": "?", "within": "⊘", "unreached": "∅", "never": "✓"}


@dataclass(frozen=True)
class Shown:
    """A row of the page, at FILE:LINE:COLUMN, with its mark (a key of SIGNS), what gcc says of a failure, and the
    commands that show it again; `at` is the name of the line that it leads to, or nothing."""

    number: int
    place: str
    what: str
    verdict: str
    mark: str
    why: str
    gcc: str
    at: str
    commands: tuple[str, ...]


@dataclass
class Line:
    """A line of a source, by its name in links, with the rows that stand there."""

    id: str
    text: str
    rows: list[Shown] = field(default_factory=list)

    @property
    def mark(self) -> str:
        """The first mark of its rows that is to be looked at, in the order of SIGNS; nothing where it has no row."""
        found = {row.mark for row in self.rows}
        return next((mark for mark in SIGNS if mark in found), "")


@dataclass
class File:
    """A source by its name, with its lines in their order."""

    name: str
    lines: list[Line]


class Page:
    """What the page shows of a folder of fshell rte. Raises Failure where its rte.json isn't there or isn't whole, or a
    source can't be read."""

    def __init__(self, folder: str) -> None:
        self.folder = folder
        try:
            self.value = json.loads(program.read(os.path.join(folder, "rte.json")))
            self.asked = json.loads(program.read(os.path.join(folder, "campaign.json")))
            self.entry, self.bounds, self.ends = (self.value[name] for name in ("entry", "bounds", "ends"))
            folder_of = Folder(folder)
            take_judged(folder_of, folder_of.asked())
            self.said = [*sufficiency.of_value(self.value["limits"]).lines(), *lines_of(self.value["not_looked_at"])]
            self.files = self.files_of([*self.value["sources"], *self.originals()])
            self.rows = [self.row(number, row) for number, row in enumerate(self.value["rows"], 1)]
            self.files = [one for one in self.files if not self.is_written(one)]
        except (ValueError, KeyError, TypeError):
            raise Failure(f"{folder} has no whole rte.json") from None

    def originals(self) -> list[str]:
        """The files of operations that stand in no source, where they are there: those that fshell adapt read."""
        files = [row["place"].split(":")[0] for row in self.value["rows"]]
        here = [name for name in dict.fromkeys(files) if name not in self.value["sources"]]
        return [name for name in here if os.path.exists(os.path.join(self.asked["place"], name))]

    def files_of(self, names: list[str]) -> list[File]:
        """The sources of these names; of those that fshell adapt wrote the header of checked operations is left out.
        Raises Failure where one can't be read."""
        header = checked_calls.header_of(self.value["sources"])
        made = []
        for at, name in enumerate(names):
            text = program.read(os.path.join(self.asked["place"], name)).decode(errors="replace")
            lines = [Line(f"f{at}-{number}", line) for number, line in enumerate(text.split("\n")[:-1], 1)]
            made.append(File(name, lines))
        return [one for one in made if one.name != header]

    def is_written(self, file: File) -> bool:
        """Whether fshell adapt wrote a file, and no row stands there, since the originals are shown."""
        beside = os.path.join(self.asked["place"], os.path.dirname(file.name), source_map.NAME)
        return os.path.exists(beside) and not any(line.rows for line in file.lines)

    def line_of(self, place: str) -> Line | None:
        """The line of a place FILE:LINE:COLUMN, or None where its file isn't shown. ValueError where it is no place."""
        name, _, rest = place.partition(":")
        number = int(rest.split(":")[0])
        file = next((one for one in self.files if one.name == name), None)
        return file.lines[number - 1] if file and number <= len(file.lines) else None

    def row(self, number: int, value: dict[str, Any]) -> Shown:
        """A row, by its number from 1 and its object in rte.json, which is put to its line too."""
        verdict = Verdict(value["verdict"])
        line = self.line_of(value["place"])
        texts = (
            value["place"],
            value["what"],
            str(verdict),
            MARKS[verdict],
            value.get("why", ""),
            value.get("gcc", ""),
        )
        made = Shown(number, *texts, line.id if line else "", tuple(self.commands(verdict, value)))
        if line:
            line.rows.append(made)
        return made

    def commands(self, verdict: Verdict, value: dict[str, Any]) -> list[str]:
        """How a failure is repeated, and how the certificates of what never fails are checked, each as a line for a
        shell; none of what is open."""
        folder = os.path.relpath(self.folder, self.asked["place"])
        if verdict is Verdict.FAILS:
            return (
                [shlex.join([os.path.join(folder, "failures"), str(value["failure"])])] if value.get("failure") else []
            )
        if verdict is Verdict.OPEN:
            return []
        bounds = [word for name in BOUNDS for word in (f"--{name}", str(self.bounds[name]))]
        inner = os.path.join(folder, value.get("folder", ""))
        query, ends = self.question_of(value.get("folder", ""))
        told = [
            [
                self.entry,
                query,
                str(goal),
                os.path.join(inner, "certificates", f"{goal}.cert"),
                *self.value["sources"],
                *bounds,
            ]
            for goal in value["goals"]
        ]
        made = [shlex.join(["fshell", "check", *words, "--ends", ends]) for words in told]
        if verdict is not Verdict.WITHIN:
            words = [self.entry, os.path.join(folder, "bounds.cert"), *self.value["sources"], *bounds]
            made.append(shlex.join(["fshell", "check-bounds", *words]))
        return made

    def question_of(self, inner: str) -> tuple[str, str]:
        """The query of the goals of a row, and which ends of runs count for it, by the folder `inner` that has its
        certificates, or of all where it is empty."""
        if not inner:
            return search.ENDINGS, self.ends
        asked = json.loads(program.read(os.path.join(self.folder, inner, "campaign.json")))
        return asked["query"], asked["ends"]

    def count(self, mark: str) -> int:
        """How many rows have a mark."""
        return sum(row.mark == mark for row in self.rows)


def is_folder(name: str) -> bool:
    """Whether a folder is one of fshell rte: it has a file rte.json."""
    return os.path.exists(os.path.join(name, "rte.json"))


def text_of(page: Page) -> str:
    """The page as HTML. Raises Failure where jinja2 isn't there."""
    names = {mark: str(verdict) for verdict, mark in MARKS.items()}
    return templates.rendered(TEMPLATE, page=page, signs=SIGNS, names=names)


def write(folder: str, out: str) -> int:
    """Writes the page of a folder to a file, and says on standard output what is on it; the status: 0. Raises Failure
    where it can't be read or written."""
    page = Page(folder)
    program.write_whole(out, text_of(page))
    counts = ", ".join(f"{page.count(mark)} {verdict}" for verdict, mark in MARKS.items())
    print(f"{out}: {len(page.rows)} operations, {counts}")
    return program.DONE
