"""The tasks of an entry: what they ask of the program and of the other tools, and what is kept of the answers."""

import glob
import json
import os
import subprocess
import sys
from dataclasses import dataclass, field

from fshell_tools.bounds import sufficiency
from fshell_tools.bounds.other_ends import TOO_LARGE, Question, endings_of
from fshell_tools.bounds.sufficiency import Left
from fshell_tools.campaign.other_runs import names_of
from fshell_tools.campaign.request import Asked
from fshell_tools.core import processes, program
from fshell_tools.core.graph import Graph
from fshell_tools.core.named_inputs import Named, Signature
from fshell_tools.core.program import Failure
from fshell_tools.core.reports import Input, input_of
from fshell_tools.core.sources import Faces
from fshell_tools.core.verdicts import Limits
from fshell_tools.order import main as order
from fshell_tools.project import carry_over, criteria, local_campaign
from fshell_tools.project.entry_slices import Slices
from fshell_tools.project.requirements import Requirement, task_name
from fshell_tools.project.settings import Entry, Settings
from fshell_tools.project.unit import Unit, sum_of_file, sum_of_text
from fshell_tools.project.work_folder import Place, Work


def made_by() -> str:
    """One SHA-256 sum of the program and of the tools that make answers of what it says: by others all is done again."""
    paths = sorted(glob.glob(os.path.join(program.PACKAGE, "**", "*.py"), recursive=True))
    return sum_of_text(json.dumps([sum_of_file(path) for path in (program.program(), *paths)]))


@dataclass
class Context:
    """What all tasks share: the settings, the unit with its automaton and its parts, the work folder, of each entry the
    given inputs and its signature, the requirements, how many jobs go side by side, and the file of other machines, if
    any."""

    settings: Settings
    unit: Unit
    graph: Graph
    slices: Slices
    work: Work
    given: dict[str, list[Named]]
    signatures: dict[str, Signature]
    requirements: tuple[Requirement, ...] = ()
    jobs: int = 1
    logins: str | None = None
    made_by: str = field(default_factory=made_by)

    def key(self, *parts: object) -> str:
        """The sum of what an answer hangs on, with the program and the tools: by the same sum it needn't be asked
        again."""
        return sum_of_text(json.dumps([self.made_by, *parts]))

    def reached(self, entry: Entry) -> list[str]:
        """The functions that runs of an entry may call, and the entry, in the order of the automaton."""
        return self.graph.reached(entry.function)

    def arity(self, entry: Entry) -> int:
        """The number of an entry's parameters."""
        return len(self.signatures[entry.function].parameters)

    def given_key(self) -> list[str]:
        """What is given of the inputs of each entry, with their ids and requirements, as JSON."""
        return [json.dumps([one.value() for one in self.given[entry.function]]) for entry in self.settings.entries]

    def slice(self, entry: Entry) -> str:
        """The sum of what the runs of an entry depend on: it stays where only comments, layout or other functions
        change."""
        return self.slices.sum(self.reached(entry))

    def first_inputs(self, entry: Entry) -> str:
        """The given inputs of an entry as the text of a file of inputs (docs/FORMATS.md)."""
        return json.dumps([one.value() for one in self.given[entry.function]]) + "\n"


@dataclass(frozen=True)
class Task:
    """One thing that is asked of an entry, whose answer is kept in a folder of its own; each kind is a class below."""

    entry: Entry
    name: str

    def place(self, context: Context) -> Place:
        """The folder of its answer."""
        return context.work.task(self.entry.function, self.name)

    def key(self, context: Context) -> str:
        """The sum of what its answer hangs on. A Task of no kind has none: it raises NotImplementedError."""
        raise NotImplementedError

    def do(self, context: Context) -> None:
        """Asks, and keeps the answer in its folder. Raises Failure where the program or a tool refuses; a Task of no
        kind raises NotImplementedError."""
        raise NotImplementedError

    def is_done(self, context: Context) -> bool:
        """Whether its answer stands in its folder whole, and hangs on what there is now."""
        return self.place(context).is_done(self.key(context))

    def run(self, context: Context) -> None:
        """Does it, and notes that it is done. Raises Failure, with the entry's and the task's name."""
        try:
            self.do(context)
        except Failure as failure:
            raise Failure(f"{self.entry.function}, {self.name}: {failure}") from None
        self.place(context).finish(self.key(context))


class Bounds(Task):
    """Whether a run of the entry leaves the bounds, and by which input (`fshell bounds`)."""

    def key(self, context: Context) -> str:
        """It hangs on the text of the sources, since the place where a run leaves is told."""
        return context.key("bounds", context.unit.sum(), self.entry.bounds, self.entry.budget)

    def do(self, context: Context) -> None:
        """Keeps bounds.json: whether they `suffice`, an input that `left` them, `where`, and the bounds to try `next`.
        The program isn't asked again where only places have moved. Raises Failure where it refuses."""
        place, entry, unit = self.place(context), self.entry, context.unit
        of_slice = context.key("bounds", context.slice(entry), entry.bounds, entry.budget)
        known = place.value("said.json") or {}
        if known.get("key") != of_slice:
            words = ["bounds", entry.function, *unit.sources, *entry.options(), "--budget", str(entry.budget)]
            known = {"key": of_slice, "said": program.answer(words, unit.place).strip()}
            place.keep("said.json", known)
        said: str = known["said"]
        found: dict[str, object] = {"suffice": said.startswith("bounds suffice"), "left": "", "where": "", "next": ""}
        if said.startswith("bounds left "):
            one = input_of(said.removeprefix("bounds left "))
            run = sufficiency.run_of(entry.function, unit.sources, one, unit.place)
            tried = sufficiency.next_bounds(context.graph, run, entry.bounds)
            found |= {
                "left": one.line(),
                "where": sufficiency.where(context.graph, run, entry.bounds, unit.place, unit.own),
                "next": {name: value for name, value in tried.items() if value != entry.bounds[name]},
            }
        place.keep("bounds.json", found)


class Errors(Task):
    """Where runs of the entry are ended by a trap: a node for each operation that fails, with an input (`fshell
    generate`)."""

    def key(self, context: Context) -> str:
        """It hangs on the text of the sources, since places of traps are told, and on bounds, budget and given inputs."""
        given = sum_of_text(context.first_inputs(self.entry))
        return context.key("errors", context.unit.sum(), self.entry.bounds, self.entry.budget, given)

    def do(self, context: Context) -> None:
        """Keeps errors.json: each node by its function and its place there, with the program's verdict and an input,
        and the `restriction` of what is refuted (docs/ORDER.md). Raises Failure where the program refuses."""
        entry, unit, graph = self.entry, context.unit, context.graph
        reached = context.reached(entry)
        scope = "" if len(reached) == len(graph.functions) else f"in {criteria.union(reached)} "
        query = f"{scope}cover NODES(ID)$"
        words = ["generate", entry.function, query, *unit.sources, *entry.options()]
        words += ["--budget", str(entry.budget), "--ends", "trapped"]
        ended = program.run(program.with_json(words), unit.place)
        if ended.stderr.startswith(TOO_LARGE) and not context.settings.gate.no_run_time_errors:
            self.place(context).keep("errors.json", {"rows": [], "restriction": "", "traps": self.traps(context, [])})
            return
        report = program.report_of(words, ended)
        numbers = carry_over.ordinals(graph)
        rows = []
        for goal in report.goals:
            node = int(goal.text.partition("@")[0].removeprefix("n"))
            if node != graph.function(entry.function).exit:
                line = report.inputs[goal.input - 1].line() if goal.input else ""
                rows.append([*numbers.of_node(node), goal.verdict, line])
        restriction = order.restriction(entry.function, unit.sources, query, "trapped", unit.place)
        value = {"rows": rows, "restriction": restriction, "traps": self.traps(context, report.inputs)}
        self.place(context).keep("errors.json", value)

    def traps(self, context: Context, found: list[Input]) -> list[dict[str, object]]:
        """The runs of found inputs and of the given ones that a trap ends."""
        entry, unit = self.entry, context.unit
        faces = Faces(context.graph, unit.sources, unit.place, unit.own)
        asked = Question(entry.function, unit.sources, entry.bounds, entry.budget, unit.place)
        given = [Input(*one.numbers) for one in context.given[entry.function]]
        ends = {(one.node, one.end): one for one in reversed(endings_of(faces, asked, given + found)) if one.is_crash}
        return [one.value() | {"names": names_of(faces, one)} for one in reversed(ends.values())]


@dataclass(frozen=True)
class Campaign(Task):
    """A query whose goals are covered, refuted or left undecided as by fshell campaign; `text` is a criterion or a query."""

    text: str

    def query(self, context: Context) -> str:
        """The query in the program's words, over the functions that the entry reaches."""
        return criteria.query(self.text, context.reached(self.entry), context.graph)

    def key(self, context: Context) -> str:
        """It hangs on the query, the text of the sources, bounds, ends, budget and given inputs."""
        entry = self.entry
        asked = (self.query(context), context.unit.sum(), entry.bounds, entry.ends, entry.budget)
        return context.key("campaign", *asked, sum_of_text(context.first_inputs(entry)))

    def do(self, context: Context) -> None:
        """Keeps the campaign's report.json and inputs.json; a query without goals (error 72) has empty ones. Raises
        Failure where the program refuses."""
        place, entry, unit = self.place(context), self.entry, context.unit
        query = self.query(context)
        words = ["goals", query, *unit.sources]
        ended = program.run(words, unit.place)
        goals = "" if ended.stderr.startswith("error 72 ") else program.text_of(words, ended)
        carry_over.prepare(place, goals, context, entry, query)
        if not goals:
            place.keep("report.json", {"query": query, "goals": [], "suite": [], "bounds": entry.bounds})
            program.write_whole(place.at("inputs.json"), "[]\n")
            return
        left = carry_over.carried(place)
        first = [one.value() for one in context.given[entry.function]] + left["inputs"]
        sums = tuple(sum_of_file(unit.at(name)) for name in unit.sources)
        asked = Asked(entry.function, query, unit.sources, unit.place, sums, entry.bounds, entry.ends, entry.budget)
        local_campaign.decide(place, asked, first, left["was_whole"], self.left(context), context.jobs, context.logins)

    def left(self, context: Context) -> Left:
        """What the task of the bounds found, in the form that a campaign reads; nothing known where it isn't done."""
        known = Bounds(self.entry, "bounds").place(context).value("bounds.json") or {}
        one = input_of(known["left"]) if known.get("left") else None
        suffice = True if known.get("suffice") else False if one else None
        tried: dict[str, int] = known.get("next") or {}
        options = " ".join(f"--{name} {value}" for name, value in tried.items())
        return Left(Limits(suffice, one, known.get("where", "")), options)


class Mcdc(Task):
    """The pairs of inputs that show for each condition that it decides on its own (MC/DC, DO-178C), by fshell mcdc."""

    def key(self, context: Context) -> str:
        """It hangs on the functions that the entry reaches, its bounds, its budget and the given inputs."""
        entry = self.entry
        asked = (context.slice(entry), entry.bounds, entry.budget, sum_of_text(context.first_inputs(entry)))
        return context.key("mcdc", *asked)

    def do(self, context: Context) -> None:
        """Keeps mcdc.json: of each condition its guard's function and place there, its text, the answer, and the pair.
        Raises Failure where fshell mcdc refuses, but for there being no decision."""
        place, entry, unit = self.place(context), self.entry, context.unit
        place.keep("first.json", [one.value() for one in context.given[entry.function]])
        words = [entry.function, *unit.sources, *entry.options(), "--budget", str(entry.budget), "--json"]
        words += ["--inputs", place.at("first.json"), "--certificates", place.at("certificates")]
        reached = context.reached(entry)
        words += [word for name in reached for word in ("--function", name)]
        try:
            value = json.loads(tool("mcdc", words, unit.place))
        except Failure as failure:
            if "there is no decision" not in str(failure):
                raise
            value = {"inputs": [], "decisions": []}
        numbers, kept = carry_over.ordinals(context.graph), []
        for decision in value["decisions"]:
            for one in decision["conditions"] if decision["function"] in reached else ():
                edge = int(one["edge"].partition("@")[0].removeprefix("e"))
                pair = [value["inputs"][number - 1] for number in one.get("inputs", ())]
                kept.append({"edge": numbers.of_edge(edge), "text": one["text"], "answer": one["answer"], "pair": pair})
        place.keep("mcdc.json", kept)


def tool(name: str, words: list[str], folder: str) -> str:
    """What bin/NAME writes to standard output where it is called in `folder`. Raises Failure where it ends with another
    status than 0 or 1, with its last line."""
    ended = processes.run(
        [sys.executable, program.PYTHON, name, *words],
        cwd=folder,
        stdin=subprocess.DEVNULL,
        capture_output=True,
        text=True,
        check=False,
    )
    if ended.returncode not in (program.DONE, program.OPEN):
        lines = ended.stderr.strip().splitlines() or [f"it ended with status {ended.returncode}"]
        raise Failure(f"bin/{name}: {lines[-1].removeprefix(f'{name}: ')}")
    told: str = ended.stdout
    return told


def name_of(text: str) -> str:
    """The name of a query's task, query- and eight digits of its sum; a criterion's is its own."""
    return f"query-{sum_of_text(text)[:8]}" if criteria.is_query(text) else text


def tasks_of(settings: Settings, requirements: tuple[Requirement, ...]) -> list[Task]:
    """All tasks, the bounds of all entries first, which the others read."""
    found: list[Task] = [Bounds(entry, "bounds") for entry in settings.entries]
    for entry in settings.entries:
        found += [Campaign(entry, name_of(text), text) for text in entry.queries if text != criteria.MCDC]
        found += [
            Campaign(entry, task_name(one), one.query)
            for one in requirements
            if one.query and one.entry == entry.function
        ]
        if criteria.MCDC in entry.queries or settings.gate.mcdc is not None:
            found.append(Mcdc(entry, "mcdc"))
        found.append(Errors(entry, "errors"))
    return found
