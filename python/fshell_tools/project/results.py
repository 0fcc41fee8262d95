"""What the tasks found, brought together: tests, goals with their verdicts over all entries, MC/DC, bounds and errors."""

import os
from collections.abc import Iterator
from functools import cached_property
from typing import Any

from fshell_tools.core import graph as graphs
from fshell_tools.core import named_inputs
from fshell_tools.core.graph import Edge
from fshell_tools.core.input_reader import Reader
from fshell_tools.core.reports import Input
from fshell_tools.core.sources import Faces
from fshell_tools.core.verdicts import Tally, Verdict, tally
from fshell_tools.coverage.decisions import Decisions
from fshell_tools.coverage.explain import letter_line
from fshell_tools.project import criteria
from fshell_tools.project.carry_over import Ordinals
from fshell_tools.project.records import (
    NONE_WITHIN,
    NO_PAIR,
    OPEN,
    ORDER,
    SHOWN,
    STATES,
    Condition,
    Goal,
    Row,
    Test,
    Trap,
)
from fshell_tools.project.requirements import Requirement, task_name
from fshell_tools.project.tasks import Campaign, Context, Task, tasks_of
from fshell_tools.project.work_folder import Place


class Results:
    """What is known of a module: tests, goals and conditions, from the files that the tasks left, all of which are
    done."""

    def __init__(self, context: Context, requirements: tuple[Requirement, ...]) -> None:
        self.context, self.requirements = context, requirements
        self.graph, self.entries = context.graph, context.settings.entries
        self.faces = Faces(self.graph, context.unit.sources, context.unit.place, context.unit.own)
        self._tests: dict[str, dict[tuple[tuple[int, ...], tuple[int, ...]], Test]] = {}
        for entry in self.entries:
            own = self._tests.setdefault(entry.function, {})
            for count, one in enumerate(context.given[entry.function], 1):
                name = one.id or f"{entry.function}-{count}"
                own.setdefault(one.numbers, Test(name, entry.function, *one.numbers, one.requirements, True))
        self.tasks: list[Task] = tasks_of(context.settings, requirements)
        self.goals = [goal for task in self.tasks if isinstance(task, Campaign) for goal in self._goals(task)]
        self.conditions = list(self._conditions())

    # ---- tests

    def test(self, entry: str, value: dict[str, Any]) -> Test:
        """The test of an entry with these numbers; a new one, ENTRY-made-N, where none was given."""
        numbers = tuple(value["args"]), tuple(value.get("answers", ()))
        own = self._tests[entry]
        if numbers not in own:
            made = sum(not one.is_given for one in own.values()) + 1
            own[numbers] = Test(f"{entry}-made-{made}", entry, *numbers, (), False)
        return own[numbers]

    def tests(self, entry: str) -> list[Test]:
        """The tests of an entry, the given ones first."""
        return list(self._tests[entry].values())

    @cached_property
    def all_tests(self) -> list[Test]:
        """The tests of all entries, in the order of the settings."""
        return [test for entry in self.entries for test in self.tests(entry.function)]

    # ---- goals

    def _goals(self, task: Campaign) -> Iterator[Goal]:
        """The goals of a campaign's report."""
        place = task.place(self.context)
        value, made = place.value("report.json"), place.value("inputs.json") or []
        for number, one in enumerate(value["goals"], 1):
            test = self.test(task.entry.function, made[one["input"] - 1]) if one.get("input") else None
            certificate = os.path.join("tasks", task.entry.function, task.name, one.get("certificate", ""))
            yield Goal(
                task.entry.function,
                task.name,
                number,
                one["text"],
                Verdict(one["answer"]),
                test,
                certificate if one.get("certificate") else "",
            )

    @cached_property
    def rows(self) -> list[Row]:
        """The goals of the criteria and queries over all entries; requirements have their own."""
        found: dict[tuple[str, str], list[Goal]] = {}
        for goal in self.goals:
            if not goal.task.startswith("requirement-"):
                found.setdefault((self.criterion(goal), goal.text), []).append(goal)
        return [self._row(name, goals) for (name, _), goals in found.items()]

    def criterion(self, goal: Goal) -> str:
        """The name of a goal's criterion, or of a query ENTRY: QUERY."""
        if goal.task in criteria.COVER:
            return goal.task
        task = next(one for one in self.tasks if (one.entry.function, one.name) == (goal.entry, goal.task))
        return f"{goal.entry}: {task.text}" if isinstance(task, Campaign) else goal.task

    def _row(self, name: str, goals: list[Goal]) -> Row:
        function, place = self.where(goals[0].text, goals[0].entry)
        verdict = min((goal.verdict for goal in goals), key=ORDER.index)
        return Row(name, goals[0].text, function, *place, verdict, goals)

    def where(self, text: str, entry: str) -> tuple[str, tuple[str, int, int]]:
        """The function and the place of a goal: the unit's file, and the line and column from 1 of its first letter
        that is an edge or a node (a node has column 1); of a goal without any, those of the entry."""
        for letter in graphs.letters(self.graph, text):
            if letter.edge:
                edge = self.faces.shown(letter.edge)
                return self.graph.owner(edge), (edge.file, *self.faces.spot(edge)[1:])
            if letter.node:
                return letter.node.function, (letter.node.file, self.faces.node_line(letter.node), 1)
        node = self.graph.nodes[self.graph.function(entry).entry]
        return entry, (node.file, self.faces.node_line(node), 1)

    def spot(self, edge: Edge) -> str:
        """The file of the unit in which an edge stands, with the line and the column in the user's own source:
        FILE:LINE:COLUMN."""
        return "{}:{}:{}".format(edge.file, *self.faces.spot(self.faces.shown(edge))[1:])

    def told(self, text: str) -> str:
        """What a goal asks for, in one line: its edges, nodes and predicates in their order."""
        return "; then ".join(letter_line(self.faces, one) for one in graphs.letters(self.graph, text))

    @cached_property
    def criteria(self) -> list[str]:
        """The criteria and queries that are asked for, in the order of the settings, also those without goals."""
        found: dict[str, None] = {}
        for task in self.tasks:
            if isinstance(task, Campaign) and not task.name.startswith("requirement-"):
                name = task.name if task.name in criteria.COVER else f"{task.entry.function}: {task.text}"
                found.setdefault(name)
        return list(found)

    def tally(self, criterion: str, function: str | None = None) -> Tally:
        """How many goals of a criterion have which verdict, of a function or of all."""
        return tally(
            row.verdict for row in self.rows if row.criterion == criterion and function in (None, row.function)
        )

    # ---- functions

    @cached_property
    def own_files(self) -> dict[str, str]:
        """The module's own file, from the settings' folder, for each file of the unit: headers too, drivers and stubs
        not."""
        module, unit = self.context.settings.module, self.context.unit
        drivers = {os.path.normpath(name) for name in module.drivers}
        return {
            name: os.path.normpath(file) for name, file in unit.own.items() if os.path.normpath(file) not in drivers
        }

    def own(self, file: str) -> str:
        """The user's own file for one of the unit; a file that isn't the unit's stands for itself."""
        return os.path.normpath(self.context.unit.own.get(file, file))

    @cached_property
    def files(self) -> dict[str, str]:
        """The unit's file in which each function is defined, in the order of the automaton."""
        return {one.name: self.graph.nodes[one.entry].file for one in self.graph.functions}

    @cached_property
    def functions(self) -> list[str]:
        """The module's own functions, in the order of the sources: those of drivers and stubs aren't."""
        return [name for name, file in self.files.items() if file in self.own_files]

    @cached_property
    def unreached(self) -> list[str]:
        """The module's functions that no entry reaches and that the settings don't leave out."""
        reached = {name for entry in self.entries for name in self.graph.reached(entry.function)}
        left_out = self.context.settings.module.left_out
        return [name for name in self.functions if name not in reached and name not in left_out]

    # ---- bounds, errors, MC/DC

    def place(self, entry: str, task: str) -> Place:
        """The folder in which a task of an entry keeps what it found."""
        return self.context.work.task(entry, task)

    def bounds(self, entry: str) -> dict[str, Any]:
        """What the task of an entry's bounds found: `suffice`, the input that `left` them, `where`, and what to try
        `next`; empty where nothing is there."""
        found = self.place(entry, "bounds").value("bounds.json")
        return found if isinstance(found, dict) else {}

    def suffice(self, entry: str) -> bool:
        """Whether no run of an entry leaves its bounds, as the program says."""
        return bool(self.bounds(entry).get("suffice"))

    def errors(self, entry: str) -> list[tuple[str, Verdict, str]]:
        """The places at which a trap may end runs of an entry, as FILE:LINE:COLUMN, each with a verdict, and of a
        covered one its input in words, else nothing."""
        ordinals = Ordinals(self.graph)
        found = []
        value = self.place(entry, "errors").value("errors.json") or {"rows": [], "restriction": ""}
        is_never = self.suffice(entry) and not value["restriction"]
        for function, at, verdict, line in value["rows"]:
            node = self.graph.nodes[ordinals.node((function, at))]
            one = Verdict(verdict) if verdict != "refuted" else Verdict.REFUTED
            one = Verdict.UNREACHABLE if one is Verdict.REFUTED and is_never else one
            edges = self.graph.leaving[node.number]
            place = self.spot(edges[0]) if edges else f"{node.file}:{self.faces.node_line(node)}:1"
            found.append((place, one, line))
        return found

    @cached_property
    def traps(self) -> list[Trap]:
        """The runs that traps end, one for each entry, place and trap, by what the campaigns and the task of errors found."""
        found: dict[tuple[str, str, str], Trap] = {}
        for task in self.tasks:
            value = task.place(self.context).value("report.json" if isinstance(task, Campaign) else "errors.json") or {}
            for one in value.get("traps", ()) if isinstance(value, dict) else ():
                line = Input(tuple(one["input"]["args"]), tuple(one["input"]["answers"])).line()
                made = Trap(task.entry.function, one["end"], one["place"], one["what"], line, tuple(one["names"]))
                found.setdefault((made.entry, made.place, made.end), made)
        return list(found.values())

    @property
    def forbidden_traps(self) -> list[Trap]:
        """The traps that the settings don't allow by name."""
        allowed = set(self.context.settings.gate.allow_traps)
        return [one for one in self.traps if not allowed & set(one.names)]

    @cached_property
    def statements(self) -> dict[int, str]:
        """The statement of the decision of each guard, by the guard's number."""
        return {number: one.statement for one in Decisions(self.graph, self.faces).found for number in one.guards()}

    def _conditions(self) -> Iterator[Condition]:
        """The conditions of all decisions, with what the entries together show of them."""
        found: dict[int, list[tuple[str, str, list[Test]]]] = {}
        ordinals = Ordinals(self.graph)
        for entry in self.entries:
            for one in self.place(entry.function, "mcdc").value("mcdc.json") or []:
                pair = [self.test(entry.function, value) for value in one["pair"]]
                told = STATES.get(Verdict(one["answer"]), OPEN), one["text"], pair
                found.setdefault(ordinals.edge(one["edge"]), []).append(told)
        order = (SHOWN, OPEN, NONE_WITHIN, NO_PAIR)
        for number in sorted(found):
            state, text, pair = min(found[number], key=lambda one: order.index(one[0]))
            edge = self.graph.edges[number]
            yield Condition(self.graph.owner(edge), self.spot(edge), self.statements.get(number, ""), text, state, pair)

    def mcdc(self, function: str | None = None) -> tuple[int, int]:
        """How many conditions are shown, of a function or of all, and of how many: all but those without a pair at all."""
        told = [one.state for one in self.conditions if function in (None, one.function)]
        return told.count(SHOWN), len(told) - told.count(NO_PAIR)

    # ---- runs

    def run(self) -> None:
        """Notes how the run of each test ends, and its object with names. Raises Failure where the program refuses
        them."""
        for entry in self.entries:
            tests = self.tests(entry.function)
            if not tests:
                continue
            unit = self.context.unit
            reader = Reader(unit.place, unit.sources, self.graph, entry.function)
            own = [named_inputs.Named(one.args, one.answers, one.id, one.requirements) for one in tests]
            asked, runs = reader.runs([one.numbers for one in own])
            for test, run, value in zip(tests, runs, reader.with_names(own, asked)):
                test.end = run.end if run.value is None else f"{run.end} {run.value}"
                test.value = value


def state_of(requirement: Requirement, results: Results) -> tuple[str, list[Goal], list[Test]]:
    """What is known of a requirement in words (those of GOOD pass the gate), its goals, and its tests: those that name
    it and those that cover its goals."""
    name = task_name(requirement)
    goals = [goal for goal in results.goals if goal.task == name]
    tests = [test for test in results.all_tests if requirement.id in test.requirements]
    tests += [goal.test for goal in goals if goal.test and goal.test not in tests]
    return _state_of(requirement, goals, tests), goals, tests


def _state_of(requirement: Requirement, goals: list[Goal], tests: list[Test]) -> str:
    found = {goal.verdict for goal in goals}
    if not requirement.query:
        return "tested" if tests else "untested"
    if not goals:
        return "has no goal"
    if Verdict.UNDECIDED in found or Verdict.MISSED in found:
        return "open"
    if requirement.is_never:
        if Verdict.COVERED in found:
            return "violated"
        if Verdict.FAILS in found:
            return "violated by a run that fails"
        worse = {
            Verdict.REFUTED: "within the bounds",
            Verdict.RETURNING: "for runs that return",
            Verdict.OUTSIDE: "under the assumptions alone",
        }
        return next((f"holds {words}" for one, words in worse.items() if one in found), "holds")
    return "shown" if found == {Verdict.COVERED} else "not shown"


GOOD = ("tested", "shown", "holds")


def bounds_line(results: Results, entry: str) -> str:
    """What is known of an entry's bounds, in words: whether a run leaves them, where, by which input, and what to try
    next."""
    value = results.bounds(entry)
    if value.get("suffice"):
        return "no run leaves the bounds"
    if not value.get("left"):
        return "whether a run leaves the bounds is open"
    tried = value.get("next") or {}
    hint = " ".join(f"{name} {number}" for name, number in tried.items())
    told = f"{value.get('where') or 'a run leaves the bounds'}, by {value['left']}"
    return f"runs leave the bounds: {told}" + (f"; to try next: {hint}" if hint else "")
