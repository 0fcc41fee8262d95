"""What is to be looked at in a module, each at its place: for SARIF and as lines that editors know from gcc."""

from collections.abc import Iterator

from fshell_tools.core import original_sources
from fshell_tools.core.program import Failure
from fshell_tools.core.sarif import Finding
from fshell_tools.core.verdicts import Verdict
from fshell_tools.order import main as order
from fshell_tools.project.records import NONE_WITHIN, OPEN
from fshell_tools.project.results import GOOD, Results, state_of

RULES = {
    "run-time-error": (
        "error",
        "A run is ended by a trap: an assert that fails, a division by 0, an index or a shift outside.",
    ),
    "open-goal": ("warning", "Neither an input nor a certificate is known for a goal."),
    "refuted-goal": ("warning", "No run within the bounds meets a goal; one beyond them may."),
    "failing-goal": ("error", "No run that returns meets a goal, and one that fails does."),
    "outside-goal": ("note", "Only runs that an assumption rules out meet a goal."),
    "unreachable-goal": ("note", "No run of any input meets a goal, up to its first trap."),
    "open-condition": ("warning", "No pair of inputs shows that a condition decides on its own."),
    "open-requirement": ("warning", "Nothing shows a requirement."),
    "unreached-function": ("warning", "No entry reaches a function, so nothing of it is tested."),
    "order-of-evaluation": (
        "warning",
        "C leaves open in which order parts of an expression are evaluated, where that matters.",
    ),
    "possible-error": ("warning", "A run-time error isn't ruled out at a place."),
}
OF_VERDICT = {
    Verdict.UNDECIDED: "open-goal",
    Verdict.MISSED: "open-goal",
    Verdict.REFUTED: "refuted-goal",
    Verdict.RETURNING: "refuted-goal",
    Verdict.FAILS: "failing-goal",
    Verdict.OUTSIDE: "outside-goal",
    Verdict.UNREACHABLE: "unreachable-goal",
}


class Finder:
    """Gathers the findings of a module, each kind by a method that gives them in any order."""

    def __init__(self, results: Results) -> None:
        self.results = results

    def at(self, rule: str, file: str, line: int, column: int, text: str) -> Finding:
        """A finding at a place of a file of the unit, for which the module's own stands; a line or a column of 0 counts
        as 1."""
        return Finding(rule, RULES[rule][0], self.results.own(file), max(line, 1), max(column, 1), text)

    def placed(self, rule: str, place: str, text: str) -> Finding:
        """The same at a place in words, FILE:LINE:COLUMN. ValueError where it isn't one."""
        file, line, column = place.rsplit(":", 2)
        return self.at(rule, file, int(line), int(column), text)

    def all(self) -> list[Finding]:
        """All findings, each once, by their files, places and rules."""
        parts = (self.goals(), self.errors(), self.conditions(), self.functions(), self.requirements(), self.orders())
        found = dict.fromkeys(one for part in parts for one in part)
        return sorted(found, key=lambda one: (one.file, one.line, one.column, one.rule, one.text))

    def goals(self) -> Iterator[Finding]:
        """The goals that aren't covered, by what is known of them: open, refuted within the bounds, or unreachable."""
        for row in self.results.rows:
            if row.verdict in OF_VERDICT:
                told = self.results.told(row.text)
                yield self.at(
                    OF_VERDICT[row.verdict], row.file, row.line, row.column, f"{row.verdict}: {row.criterion}: {told}"
                )

    def errors(self) -> Iterator[Finding]:
        """The places where a run may be ended by a trap: those where an input does it, and those where it isn't ruled
        out, where the gate asks for these."""
        for trap in self.results.traps:
            file, line, column = trap.place.rsplit(":", 2)
            yield Finding("run-time-error", RULES["run-time-error"][0], file, int(line), max(int(column), 1), trap.text)
        for entry in self.results.entries:
            for place, verdict, _ in self.results.errors(entry.function):
                is_asked = self.results.context.settings.gate.no_run_time_errors
                if is_asked and verdict not in (Verdict.UNREACHABLE, Verdict.COVERED):
                    yield self.placed(
                        "possible-error", place, f"a run-time error in runs of {entry.function} is {verdict}"
                    )

    def conditions(self) -> Iterator[Finding]:
        """The conditions that no pair of tests shows (MC/DC), but those that are known to have none at all."""
        for one in self.results.conditions:
            if one.state in (OPEN, NONE_WITHIN):
                text = f"the condition {one.text} of {one.statement}: {one.state}"
                yield self.placed("open-condition", one.place, text)

    def functions(self) -> Iterator[Finding]:
        """The module's functions that no entry reaches."""
        for name in self.results.unreached:
            node = self.results.graph.nodes[self.results.graph.function(name).entry]
            yield self.at(
                "unreached-function", node.file, self.results.faces.node_line(node), 1, f"no entry reaches {name}"
            )

    def requirements(self) -> Iterator[Finding]:
        """The requirements that nothing shows, at their lines in the file that has them."""
        settings = self.results.context.settings
        for one in self.results.requirements:
            state = state_of(one, self.results)[0]
            if state not in GOOD:
                text = f"requirement {one.id} ({one.text}): {state}"
                file = settings.requirements or settings.path
                yield Finding("open-requirement", RULES["open-requirement"][0], file, one.line, 1, text)

    def orders(self) -> Iterator[Finding]:
        """Where C leaves an order of evaluation open that matters (C11 6.5, paragraphs 2 and 3), as fshell order tells of
        each entry; an entry of which it can't is left out."""
        unit = self.results.context.unit
        for entry in self.results.entries:
            try:
                found = order.warnings(entry.function, unit.sources, ends=entry.ends, folder=unit.place)
            except Failure:
                continue
            for one in found:
                _, line, column = self.results.faces.at(one.file, one.line, one.column)
                why = original_sources.words_of(one.why, unit.sources, unit.place)
                yield self.at("order-of-evaluation", one.file, line, column, f"{one.kind}: {why}")
