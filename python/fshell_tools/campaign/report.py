"""What is told of a campaign at its end: its report as text and as JSON, and its gate."""

import dataclasses
import json
import shlex
from collections.abc import Iterable, Iterator

from fshell_tools.bounds import sufficiency
from fshell_tools.bounds.other_ends import Ending
from fshell_tools.bounds.sufficiency import Left
from fshell_tools.campaign.other_runs import OtherRuns, names_of, not_allowed
from fshell_tools.campaign.request import Asked
from fshell_tools.campaign.state_folder import Folder
from fshell_tools.core import comparison_report, inputs, program, verdicts
from fshell_tools.core import graph as graphs
from fshell_tools.core.reports import Goal, Input, Report
from fshell_tools.core.verdicts import Verdict


class Told:
    """The report of a campaign, whose inputs were measured over all goals."""

    def __init__(self, folder: Folder, asked: Asked, made: list[Input], report: Report) -> None:
        self.folder, self.asked, self.made, self.report = folder, asked, made, report
        self.refuted = set(folder.refuted(asked))
        self.open = folder.open(asked.budget)
        self.left = self.bounds() if self.refuted else None
        self.others = OtherRuns(folder, asked, made)
        limits = self.left.limits if self.left else verdicts.UNKNOWN
        self.unhit = self.others.judged(report.goals, self.refuted, limits)
        self.traps = self.others.traps(ending for _, ending in self.unhit.values())
        self.verdicts = [self.verdict(goal) for goal in report.goals]
        self.tally = verdicts.tally(self.verdicts)
        self.conditions = folder.conditions(asked)

    def bounds(self) -> Left:
        """What the program says of the bounds."""
        asked = self.asked
        graph = graphs.of_sources(asked.sources, asked.place)
        return sufficiency.asked(
            graph,
            asked.entry,
            asked.sources,
            asked.bounds,
            asked.budget,
            asked.place,
            query=asked.query,
        )

    def verdict(self, goal: Goal) -> Verdict:
        """The verdict of a goal: undecided, unless an input was found or a certificate accepted."""
        if goal.verdict == "covered":
            return Verdict.COVERED
        return self.unhit[goal.number][0] if goal.number in self.unhit else Verdict.UNDECIDED

    def certificate(self, goal: int) -> str:
        """The path of a goal's certificate from the folder: of runs of any end, where there is one, else of those that count."""
        return self.others.certificates.get(goal, f"certificates/{goal}.cert")

    def ending(self, goal: int) -> Ending | None:
        """The run that shows that a goal is hit by runs that don't count, if it does."""
        return self.unhit[goal][1] if goal in self.unhit else None

    # ---- as text

    def line(self, goal: Goal, verdict: Verdict) -> str:
        """What report.txt says of a goal: its verdict, and the input, the certificate or why it is open."""
        behind = f" by input {goal.input}" if goal.input else ""
        ending = self.ending(goal.number)
        if ending:
            behind = f", {ending.text}"
        elif verdict in verdicts.UNHIT:
            behind = f", {self.certificate(goal.number)}"
        elif verdict is Verdict.UNDECIDED:
            behind = f", {self.open.get(goal.number, 'prove failed')}"
        return f"goal {goal.number}: {verdict}{behind}: {' '.join(goal.text.splitlines())}"

    def first(self) -> str:
        """What comes first where all goals are refuted and there is no input: that no run stays within the bounds, if so."""
        asked = self.asked
        if not self.left or self.left.limits.suffice or self.made or len(self.refuted) < len(self.report.goals):
            return ""
        return sufficiency.no_run(asked.entry, asked.sources, asked.bounds, asked.budget, asked.ends, asked.place)

    def lines(self) -> Iterator[str]:
        """What is told of the campaign, a line each."""
        asked = self.asked
        first = self.first()
        if first:
            yield f"{first}, so each goal is refuted and nothing was tested"
        yield f"campaign of {asked.entry}: {' '.join(asked.query.splitlines())}"
        bounds = " ".join(f"{name} {value}" for name, value in asked.bounds.items())
        yield f"bounds {bounds}, ends {asked.ends}, budget {asked.budget}"
        yield from map(self.line, self.report.goals, self.verdicts)
        given = len(self.folder.given())
        yield from comparison_report.lines(asked.sources, asked.place)
        yield f"inputs {len(self.made)}, of which {given} were given; the reduced suite has {len(self.report.suite)}"
        yield self.tally.text()
        yield self.tally.line()
        if self.left:
            yield from self.left.lines()
        if self.conditions:
            yield f"MC/DC: {self.conditions.tally.text('conditions')}"
            yield f"MC/DC: {self.conditions.tally.line('conditions')}"
        yield from (f"trap {number}: {one.text}" for number, one in enumerate(self.traps, 1))
        if self.traps:
            words = ["fshell", "runs", asked.entry, self.folder.at("traps.json"), *asked.sources]
            yield f"traps are repeated by {shlex.join(words)}"

    def text(self) -> str:
        """What report.txt is: all lines, each with its end."""
        return "".join(line + "\n" for line in self.lines())

    # ---- as JSON

    def goal_value(self, goal: Goal, verdict: Verdict) -> dict[str, object]:
        """What report.json says of a goal: its verdict and text, and the number of its input or the path of its
        certificate."""
        value: dict[str, object] = {"answer": verdict, "text": goal.text}
        if goal.input:
            value["input"] = goal.input
        elif goal.number in self.refuted:
            value["certificate"] = self.certificate(goal.number)
        ending = self.ending(goal.number)
        return value | ({"run": ending.value()} if ending else {})

    def trap_value(self, one: Ending) -> dict[str, object]:
        """What report.json says of a run that a trap ends, with the names by which a gate may allow it."""
        return one.value() | {"names": names_of(self.others.faces, one)}

    def limits_value(self) -> dict[str, object]:
        """What is known of the bounds as JSON; null where it wasn't asked."""
        if not self.left:
            return {}
        limits = self.left.limits
        left = json.loads(inputs.json_text([limits.left]))[0] if limits.left else None
        return {"limits": dataclasses.asdict(limits) | {"left": left, "next": self.left.options}}

    def json(self) -> str:
        """The same as a line of JSON."""
        asked = self.asked
        named = {
            name: getattr(asked, name) for name in ("entry", "query", "sources", "sums", "bounds", "ends", "budget")
        }
        goals = list(map(self.goal_value, self.report.goals, self.verdicts))
        counts: dict[str, object] = {one: self.tally.counts[one] for one in Verdict}
        if self.conditions:
            counts["mcdc"] = {one: self.conditions.tally.counts[one] for one in Verdict}
        rests = comparison_report.values(asked.sources, asked.place)
        named |= {"compared": rests} if rests else {}
        named |= {"traps": [self.trap_value(one) for one in self.traps]} if self.traps else {}
        return (
            json.dumps(named | self.limits_value() | {"goals": goals, "counts": counts, "suite": self.report.suite})
            + "\n"
        )

    # ---- the end

    def write(self) -> None:
        """Writes the files of a campaign's end."""
        folder = self.folder
        program.write_whole(folder.at("inputs.json"), inputs.json_text(self.made))
        suite = [self.made[one - 1] for one in self.report.suite]
        program.write_whole(folder.at("suite.json"), inputs.json_text(suite))
        program.write_whole(folder.at("traps.json"), inputs.json_text([one.input for one in self.traps]))
        program.write_whole(folder.at("report.json"), self.json())
        program.write_whole(folder.at("report.txt"), self.text())

    def judged(self, at_least: float | None, allowed: Iterable[str] = ()) -> tuple[str, int]:
        """The line of the gate, if there is one, and the status; traps that aren't `allowed` by name fail it."""
        if at_least is None:
            is_open = self.tally.is_open or (self.conditions is not None and self.conditions.tally.is_open)
            return "", program.OPEN if is_open else program.DONE
        why = verdicts.failures(self.tally, at_least, len(self.made))
        if self.conditions:
            made = len(self.conditions.given)
            why += [f"MC/DC: {one}" for one in verdicts.failures(self.conditions.tally, at_least, made)]
        found = not_allowed(self.others.faces, self.traps, allowed) if self.traps else []
        why += [f"a run ends at {one.place}, {one.end}" for one in found]
        return verdicts.gate_line(at_least, why) + "\n", program.OPEN if why else program.DONE
