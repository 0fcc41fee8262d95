"""The reports that a page shows, with what is known beside them: their sources, inputs, bounds and verdicts."""

import argparse
import json
import os
import shlex
from dataclasses import dataclass, field

from fshell_tools.bounds import other_ends, sufficiency
from fshell_tools.bounds.other_ends import Ending
from fshell_tools.campaign.request import Asked, read_sums
from fshell_tools.campaign.state_folder import STEPS, Folder
from fshell_tools.core import inputs, mcdc_report_reader, program, snapshots
from fshell_tools.core.program import Failure
from fshell_tools.core.reports import BOUNDS, Goal, Input, Report
from fshell_tools.core.sources import Faces
from fshell_tools.core.verdicts import Verdict
from fshell_tools.coverage.explain import report_of

LONGEST_PATH = 5_000


@dataclass
class Shown:
    """A report that is shown, with what is known beside it; the entry and the query are empty where they aren't."""

    name: str
    report: Report
    sources: list[str]
    entry: str
    query: str
    given: list[Input]
    place: str
    folder: str = ""
    verdicts: list[Verdict] = field(default_factory=list)
    said: list[str] = field(default_factory=list)
    judged: dict[int, tuple[Verdict, Ending | None]] = field(default_factory=dict)

    def judge(self, faces: Faces) -> None:
        """Says of each goal of a report what is known of it; of a refuted one, where the entry is known, with its bounds and with
        what runs of any end say."""
        if self.entry and self.report.count("refuted"):
            budget = self.report.bounds.get("budget", 5_000_000)
            words = (self.entry, self.sources, self.report.bounds, budget, self.place)
            left = sufficiency.asked(faces.graph, *words, query=self.query or None)
            self.said = list(left.lines())
            about = (self.entry, self.sources, self.report, left.limits, self.place)
            self.judged = other_ends.of_report(faces, *about, query=self.query)
            self.said += [f"goal {goal}: {one}, {ending.text}" for goal, (one, ending) in self.judged.items() if ending]
        self.verdicts = other_ends.verdicts_of(self.report, self.judged)


def take_judged(folder: Folder, asked: Asked) -> None:
    """Takes the sources that a folder's report is of; where the user's own are others by now, that is told at the end."""
    folder.take_sources(asked)
    for name, known in zip(asked.sources, asked.sums):
        snapshots.watch(os.path.join(asked.place, name), name, known)


def of_campaign(path: str) -> Shown:
    """The report in a campaign's folder. Raises Failure where it has none."""
    folder = Folder(path)
    asked = folder.asked()
    try:
        value = json.loads(program.read(folder.at("report.json")))
        report = Report("generate", suite=value["suite"], bounds=value["bounds"], ends=value["ends"])
        said = [Verdict(goal["answer"]) for goal in value["goals"]]
        for number, (goal, verdict) in enumerate(zip(value["goals"], said), 1):
            report.goals.append(Goal(number, verdict.mark, goal.get("input"), goal["text"]))
        bounds = list(sufficiency.of_value(value["limits"]).lines()) if "limits" in value else []
        bounds += [f"a run is {one['end']} at {one['place']}: {one['what']}" for one in value.get("traps", ())]
    except (ValueError, KeyError, TypeError):
        raise Failure(f"{path} has no whole report.json") from None
    given = inputs.of_file(folder.at("inputs.json"))
    take_judged(folder, asked)
    sources = list(asked.sources)
    return Shown(path, report, sources, asked.entry, asked.query, given, asked.place, path, said, bounds)


def shown(name: str, query: str, given: argparse.Namespace) -> Shown:
    """A report that is named, with what the words say of it. Raises Failure where it isn't read."""
    if os.path.isdir(name):
        return of_campaign(name)
    conditions = mcdc_report_reader.of_file(name)
    if conditions:
        sources = given.source or list(conditions.sources)
        snapshots.take(sources)
        if read_sums(tuple(sources), ".") != conditions.sums:
            raise Failure(f"{name}: it is of other sources than {' '.join(sources)} as they are")
        made = conditions.given
        return Shown(name, conditions.report(), sources, conditions.entry, "", made, ".", "", conditions.verdicts)
    report = report_of(name)
    if report.command not in ("measure", "generate"):
        raise Failure(f"{name}: it is an answer of {report.command}; the page shows those of measure and generate")
    if not given.source:
        raise Failure("the sources of a report are named by --source")
    read = report.inputs or (inputs.of_file(given.inputs) if given.inputs else [])
    return Shown(name, report, given.source, given.entry, query, read, ".")


def commands(one: Shown, goal: Goal) -> list[str]:
    """The commands that write and check the certificate of a refuted goal; those of a campaign for the folder it began in. That of an
    unreachable goal is over runs of any end."""
    if not one.query:
        return []
    bounds = [word for name in BOUNDS for word in (f"--{name}", str(one.report.bounds[name]))]
    is_any = one.report.ends != "any" and one.verdicts[goal.number - 1] is Verdict.UNREACHABLE
    kind = "any" if is_any else one.report.ends
    ends = [] if kind == "returned" else ["--ends", kind]
    folder = os.path.relpath(os.path.join(one.folder, "any" if is_any else ""), one.place) if one.folder else ""
    kept = os.path.join(folder, "certificates", f"{goal.number}.cert") if folder else f"{goal.number}.cert"
    asked = [one.entry or "ENTRY", one.query, str(goal.number)]
    check = shlex.join(["fshell", "check", *asked, kept, *one.sources, *bounds, *ends])
    prove = shlex.join(["fshell", "prove", *asked, *one.sources, *bounds, *ends]) + f" > {shlex.quote(kept)}"
    return [check] if one.folder else [prove, check]


def paths(one: Shown) -> dict[int, list[int]]:
    """The edges of the run of each input that covers a goal."""
    if not one.entry or not one.given:
        return {}
    with program.as_file(inputs.json_text(one.given)) as file:
        runs = program.report(["runs", one.entry, file, *one.sources, "--steps", STEPS], one.place).runs
    used = {goal.input for goal in one.report.goals}
    return {run.number: list(run.edges[:LONGEST_PATH]) for run in runs if run.number in used}
