"""What a campaign knows of runs that don't count: which goals they hit, and which of them a trap ends.

The folder has `any`, a campaign's folder of the same query over runs of any end: its certificates say that no run at all within
the bounds hits a goal. It is made where a goal is refuted and the bounds suffice.
"""

import dataclasses
import os
from collections.abc import Iterable
from concurrent.futures import ThreadPoolExecutor
from functools import cached_property

from fshell_tools.bounds import other_ends
from fshell_tools.bounds.other_ends import Ending, Judge, Other, Question, Stops
from fshell_tools.campaign.request import Asked
from fshell_tools.campaign.state_folder import Folder
from fshell_tools.core import graph as graphs
from fshell_tools.core.reports import Goal, Input
from fshell_tools.core.sources import Faces
from fshell_tools.core.verdicts import Limits, Verdict

ANY = "any"


class OtherRuns:
    """The runs of a campaign that don't count; `made` are its inputs."""

    def __init__(self, folder: Folder, asked: Asked, made: list[Input]) -> None:
        self.folder, self.asked, self.made = folder, asked, made
        self.question = Question(asked.entry, asked.sources, asked.bounds, asked.budget, asked.place)
        self.certificates: dict[int, str] = {}

    @cached_property
    def faces(self) -> Faces:
        """What the automaton's edges are in the sources."""
        return Faces(graphs.of_sources(self.asked.sources, self.asked.place), self.asked.sources, self.asked.place)

    @cached_property
    def stops(self) -> Stops:
        """Where runs end that don't return."""
        return other_ends.stops_of(self.faces, self.question)

    def of_goals(self, refuted: Iterable[int], suffice: bool) -> dict[int, Other]:
        """What runs of any end say of goals that no counted run hits; by certificates where the bounds suffice (`suffice`)."""
        goals = sorted(refuted)
        if self.asked.ends == ANY or not goals:
            self.certificates = {goal: f"certificates/{goal}.cert" for goal in goals}
            return {goal: Other(is_refuted=True) for goal in goals}
        ours = dataclasses.replace(self.asked, ends=ANY)
        folder = Folder(self.folder.at(ANY))
        folder.begin(ours, [])
        folder.clean()
        jobs = self.folder.jobs(None)
        made = folder.generated(ours, jobs)
        hits = folder.found()
        for goal in made.goals if made else ():
            if made and goal.input:
                hits.setdefault(goal.number, made.inputs[goal.input - 1])
        if suffice:
            known = set(folder.refuted(ours)) | set(folder.open(ours.budget)) | set(hits)
            easy, left = folder.known_refuted(), [goal for goal in goals if goal not in known]
            with ThreadPoolExecutor(jobs) as pool:
                list(pool.map(lambda goal: folder.decide(goal, goal in easy), left))
            hits |= folder.found()
        found = {goal: Other(is_refuted=True) for goal in folder.refuted(ours) if goal in goals}
        self.certificates = {goal: os.path.join(ANY, "certificates", f"{goal}.cert") for goal in found}
        wanted = {goal: hits[goal] for goal in goals if goal in hits and goal not in found}
        return found | other_ends.hit_by(self.faces, self.question, self.asked.query, wanted)

    def judged(self, goals: list[Goal], refuted: set[int], limits: Limits) -> dict[int, tuple[Verdict, Ending | None]]:
        """What is said of each goal that no counted run hits, by its number, and the run that shows it."""
        if not refuted:
            return {}
        others = self.of_goals(refuted, limits.make_unreachable)
        judge = Judge(self.faces, self.question, limits, self.stops, self.asked.query)
        return {
            goal.number: judge.verdict(goal.text, others.get(goal.number, other_ends.UNASKED))
            for goal in goals
            if goal.number in refuted
        }

    def traps(self, shown: Iterable[Ending | None]) -> list[Ending]:
        """The runs that a trap ends, one for each place and trap: those of the campaign's inputs, those that show something of a
        goal, and those that were looked for."""
        ran = other_ends.endings_of(self.faces, self.question, self.made)
        found: dict[tuple[int, str], Ending] = {}
        for one in (*ran, *shown, *self.stops.endings):
            if one and one.is_crash:
                found.setdefault((one.node, one.end), one)
        return [found[key] for key in sorted(found)]


def names_of(faces: Faces, ending: Ending) -> tuple[str, ...]:
    """The names by which a gate may allow a trap: its place with and without the column, and its function."""
    return ending.place, ending.place.rpartition(":")[0], faces.name(faces.graph.nodes[ending.node].function)


def not_allowed(faces: Faces, traps: Iterable[Ending], allowed: Iterable[str]) -> list[Ending]:
    """The traps that no allowed name stands for."""
    names = set(allowed)
    return [one for one in traps if not names & set(names_of(faces, one))]
