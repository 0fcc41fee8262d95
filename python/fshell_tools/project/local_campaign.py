"""Has the goals of a query decided in a campaign's folder, as fshell campaign does. What goes wrong with a goal ends the task."""

import concurrent.futures
import dataclasses
import fcntl
import json
import os
from typing import Any

from fshell_tools.bounds.sufficiency import Left, options_of
from fshell_tools.campaign.main import Campaign, check_parallel, sizes
from fshell_tools.campaign.report import Told
from fshell_tools.campaign.request import Asked
from fshell_tools.campaign.state_folder import Folder
from fshell_tools.core import inputs, translation_traps
from fshell_tools.core.reports import Input, Report
from fshell_tools.order import main as order
from fshell_tools.project.work_folder import Place


class Here(Campaign):
    """A campaign whose goals are decided by threads of this process, or by GNU parallel where other machines are named."""

    def search(self, left: list[int], size: int) -> None:
        """Has goals decided: those that were refuted before, and the first `size` of the others. Raises Failure where
        other machines are named and GNU parallel isn't there."""
        if self.logins:
            check_parallel()
            super().search(left, size)
            return
        refuted = self.folder.known_refuted()
        goals = [goal for goal in left if goal in refuted] + [goal for goal in left if goal not in refuted][:size]
        with concurrent.futures.ThreadPoolExecutor(self.jobs) as pool:
            list(pool.map(lambda goal: self.folder.decide(goal, goal in refuted), goals))
        self.tried.update(goals)

    def decide(self, is_carried: bool) -> Report:
        """The report, with something known of each goal. Where an earlier version left inputs and certificates
        (`is_carried`), only goals that these leave open are searched. Raises Failure where the program refuses
        something."""
        if not is_carried:
            self.generate()
        for size in sizes():
            report = self.measured()
            left = self.left(report)
            if not left:
                break
            self.search(left, size)
        return report


class Known(Told):
    """Writes the report of a campaign of an entry whose bounds the task `bounds` has found already."""

    def __init__(self, known: Left, folder: Folder, asked: Asked, made: list[Input], report: Report) -> None:
        self.known = known
        super().__init__(folder, asked, made, report)

    def bounds(self) -> Left:
        """What is known of the bounds; where they suffice, with the expression whose order of evaluation C leaves open,
        if one restricts what the query says (docs/ORDER.md)."""
        if not self.known.limits.suffice:
            return self.known
        asked = self.asked
        restriction = order.restriction(asked.entry, asked.sources, asked.query, "returned", asked.place)
        why = translation_traps.restriction(asked.entry, asked.sources, options_of(asked.bounds), asked.place)
        return Left(dataclasses.replace(self.known.limits, restriction=why or restriction), self.known.options)


def decide(
    place: Place,
    asked: Asked,
    first: list[dict[str, Any]],
    is_carried: bool,
    known: Left,
    jobs: int,
    logins: str | None,
) -> None:
    """Has the goals of a query decided in a folder, and writes the campaign's report and inputs there. `first` are
    inputs to begin with, `jobs` is the number of threads, `logins` the file of other machines. Waits for a process that
    is still at work there. Raises Failure where the folder is another question's, or the program refuses this one."""
    folder = Folder(place.path)
    folder.begin(asked, inputs.of_text(json.dumps(first), False))
    with open(folder.at("machine", "lock"), "w", encoding="ascii") as lock:
        # (an earlier run that was killed may have left a process that is still at work here)
        fcntl.flock(lock, fcntl.LOCK_EX)
        folder.clean()
        campaign = Here(folder, jobs, os.path.abspath(logins) if logins else None)
        report = campaign.decide(is_carried)
        Known(known, folder, asked, campaign.inputs, report).write()
