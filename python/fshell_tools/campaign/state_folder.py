"""The folder of a campaign: what was asked, and what is known of each goal.

Each fact is a file of its own that is moved into its place, so a campaign that was stopped at any moment goes on from what
stands there:

  campaign.json          what was asked, with the sums of the sources and of what they mean
  given.json             the inputs that were given
  sources/SUM/           the sources that are judged, by their sum: a copy, so that edits meanwhile change nothing
  generated.json         what one `generate` over all goals answered at the begin, or how it was refused
  found/N                prove's line for goal N, with an input
  certificates/N.cert    prove's certificate for goal N, and N.sum, its sum, once `check` accepted it
  open/N                 the budget that goal N was tried with, and what prove said
  mcdc.json              the report of fshell mcdc that was given
  machine/               the lock, the number of jobs and the log of GNU parallel: what differs from machine to machine
"""

import dataclasses
import json
import os
import sys

from fshell_tools.campaign import split_generate
from fshell_tools.campaign.request import Asked, read_sums, sum_of
from fshell_tools.core import inputs, mcdc_report_reader, program, snapshots
from fshell_tools.core.mcdc_report_reader import Conditions
from fshell_tools.core.program import Failure
from fshell_tools.core.reports import Input, Report, report_of_json

KINDS = ("found", "certificates", "open")
FOLDERS = (*KINDS, "machine")
STEPS = "1000000"
# the moves of each goal's search by the `generate` that comes first, so that hard goals are left to many processes
FIRST_BUDGET = 50_000
TOO_LARGE = ("error 80 ", "error 81 ", "error 82 ")


class Folder:
    """What a campaign keeps: its question, inputs, certificates and what is open, each fact a file of its own."""

    def __init__(self, path: str) -> None:
        self.path = path

    def at(self, *names: str) -> str:
        """The path of a file in the folder."""
        return os.path.join(self.path, *names)

    # ---- what was asked

    def begin(self, asked: Asked, given: list[Input]) -> None:
        """Makes the folder of a campaign, or goes on with the same one. Raises Failure where it is another
        campaign's."""
        before = self.asked() if os.path.exists(self.at("campaign.json")) else None
        if before and before.differs(asked):
            raise Failure(
                f"{self.path} is another campaign's: it has another {before.differs(asked).removesuffix('s')}"
            )
        if before:
            self.check_same(asked)
        for kind in FOLDERS:
            os.makedirs(self.at(kind), exist_ok=True)
        if before and before.sums != asked.sums:
            self.forget_checks()
            print(
                f"changed in comments alone: {' '.join(before.changed(asked))}; the goals are the same", file=sys.stderr
            )
        if given or not before:
            program.write_whole(self.at("given.json"), inputs.json_text(given))
        program.write_whole(self.at("campaign.json"), json.dumps(dataclasses.asdict(asked), indent=1) + "\n")

    def check_same(self, now: Asked) -> None:
        """A failure where a source has changed and the goals with it."""
        before = self.asked()
        if before.sums == now.sums or before.has_the_goals_of(now):
            return
        kept = "its inputs" if os.path.exists(self.at("inputs.json")) else "what was given"
        file = self.at("inputs.json" if os.path.exists(self.at("inputs.json")) else "given.json")
        raise Failure(
            f"{self.path}: changed since the campaign began: {' '.join(before.changed(now))}; another one may begin with "
            f"{kept} (--inputs {file}), its certificates are of the old sources"
        )

    def forget_checks(self) -> None:
        """Has each certificate checked again."""
        for goal in self.numbers("certificates", ".sum"):
            os.remove(self.at("certificates", f"{goal}.sum"))

    def jobs(self, given: int | None) -> int:
        """The number of jobs: the one that is given, which is kept, or the one that was kept, or that of the processors."""
        path = self.at("machine", "jobs")
        if given:
            program.write_whole(path, f"{given}\n")
            return given
        kept = program.read(path).decode().strip() if os.path.exists(path) else ""
        return int(kept) if kept.isdigit() and int(kept) else os.cpu_count() or 1

    def asked(self) -> Asked:
        """What was asked; a failure where the folder is no campaign's."""
        try:
            value = json.loads(program.read(self.at("campaign.json")))
            lists = {name: tuple(value[name]) for name in ("sources", "sums")}
            return Asked(**{**value, **lists})
        except (ValueError, KeyError, TypeError):
            raise Failure(f"{self.at('campaign.json')} isn't a campaign's") from None

    def keep_sources(self, asked: Asked) -> None:
        """Keeps a copy of the sources that were taken, in a folder that is called by their sum. Raises OSError where it can't."""
        snapshots.keep(asked.sources, asked.place, self.at("sources"))

    def take_sources(self, asked: Asked) -> None:
        """Takes the sources that were judged, as the folder has them. Raises Failure where they are gone, and the user's own are
        others."""
        if not snapshots.use(asked.sources, asked.sums, asked.place, self.at("sources")):
            snapshots.take(asked.sources, asked.place)
            if read_sums(asked.sources, asked.place) != asked.sums:
                raise Failure(
                    f"{self.path}: changed since it was made: {' '.join(asked.sources)}, and it has no copy of them"
                )

    def given(self) -> list[Input]:
        """The inputs with which the campaign began."""
        return inputs.of_file(self.at("given.json"))

    def clean(self) -> None:
        """Removes what a stopped process left half written."""
        for kind in ("", *FOLDERS):
            for name in os.listdir(self.at(kind)):
                if name.startswith(".new."):
                    os.remove(self.at(kind, name))

    # ---- what is known of goals

    def numbers(self, kind: str, ending: str = "") -> list[int]:
        """The goals that have a file of a kind, rising."""
        names = [name.removesuffix(ending) for name in os.listdir(self.at(kind)) if name.endswith(ending)]
        return sorted(int(name) for name in names if name.isdigit())

    def generated(
        self, asked: Asked, jobs: int = 1, tell: split_generate.Tell = lambda done, total: None
    ) -> Report | None:
        """What one `generate` over all goals answers, once it is asked; None where it is refused. Where its formulas are
        too large, `prove` says of each goal whether that one is. `tell` hears how many goals are done, where there are many.
        """
        known, path = self.known_generated(), self.at("generated.json")
        if not os.path.exists(path):
            ended = split_generate.generate(asked, min(asked.budget, FIRST_BUDGET), jobs, tell)
            is_refused = ended.stderr.startswith(TOO_LARGE)
            program.write_whole(path, ended.stderr if is_refused else program.text_of(["generate"], ended))
            known = self.known_generated()
        return known

    def known_generated(self) -> Report | None:
        """What `generate` answered, where it did; a file that isn't whole is removed."""
        path = self.at("generated.json")
        text = program.read(path).decode() if os.path.exists(path) else "error"
        try:
            return None if text.startswith("error") else report_of_json(json.loads(text))
        except (ValueError, KeyError, TypeError):
            os.remove(path)
            return None

    def known_refuted(self) -> set[int]:
        """The goals that `generate` refuted; each certificate says so anew."""
        made = self.known_generated()
        return {goal.number for goal in made.goals if goal.verdict == "refuted"} if made else set()

    def found(self) -> dict[int, Input]:
        """The input of each goal for which one was found; a file that isn't whole is removed. Its ValueError doesn't
        come out."""
        known = {}
        for goal in self.numbers("found"):
            path = self.at("found", str(goal))
            try:
                text = program.read(path).decode()
                if not text.endswith("\n"):
                    raise ValueError("it is cut short")
                (known[goal],) = inputs.of_text(text, False)
            except ValueError:
                os.remove(path)
        return known

    def open(self, budget: int) -> dict[int, str]:
        """What prove said of each goal that it left open with no less than this budget. A budget is in moves of the
        search."""
        known = {}
        for goal in self.numbers("open"):
            tried, _, said = program.read(self.at("open", str(goal))).decode().strip().partition(" ")
            if tried.isdigit() and int(tried) >= budget:
                known[goal] = said
        return known

    def known(self) -> int:
        """How many files there are that each say of a goal what is known of it."""
        certificates = [name for name in os.listdir(self.at("certificates")) if name.endswith(".cert")]
        return len(certificates) + len(self.numbers("found")) + len(self.numbers("open"))

    def certificate(self, goal: int) -> str:
        """The path of a goal's certificate, by its number from 1."""
        return self.at("certificates", f"{goal}.cert")

    def refuted(self, asked: Asked) -> list[int]:
        """The goals whose certificates `check` accepted as they are now; others are checked again, or removed."""
        return [goal for goal in self.numbers("certificates", ".cert") if self.is_checked(asked, goal)]

    def is_checked(self, asked: Asked, goal: int) -> bool:
        """Whether a goal's certificate is accepted by `check`, or was with the sum that is noted; one that isn't
        accepted is removed."""
        path, noted = self.certificate(goal), self.at("certificates", f"{goal}.sum")
        if os.path.exists(noted) and program.read(noted).decode().strip() == sum_of(path):
            return True
        if self.check(asked, goal, path):
            os.remove(path)
            return False
        return True

    def check(self, asked: Asked, goal: int, path: str) -> str:
        """Why `check` rejects a certificate, or nothing, and its sum is noted."""
        words = ["check", asked.entry, asked.query, str(goal), os.path.abspath(path), *asked.sources, *asked.words()]
        ended = program.run(words, asked.place)
        if ended.status:
            return ended.stderr.strip() or f"status {ended.status}"
        program.write_whole(self.at("certificates", f"{goal}.sum"), sum_of(path) + "\n")
        return ""

    def take_conditions(self, asked: Asked, path: str) -> None:
        """Keeps a report of fshell mcdc; one of another entry or of other sources is a failure."""
        found = mcdc_report_reader.of_file(path)
        if not found:
            raise Failure(f"{path}: it is no report of mcdc as JSON")
        if (found.entry, found.sums) != (asked.entry, asked.sums):
            raise Failure(f"{path}: it is of another entry or of other sources than the campaign")
        program.write_whole(self.at("mcdc.json"), program.read(path).decode())

    def conditions(self, asked: Asked) -> Conditions | None:
        """The report of fshell mcdc that was kept, where it is of the sources as they are."""
        path = self.at("mcdc.json")
        found = mcdc_report_reader.of_file(path) if os.path.exists(path) else None
        return found if found and found.sums == asked.sums else None

    # ---- one goal

    def decide_all(self, goals: list[int]) -> None:
        """Has goals decided one after the other; where some aren't, that is told behind the last. The first of the
        failures is raised then."""
        failures = []
        refuted = self.known_refuted()
        for goal in goals:
            try:
                self.decide(goal, goal in refuted)
            except Failure as failure:
                failures.append(failure)
        if failures:
            raise failures[0]

    def decide(self, goal: int, is_refuted: bool) -> None:
        """Has a goal decided by `prove`, and keeps what it says; a certificate is kept where `check` accepts it. One that the
        `generate` at the begin refuted has its budget, which is enough, and with which fewer inputs are tried first."""
        asked = self.asked()
        budget = min(asked.budget, FIRST_BUDGET) if is_refuted else asked.budget
        path = self.at("certificates", f".new.{goal}.{os.getpid()}")
        words = [
            "prove",
            asked.entry,
            asked.query,
            str(goal),
            *asked.sources,
            *asked.words(),
            "--budget",
            str(budget),
        ]
        try:
            with open(path, "wb") as file:
                ended = program.started(words, asked.place, file)
            if is_refuted and ended.returncode == program.OPEN:
                self.decide(goal, False)
                return
            self.keep(asked, goal, path, ended.returncode, ended.stderr.decode().strip())
        finally:
            if os.path.exists(path):
                os.remove(path)

    def keep(self, asked: Asked, goal: int, path: str, status: int, refusal: str) -> None:
        """Keeps what prove answered of a goal. Raises Failure where it answered something else."""
        with open(path, "rb") as file:
            line = file.readline(1_000_000).decode()
        if status == program.DONE and line == "fshell certificate 1\n":
            wrong = self.check(asked, goal, path)
            if wrong:
                raise Failure(f"check rejects the certificate of goal {goal}: {wrong}")
            os.replace(path, self.certificate(goal))
        elif status == program.DONE and line.startswith(f"goal {goal} covered args"):
            program.write_whole(self.at("found", str(goal)), line)
        elif status == program.OPEN:
            program.write_whole(self.at("open", str(goal)), f"{asked.budget} its budget was spent\n")
        elif refusal.startswith(TOO_LARGE):
            program.write_whole(self.at("open", str(goal)), f"{asked.budget} {refusal}\n")
        else:
            raise Failure(f"fshell prove, goal {goal}: {refusal or f'status {status}'}")
