"""fshell campaign: has all goals of a query decided, in a folder, on as many processors and machines as there are.

The given inputs are measured first, and where they miss goals one `generate` over all goals makes inputs for the easy ones. Each
goal that is left is decided by `prove`, and its certificate checked by `check`, each in a process of its own; after
each round the new inputs are measured over all goals, so that goals which are hit by the way aren't searched. The folder then has
inputs.json, suite.json (the reduced suite), certificates/, report.txt and report.json. A campaign that was stopped goes on with
`-o DIR` alone. The status is 0, or 1 where a goal is undecided; with --at-least P it is 1 where less than P percent of the goals
that aren't unreachable are covered, where no such goal is left, where there is no input, and where a run is found that a trap ends,
which --allow-traps doesn't name.
"""

import argparse
import concurrent.futures
import dataclasses
import fcntl
import os
import shutil
import subprocess
import sys
from collections.abc import Iterator
from typing import IO

from fshell_tools.campaign import logins, source_changes
from fshell_tools.campaign.report import Told
from fshell_tools.campaign.request import Asked, read_sums
from fshell_tools.campaign.state_folder import STEPS, Folder
from fshell_tools.core import argument_parsers, inputs, program, progress, snapshots, verdicts
from fshell_tools.core.program import Failure
from fshell_tools.core.reports import ENDS, Input, Report

DEFAULTS = {"turns": 4, "frames": 8, "answers": 16}
# the goals of a round, which don't hang on the number of jobs, so that each finds the same inputs
FIRST_ROUND, LARGEST_ROUND, MOST_IN_A_JOB = 32, 1024, 256
POLLED = 0.5  # seconds


def batches(easy: list[int], hard: list[int], jobs: int) -> list[list[int]]:
    """The goals in parts, each for one process: each hard one alone, and then the easy ones in a part for each job."""
    size = max(1, min(MOST_IN_A_JOB, -(-len(easy) // jobs)))
    return [[goal] for goal in hard] + [easy[at : at + size] for at in range(0, len(easy), size)]


def measured(asked: Asked, given: list[Input]) -> Report:
    """The report of inputs over all goals; a failure where the program refuses what is asked."""
    ends = [] if asked.ends == "returned" else ["--ends", asked.ends]
    with program.as_file(inputs.json_text(given)) as path:
        words = ["measure", asked.entry, asked.query, path, *asked.sources, "--steps", STEPS, *ends]
        return program.report(words, asked.place)


class Campaign:
    """A campaign that goes on in its folder."""

    def __init__(self, folder: Folder, jobs: int, machines: str | None) -> None:
        self.folder, self.jobs, self.logins = folder, jobs, machines
        self.asked = folder.asked()
        self.tried: set[int] = set()
        self.inputs: list[Input] = []
        self.made: list[Input] = []
        self.progress = progress.Progress("campaign: goals", 0)

    def measured(self) -> Report:
        """The report of all inputs over all goals."""
        self.inputs = inputs.once(self.folder.given() + self.made + list(self.folder.found().values()))
        return measured(self.asked, self.inputs)

    def generate(self) -> None:
        """Has one `generate` make inputs, and takes those of goals that the given inputs miss."""
        missed = [goal.number for goal in measured(self.asked, self.folder.given()).goals if goal.verdict == "missed"]
        made = self.folder.generated(self.asked, self.jobs, self.progress.of_total) if missed else None
        if made:
            used = {made.goals[number - 1].input for number in missed}
            self.made = [one for number, one in enumerate(made.inputs, 1) if number in used]

    def left(self, report: Report) -> list[int]:
        """The goals of which nothing is known yet; an input that doesn't hit its goal is forgotten."""
        missed = [goal.number for goal in report.goals if goal.verdict == "missed"]
        for goal in set(missed) & set(self.folder.found()):
            os.remove(self.folder.at("found", str(goal)))
        known = set(self.folder.refuted(self.asked)) | set(self.folder.open(self.asked.budget)) | self.tried
        return [goal for goal in missed if goal not in known]

    def search(self, left: list[int], size: int) -> None:
        """Has goals decided: all that `generate` refuted, which want their certificates, and some others."""
        refuted = self.folder.known_refuted()
        easy = [goal for goal in left if goal in refuted]
        hard = [goal for goal in left if goal not in refuted][:size]
        wrong = self.on_logins(easy, hard, self.logins) if self.logins else self.here(easy + hard, refuted)
        self.tried.update(easy + hard)
        if wrong:
            print(wrong[-1], file=sys.stderr)

    def here(self, goals: list[int], refuted: set[int]) -> list[str]:
        """Has goals decided by threads of this process; gives a line for each that isn't."""
        begun = self.progress.done
        wrong = []
        with concurrent.futures.ThreadPoolExecutor(self.jobs) as pool:
            waiting = [pool.submit(self.folder.decide, goal, goal in refuted) for goal in goals]
            for count, one in enumerate(concurrent.futures.as_completed(waiting), 1):
                failure = one.exception()
                if isinstance(failure, Failure):
                    wrong.append(f"campaign: {failure}")
                elif failure:
                    pool.shutdown(wait=False, cancel_futures=True)
                    raise failure
                self.progress.at(begun + count)
        return wrong

    def on_logins(self, easy: list[int], hard: list[int], machines: str) -> list[str]:
        """Has goals decided on other machines; gives lines where some aren't."""
        lines = [logins.line_of(self.folder.path, batch) for batch in batches(easy, hard, self.jobs)]
        before, begun = self.folder.known(), self.progress.done
        with logins.started(lines, self.jobs, machines, self.folder.at("machine", "joblog")) as (process, said):
            while waited(process) is None:
                self.progress.at(begun + self.folder.known() - before)
        return (said or ["some goals weren't decided"]) if process.returncode else []

    def run(self) -> Report:
        """Goes on until something is known of each goal."""
        with progress.shown(self.progress):
            self.generate()
            for size in sizes():
                report = self.measured()
                left = self.left(report)
                self.progress.at(len(report.goals) - len(left), f"{report.count('covered')} covered", len(report.goals))
                if not left:
                    break
                self.search(left, size)
        return report


def waited(process: "subprocess.Popen[bytes]") -> int | None:
    """The status of a process, once it has ended; a moment is waited for that."""
    try:
        return process.wait(timeout=POLLED)
    except subprocess.TimeoutExpired:
        return None


def sizes() -> Iterator[int]:
    """How many goals each round takes, one round after the other, without an end: twice as many each time, up to a
    limit."""
    size = FIRST_ROUND
    while True:
        yield size
        size = min(2 * size, LARGEST_ROUND)


# ---- words


def numbers(text: str) -> list[int]:
    """Goals' numbers, parted by commas."""
    return [int(word) for word in text.split(",")]


def parser_of_words() -> argument_parsers.Parser:
    """What reads the words of fshell campaign; a wrong word ends the tool with status 2."""
    done = "each goal is decided, and the gate of --at-least passes"
    parser = argument_parsers.parser("campaign", __doc__, done, "a goal is undecided, or the gate fails")
    parser.add_argument("words", nargs="*", metavar="ENTRY QUERY SOURCE..", help="none where a campaign goes on")
    parser.add_argument("-o", metavar="DIR", dest="folder", required=True, help="the campaign's folder")
    for name, value in DEFAULTS.items():
        parser.add_argument(f"--{name}", type=program.in_range(name), metavar="N", help=f"as for generate ({value})")
    parser.add_argument("--ends", choices=ENDS, help="the ends of runs that count (returned)")
    budget = "as for prove (5000000); a greater one tries undecided goals again"
    parser.add_argument("--budget", type=program.in_range("budget"), metavar="N", help=budget)
    parser.add_argument("--inputs", metavar="FILE", help="inputs that are measured first")
    side_by_side = "goals that are decided side by side, on each machine (those of before, or the processors)"
    parser.add_argument("--jobs", type=program.jobs, metavar="N", help=side_by_side)
    parser.add_argument("--sshloginfile", metavar="FILE", help="the machines, as GNU parallel reads them")
    gate = "the status is 1 where less than P percent are covered"
    parser.add_argument("--at-least", type=verdicts.percent, metavar="P", help=gate)
    allowed = "a trap at this place (FILE:LINE) or in this function doesn't fail the gate; again for others"
    parser.add_argument("--allow-traps", action="append", default=[], metavar="NAME", help=allowed)
    counted = "a report of mcdc as JSON, whose conditions are counted too, and must pass the gate"
    parser.add_argument("--mcdc", metavar="FILE", help=counted)
    parser.add_argument("--left", action="store_true", help="only prints the goals that are left, a line each")
    parser.add_argument("--one", type=numbers, metavar="N[,N..]", help="only decides goal N, or several")
    return parser


def words() -> argparse.Namespace:
    """What the words of fshell campaign say; words that can't go together end it with status 2 and a line."""
    parser = parser_of_words()
    given = parser.parse_intermixed_args()
    if 0 < len(given.words) < 3:
        parser.error("ENTRY QUERY SOURCE.. or none of them")
    fixed = [name for name in (*DEFAULTS, "ends") if not given.words and getattr(given, name) is not None]
    if fixed:
        parser.error(f"--{fixed[0]} is said where a campaign begins; this one goes on with what it was asked")
    return given


def asked_by(given: argparse.Namespace) -> Asked:
    """The question of the words: entry, query, sources with their sums, bounds, ends and budget. Raises Failure where a
    source can't be read or its name has a line feed."""
    entry, query, *sources = given.words
    place = os.getcwd()
    program.check_names(sources)
    snapshots.take(sources, place)
    sums = read_sums(tuple(sources), place)
    bounds = {name: value if getattr(given, name) is None else getattr(given, name) for name, value in DEFAULTS.items()}
    ends, budget = given.ends or "returned", given.budget or 5_000_000
    return Asked(entry, query, tuple(sources), place, sums, bounds, ends, budget)


def with_meaning(asked: Asked) -> Asked:
    """The same with what the sources mean, in two sums."""
    meaning, places = source_changes.meaning(asked.query, asked.sources, asked.place)
    return dataclasses.replace(asked, meaning=meaning, places=places)


def given_inputs(given: argparse.Namespace, folder: Folder) -> list[Input]:
    """The inputs of the file that --inputs names, checked by the entry's parameters; none where it isn't given. Raises
    Failure where the file isn't read."""
    if not given.inputs:
        return []
    if given.words:
        return inputs.of_entry(given.inputs, given.words[0], given.words[2:])
    asked = folder.asked()
    return inputs.of_entry(given.inputs, asked.entry, asked.sources, asked.place)


def begun(given: argparse.Namespace, folder: Folder) -> None:
    """Makes the folder, or takes the one that is there. None is made for what is refused."""
    read = given_inputs(given, folder)
    if given.words:
        asked = asked_by(given)
        measured(asked, read)
        folder.begin(with_meaning(asked), read)
        folder.keep_sources(asked)
        return
    asked = folder.asked()
    snapshots.take(asked.sources, asked.place)
    sums = read_sums(asked.sources, asked.place)
    if sums != asked.sums or given.budget or read:
        now = dataclasses.replace(asked, sums=sums, budget=given.budget or asked.budget)
        now = with_meaning(now) if sums != asked.sums else now
        folder.check_same(now)
        measured(now, read)
        folder.begin(now, read)
    folder.keep_sources(asked)


def locked(folder: Folder) -> IO[str]:
    """The folder's lock, which is held as long as this file is open; a failure where another process has it."""
    file = open(folder.at("machine", "lock"), "w", encoding="ascii")
    try:
        fcntl.flock(file, fcntl.LOCK_EX | fcntl.LOCK_NB)
    except OSError:
        raise Failure(f"{folder.path}: another process works in it") from None
    return file


def has_parallel() -> bool:
    """Whether the command parallel is GNU's."""
    if not shutil.which("parallel"):
        return False
    version = subprocess.run(["parallel", "--version"], capture_output=True, text=True, check=False)
    return "GNU parallel" in version.stdout


def check_parallel() -> None:
    """A failure where GNU parallel, which asks other machines, isn't there."""
    if not has_parallel():
        raise Failure("GNU parallel isn't there (Debian: apt-get install parallel), which asks other machines")


def main() -> int:
    """Does a campaign and answers the exit status, as the module says. Raises Failure where GNU parallel is asked
    for and isn't there."""
    given = words()
    folder = Folder(given.folder)
    if given.one:
        folder.take_sources(folder.asked())
        folder.decide_all(given.one)
        return program.DONE
    if given.sshloginfile:
        program.read(given.sshloginfile)
        check_parallel()
    begun(given, folder)
    with locked(folder):
        folder.clean()
        if given.mcdc:
            folder.take_conditions(folder.asked(), given.mcdc)
        campaign = Campaign(folder, folder.jobs(given.jobs), given.sshloginfile)
        if given.left:
            campaign.generate()
            print("".join(f"{goal}\n" for goal in campaign.left(campaign.measured())), end="")
            return program.DONE
        report = campaign.run()
        told = Told(folder, campaign.asked, campaign.inputs, report)
        told.write()
    line, status = told.judged(given.at_least, given.allow_traps)
    print(told.text() + line, end="")
    return status
