"""Runs groups of cases side by side, as many as there are processors, each group in a folder of its own.

A group has parts, which need nothing of each other. A part answers how many cases it tried, and a line for each that failed.
Its temporary files are made in its group's folder, which is gone at the end. A part that breaks off is one case that failed.
"""

import concurrent.futures
import dataclasses
import functools
import multiprocessing
import os
import resource
import tempfile
import time
from collections.abc import Callable, Iterable

Outcome = tuple[int, list[str]]
Part = Callable[[], Outcome]
Place = tuple[int, int]  # a group's and a part's


@dataclasses.dataclass
class Group:
    """The parts that are told of under one name, and lines that are printed with it, of what was skipped."""

    name: str
    parts: list[Part]
    notes: list[str] = dataclasses.field(default_factory=list)


@dataclasses.dataclass
class Times:
    """Seconds by the clock, and those of processors."""

    clock: float = 0.0
    processors: float = 0.0

    def add(self, other: "Times") -> None:
        """Adds what another part took."""
        self.clock += other.clock
        self.processors += other.processors


@dataclasses.dataclass
class Result:
    """What the parts of a group have answered so far: how many are left, how many cases passed, a line for each that failed, and
    what its parts took, one behind the other."""

    left: int
    passed: int = 0
    failed: list[str] = dataclasses.field(default_factory=list)
    times: Times = dataclasses.field(default_factory=Times)

    def add(self, outcome: Outcome, times: Times) -> None:
        """Adds what a part answered."""
        count, wrong = outcome
        self.left -= 1
        self.passed += count - len(wrong)
        self.failed += wrong
        self.times.add(times)


def processor_seconds() -> float:
    """What this process and those that it has waited for took so far. In seconds of a processor."""
    used = [resource.getrusage(of) for of in (resource.RUSAGE_SELF, resource.RUSAGE_CHILDREN)]
    return sum(one.ru_utime + one.ru_stime for one in used)


def run_part(groups: list[Group], top: str, place: Place) -> tuple[Outcome, Times]:
    """What a part answers, and what it took."""
    group = groups[place[0]]
    folder = os.path.join(top, group.name)
    os.makedirs(folder, exist_ok=True)
    os.environ["TMPDIR"] = tempfile.tempdir = folder
    begun, used = time.monotonic(), processor_seconds()
    try:
        outcome = group.parts[place[1]]()
    except Exception as fault:  # so that the others are run
        outcome = 1, [f"{group.name}: part {place[1] + 1} broke off: {fault!r}"]
    return outcome, Times(time.monotonic() - begun, processor_seconds() - used)


WORK: list[Callable[[Place], tuple[Outcome, Times]]] = []  # what a worker runs, which it has from its parent


def run_in_worker(place: Place) -> tuple[Outcome, Times]:
    """The outcome of a part with what it took, in a process of its own."""
    return WORK[-1](place)


def outcomes(groups: list[Group], workers: int) -> Iterable[tuple[int, Outcome, Times]]:
    """The outcome of each part with its group's place, as they come. The first group's parts are begun first."""
    places = [(number, part) for number, group in enumerate(groups) for part in range(len(group.parts))]
    with tempfile.TemporaryDirectory(prefix="fshell-test-") as top:
        os.chmod(top, 0o755)  # some cases are another user's
        WORK.append(functools.partial(run_part, groups, top))
        context = multiprocessing.get_context("fork")
        with concurrent.futures.ProcessPoolExecutor(workers, mp_context=context) as pool:
            waiting = {pool.submit(run_in_worker, place): place[0] for place in places}
            for done in concurrent.futures.as_completed(waiting):
                yield waiting[done], *done.result()


def tell(group: Group, result: Result) -> None:
    """Prints what came of a group."""
    for line in [*group.notes, *result.failed]:
        print(line)
    took = f"{result.times.clock:.0f} s, {result.times.processors:.0f} s of a processor"
    print(f"{group.name}: {result.passed} passed, {len(result.failed)} failed, {took}", flush=True)


def run(groups: list[Group], workers: int) -> Outcome:
    """Runs all groups, and prints for each, when its last part has ended, what failed and what it took."""
    begun = time.monotonic()
    results = [Result(len(group.parts)) for group in groups]
    for group, result in zip(groups, results):
        if not group.parts:  # (all of it is skipped)
            tell(group, result)
    for number, outcome, times in outcomes(groups, workers):
        results[number].add(outcome, times)
        if not results[number].left:
            tell(groups[number], results[number])
    passed, failed = sum(result.passed for result in results), [line for result in results for line in result.failed]
    processors = sum(result.times.processors for result in results)
    print(
        f"{len(groups)} groups took {time.monotonic() - begun:.0f} s, {workers} parts at a time, {processors:.0f} s of a processor"
    )
    return passed + len(failed), failed
