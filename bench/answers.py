"""What `generate` answers of a program, and what `measure` says of the inputs that it prints."""

import json
import os
import resource
import signal
import subprocess
import tempfile
from collections.abc import Sequence
from dataclasses import dataclass, field
from typing import Any

Input = dict[str, list[int]]


@dataclass
class Answers:
    """Goals by their answer, the numbers of those that stay undecided and of those among them that a printed input hits, the
    inputs, the seconds of a processor that `generate` took, and the megabytes that it held at most."""

    goals: int = 0
    covered: int = 0
    refuted: int = 0
    undecided: list[int] = field(default_factory=list)
    hit: list[int] = field(default_factory=list)
    inputs: list[Input] = field(default_factory=list)
    seconds: float = 0.0
    megabytes: float = 0.0
    refusal: str = ""

    def add(self, other: "Answers") -> None:
        """Adds the counts of another program."""
        self.goals += other.goals
        self.covered += other.covered
        self.refuted += other.refuted
        self.undecided += other.undecided
        self.hit += other.hit
        self.seconds += other.seconds
        self.megabytes = max(self.megabytes, other.megabytes)


@dataclass
class Run:
    """Both texts that a program wrote, its seconds of a processor, the megabytes that it held at most, and the name of the
    signal that ended it, if one did."""

    out: str
    err: str
    seconds: float
    megabytes: float
    signal: str = ""


def raise_stack() -> None:
    """Lets a program's stack grow to 1 GiB, or as far as this process may."""
    hard = resource.getrlimit(resource.RLIMIT_STACK)[1]
    resource.setrlimit(resource.RLIMIT_STACK, (1 << 30 if hard == resource.RLIM_INFINITY else hard, hard))


def run(words: Sequence[str]) -> Run:
    """What comes of a program."""
    with tempfile.TemporaryFile("w+") as out, tempfile.TemporaryFile("w+") as err:
        child = subprocess.Popen(words, stdout=out, stderr=err, preexec_fn=raise_stack)
        _, status, used = os.wait4(child.pid, 0)
        child.returncode = os.waitstatus_to_exitcode(status)
        out.seek(0)
        err.seek(0)
        ended = signal.Signals(-child.returncode).name if child.returncode < 0 else ""
        return Run(out.read(), err.read(), used.ru_utime + used.ru_stime, used.ru_maxrss / 1024, ended)


def measured(
    program: str, inputs: Sequence[Input], entry: str, query: str, path: str, ends: str = "returned"
) -> list[int | None]:
    """For each goal the number of the first of some inputs that covers it, or None."""
    with tempfile.NamedTemporaryFile("w", suffix=".json") as file:
        json.dump(inputs, file)
        file.flush()
        words = [program, "measure", "--json", "--steps", "50000", "--ends", ends, entry, query, file.name, path]
        goals: list[dict[str, Any]] = json.loads(run(words).out)["goals"]
        return [goal.get("input") for goal in goals]


def answers(
    program: str, path: str, entry: str, query: str, options: Sequence[str] = (), ends: str = "returned"
) -> Answers:
    """The answers of `generate`, whose printed inputs are measured again where a goal stays undecided."""
    made = run([program, "generate", "--json", "--ends", ends, *options, entry, query, path])
    if made.signal:
        return Answers(refusal=f"ended by {made.signal}")
    if made.err:
        return Answers(refusal=made.err.strip())
    report = json.loads(made.out)
    undecided = [number for number, goal in enumerate(report["goals"], 1) if goal["answer"] == "undecided"]
    hit = []
    if undecided:
        again = measured(program, report["inputs"], entry, query, path, ends)
        hit = [number for number in undecided if again[number - 1] is not None]
    counts = len(report["goals"]), report["covered"], report["refuted"]
    return Answers(*counts, undecided, hit, report["inputs"], made.seconds, made.megabytes)
