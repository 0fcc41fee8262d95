"""`trees` beside the runs of the automaton, which is another definition of what a source means.

To begin a loop's body and to call a function takes a turn, and each turn has an edge of its own. So where an input isn't cut at
a number of edges, `trees` must tell the same end with as many turns; where it is cut, `trees` may cut it too, or tell the end
that the run has with more edges. Tried are the inputs of each measurement of command_cases/, all inputs of the programs of
test_all_inputs.py, and random programs, those that models/gcc/program_runs makes (for which no gcc is needed), also with few turns:
with one more an end stays the same.
"""

import functools
import json
import os
import re
import subprocess
import tempfile
from collections.abc import Callable, Iterator
from typing import Any

from tests import environment
from tests.models.gcc.loading import load
from tests.parallel_groups import Outcome
from tests.program import test_all_inputs, test_commands, test_replays
from tests.program.command_cases import Case

RANDOM = range(1001, 1025)
FEW, MANY = (1, 2, 4, 9, 30), 20000
MOST = "1000000"
Differing = Callable[[str], list[str]]


def said(words: list[str], folder: str) -> list[str]:
    """The lines of an answer, which must have the status 0. Raises ValueError where the program refuses them."""
    status, text, err = environment.ended([environment.program(), *words], folder)
    if status or err:
        raise ValueError(f"{words[:4]} ends with {status}, {err!r}")
    return text.splitlines()


def by_trees(steps: int | str, entry: str, inputs: str, sources: list[str], folder: str) -> list[str]:
    """The end of each input by the trees, in order. Raises ValueError for other lines than one an input."""
    lines = said(["trees", "--steps", str(steps), entry, inputs, "--", *sources], folder)
    ends = [re.fullmatch(r"input (\d+) (.+)", line) for line in lines]
    found = [end for end in ends if end]
    if [int(end[1]) for end in found] != list(range(1, len(lines) + 1)):
        raise ValueError(f"trees: {lines[:3]}")
    return [end[2] for end in found]


def by_edges(steps: int | str, entry: str, inputs: str, sources: list[str], folder: str) -> list[str]:
    """The end of each input by the automaton's run."""
    return [
        line.split(" edges")[0].split(" ", 2)[2]
        for line in said(["runs", "--steps", str(steps), entry, inputs, "--", *sources], folder)
    ]


def differences(ends: list[str], trees: list[str]) -> list[str]:
    """What the trees tell other than the runs, with as many turns as edges."""
    wrong = [] if len(ends) == len(trees) else [f"{len(trees)} ends, not {len(ends)}"]
    return wrong + [
        f"input {number}: {tree}, not {end}"
        for number, (end, tree) in enumerate(zip(ends, trees), 1)
        if tree != end != "cut"
    ]


def of_measurement(words: list[str], report: str, folder: str) -> list[str]:
    """The same of a measurement's inputs."""
    options, (_, entry, _, inputs, *sources) = test_replays.parted(words)
    if "--json" in options:
        ends = [
            " ".join([one["end"], *([str(one["value"])] if "value" in one else [])])
            for one in json.loads(report)["inputs"]
        ]
    else:
        ends = [line.split(" ", 2)[2] for line in report.splitlines() if re.match(r"input \d", line)]
    trees = by_trees(options.get("--steps") or 100000, entry, inputs, sources, folder)
    late = [number for number, (end, tree) in enumerate(zip(ends, trees)) if end == "cut" != tree]
    if late:
        longer = by_edges(MOST, entry, inputs, sources, folder)
        ends = [longer[number] if number in late else end for number, end in enumerate(ends)]
    return differences(ends, trees)


def all_of(name: str, folder: str) -> list[str]:
    """The same of all inputs of a program."""
    program = next(program for program in test_all_inputs.TABLE if program.name == name)
    with open(os.path.join(folder, "p.c"), "w", encoding="ascii") as file:
        file.write(test_all_inputs.SOURCES[name])
    inputs, found = list(program.inputs()), list[str]()
    for at in range(0, len(inputs), test_all_inputs.CHUNK):
        with open(os.path.join(folder, "all.json"), "w", encoding="ascii") as file:
            json.dump(
                [{"args": words, "answers": answers} for words, answers in inputs[at : at + test_all_inputs.CHUNK]],
                file,
            )
        found += differences(*(one(400, "f", "all.json", ["p.c"], folder) for one in (by_edges, by_trees)))
    return found[:3]


def generator() -> Any:
    """What makes random programs."""
    return load("program_runs").Program


def of_random(program: Any, folder: str) -> list[str]:
    """The same of a random program, and what changes with more turns though it was no cut."""
    for name, content in (("p.c", "\n".join(program.ours) + "\n"), ("in.json", json.dumps(program.inputs()))):
        with open(os.path.join(folder, name), "w", encoding="ascii") as file:
            file.write(content)
    ends = by_edges(MANY, program.entry, "in.json", ["p.c"], folder)
    found = differences(ends, by_trees(MANY, program.entry, "in.json", ["p.c"], folder))
    for turns in FEW:
        few = by_trees(turns, program.entry, "in.json", ["p.c"], folder)
        found += [
            f"input {number} with {turns} turns: {early}, not {end}"
            for number, (early, end) in enumerate(zip(few, ends), 1)
            if early not in ("cut", end) and end != "cut"
        ]
        edges = by_edges(turns, program.entry, "in.json", ["p.c"], folder)
        found += [f"{line}, with {turns} turns" for line in differences(edges, few)]
    return found


def told(name: str, differing: Differing) -> Outcome:
    """One source, and a line where the trees tell another end; `differing` looks at it in a folder."""
    with tempfile.TemporaryDirectory() as folder:
        try:
            lines = differing(folder)
        except (subprocess.TimeoutExpired, ValueError) as fault:
            lines = [str(fault)]
    return 1, [f"{name}: {'; '.join(lines)}"[:600]] if lines else []


def of_case(case: Case, words: list[str], report: str, folder: str) -> list[str]:
    """The same of a measurement of the cases."""
    test_commands.make_files(folder, case["files"])
    return of_measurement(words, report, folder)


def of_seed(seed: int, folder: str) -> list[str]:
    """The same of the random program with this number."""
    return of_random(generator()(seed), folder)


def sources() -> Iterator[tuple[str, Differing]]:
    """A name for each source that is tried, with what looks at it in a folder."""
    for case, words, report in test_replays.measurements():
        yield case["name"], functools.partial(of_case, case, words, report)
    for name in test_all_inputs.SOURCES:
        yield f"all inputs of {name}", functools.partial(all_of, name)
    for seed in RANDOM:
        yield f"random program {seed}", functools.partial(of_seed, seed)


def parts() -> list[Callable[[], Outcome]]:
    """A part for each source, by the automaton and by the trees."""
    return [functools.partial(told, name, differing) for name, differing in sources()]
