"""Traces beside measurements: for each case of `measure` in command_cases/ that ends with a report, `traces` of its inputs and then
`replay` must give that report without the inputs whose runs aren't counted, the others numbered anew."""

import functools
import json
import os
import re
import subprocess
import tempfile
from collections.abc import Callable, Iterator, Sequence

from tests import environment
from tests.parallel_groups import Outcome
from tests.program import test_commands
from tests.program.command_cases import Case, every

LIMIT = 16 * 2**20
COUNTED = {
    "returned": ("returned",),
    "trapped": ("returned", "trapped"),
    "any": ("returned", "trapped", "blocked", "too-deep"),
}


def parted(words: list[str]) -> tuple[dict[str, str | None], list[str]]:
    """The options of a command's words, each with its value, and the other words."""
    options, others, waiting = dict[str, str | None](), list[str](), list(words)
    while waiting:
        word = waiting.pop(0)
        if word == "--":
            return options, others + waiting
        if word == "--json":
            options[word] = None
        elif word.startswith("--"):
            name, is_there, value = word.partition("=")
            options[name] = value if is_there else waiting.pop(0)
        else:
            others.append(word)
    return options, others


def as_words(options: dict[str, str | None], names: Sequence[str]) -> list[str]:
    """Those of the options that have one of the names."""
    return [
        word
        for name, value in options.items()
        if name in names
        for word in ([name] if value is None else [name, value])
    ]


def new_numbers(ends: list[str], counted: Sequence[str]) -> dict[int, int]:
    """The number that each input has among those that are counted, by its number."""
    kept = [number for number, end in enumerate(ends, 1) if end.split(" ")[0] in counted]
    return {number: place for place, number in enumerate(kept, 1)}


def of_text(report: str, counted: Sequence[str]) -> str:
    """A report without the inputs that aren't counted."""
    lines = report.splitlines()
    ends = [line.split(" ", 2)[2] for line in lines if re.match(r"input \d", line)]
    new = new_numbers(ends, counted)
    kept = [re.sub(r" inputs \d+", f" inputs {len(new)}", lines[0], count=1)]
    for line in lines[1:]:
        word, *rest = line.split(" ")
        if word == "input":
            kept += [f"input {new[int(rest[0])]} {' '.join(rest[1:])}"] if int(rest[0]) in new else []
        elif word == "goal" and rest[1] == "covered":
            kept.append(" ".join([word, rest[0], rest[1], str(new[int(rest[2])]), *rest[3:]]))
        elif word == "suite":
            kept.append(" ".join([word, *(str(new[int(number)]) for number in rest)]))
        else:
            kept.append(line)
    return "\n".join(kept) + "\n"


def of_json(report: str, counted: Sequence[str]) -> str:
    """The same of a report as JSON."""
    value = json.loads(report)
    new = new_numbers([one["end"] for one in value["inputs"]], counted)
    value["inputs"] = [one for number, one in enumerate(value["inputs"], 1) if number in new]
    value["suite"] = [new[number] for number in value["suite"]]
    for goal in value["goals"]:
        if "input" in goal:
            goal["input"] = new[goal["input"]]
    return json.dumps(value, separators=(",", ":"), sort_keys=True) + "\n"


def run(words: list[str], folder: str) -> tuple[int, str, str]:
    """How the launcher ends in a folder: its status and both texts."""
    return environment.ended([environment.LAUNCHER, *words], folder)


def wrong(words: list[str], report: str, folder: str) -> str:
    """What is wrong with the traces of a measurement, or with what they are replayed as, if something is."""
    options, (_, entry, query, inputs, *sources) = parted(words)
    counted = COUNTED[options.get("--ends") or "returned"]
    status, traces, err = run(
        ["traces", *as_words(options, ("--steps", "--ends")), entry, inputs, "--", *sources], folder
    )
    if status or err:
        return f"traces ends with {status}, {err!r}"
    with open(os.path.join(folder, "of.traces"), "w", encoding="ascii") as file:
        file.write(traces)
    due: tuple[int, str, str] = (0, (of_json if "--json" in options else of_text)(report, counted), "")
    if len(traces) > LIMIT:
        due = (6, "", "error 16 FileTooLong of.traces\n")
    got = run(["replay", *as_words(options, ("--json", "--ends")), entry, query, "of.traces", "--", *sources], folder)
    return "" if got == due else f"replay: {got!r}, not {due!r}"[:600]


def measurements() -> Iterator[tuple[Case, list[str], str]]:
    """The cases that end with a report of `measure`, each with its words and its report."""
    for case in every.CASES:
        words = [test_commands.text(word).decode("utf-8", "replace") for word in case["words"]]
        if (
            words[:1] == ["measure"]
            and case["status"] == 0
            and "each" not in case
            and "stdout" in case
            and "stdout_room" not in case
        ):
            yield case, words, test_commands.text(case["stdout"]).decode()


def replayed(case: Case, words: list[str], report: str) -> Outcome:
    """One measurement, and a line where it differs."""
    with tempfile.TemporaryDirectory() as folder:
        test_commands.make_files(folder, case["files"])
        try:
            line = wrong(words, report, folder)
        except subprocess.TimeoutExpired:
            line = f"no end within {environment.SECONDS} seconds"
    return 1, [f"{case['name']}: {line}"] if line else []


def parts() -> list[Callable[[], Outcome]]:
    """A part for each measurement, whose traces are replayed."""
    return [functools.partial(replayed, *measurement) for measurement in measurements()]
