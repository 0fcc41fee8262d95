"""Inputs that `generate` prints, measured again: none hits a goal that is called undecided or refuted.

For each program of examples/ below, with 1,000 moves a goal, with 20,000 and with the default budget, the printed inputs are given to
`measure`, with steps for any run within the bounds. It must say of each goal what `generate` said: the same input covers it, or
none does. With 1,000 moves most programs have goals that stay undecided: a model of some thousand variables takes more moves.

And two rounds of the cipher TEA, whose inputs are undone here by the cipher's published decryption, have all goals covered at the
default budget: the one input of each end of the lock is the block that is decrypted.
"""

import functools
import json
import os
import shutil
import tempfile
from collections.abc import Callable
from dataclasses import dataclass

from tests import environment
from tests.parallel_groups import Outcome

BUDGETS: tuple[list[str], ...] = (["--budget", "1000"], ["--budget", "20000"], [])
STEPS = "50000"  # a run within the bounds has fewer edges
EXAMPLES = os.path.join(environment.ROOT, "examples")


@dataclass(frozen=True)
class Example:
    """A program of examples/ with an entry and a query, the ends of runs that count, and the turns of loops."""

    file: str
    entry: str
    query: str = "cover @CONDITIONEDGE"
    ends: str = "returned"
    turns: int = 4


TABLE = (
    Example("triangle/tri.c", "classify"),
    Example("triangle/tri.c", "main_loop", "in @FUNC(classify) cover @CONDITIONEDGE"),
    Example("counting/count.c", "count"),
    Example("counting/both.c", "both", "cover EDGES(ID)"),
    Example("clamp/clamp.c", "clamp", "cover NODES(@LINE(5))$", "trapped"),
    Example("criteria/fee.c", "fee"),
    Example("criteria/share.c", "share"),
    Example("never/never.c", "f", "cover EDGES(ID)"),
    Example("first/a.c", "f", "cover PRED(@LINE(2),{x == 10})"),
    Example("programs/ring.c", "run", turns=6),
    Example("programs/checksum.c", "accept", "in @FUNC(accept) cover @CONDITIONEDGE", turns=8),
    Example("programs/number.c", "parse"),
    Example("programs/machine.c", "door", turns=5),
    Example("programs/filter.c", "filter"),
    Example("programs/search.c", "place"),
    Example("programs/sort.c", "middle", "cover EDGES(@STMTTYPE(ASSERT))$", "trapped"),
    Example("programs/stack.c", "calculate", turns=8),
    Example("programs/crc.c", "frame", turns=8),
    Example("programs/date.c", "day_of_year", turns=11),
    Example("programs/gcd.c", "relation"),
    Example("programs/debounce.c", "presses", turns=8),
    Example("programs/utf8.c", "character"),
    Example("programs/control.c", "control"),
    Example("programs/lights.c", "lights", turns=8),
    Example("programs/tea.c", "unlock"),
    Example("programs/version.c", "compare"),
    Example("programs/account.c", "account", "cover EDGES(@STMTTYPE(ASSERT))$", "trapped"),
    Example("programs/window.c", "steady"),
)


def answered(example: Example, folder: str, *budget: str) -> tuple[int, dict[str, list[dict[str, object]]]]:
    """How `generate` ends of an example whose file stands in a folder, and its report. Raises ValueError where it isn't one."""
    words = ["generate", "--json", "--ends", example.ends, "--turns", str(example.turns), *budget]
    words += [example.entry, example.query, os.path.basename(example.file)]
    status, out, err = environment.ended([environment.program(), *words], folder)
    if status not in (0, 1) or err:
        raise ValueError(f"generate ends with {status}, {err!r}")
    return status, json.loads(out)


def measured(example: Example, folder: str, inputs: list[dict[str, object]]) -> list[dict[str, object]]:
    """What `measure` says of the goals of an example, asked about printed inputs. Raises ValueError where it is refused."""
    with open(os.path.join(folder, "made.json"), "w", encoding="ascii") as file:
        json.dump(inputs, file)
    words = ["measure", "--json", "--ends", example.ends, "--steps", STEPS, example.entry, example.query, "made.json"]
    _, out, err = environment.ended([environment.program(), *words, os.path.basename(example.file)], folder)
    if err:
        raise ValueError(f"measure: {err!r}")
    goals: list[dict[str, object]] = json.loads(out)["goals"]
    return goals


def differences(made: list[dict[str, object]], again: list[dict[str, object]]) -> list[str]:
    """A line for each goal of which the two say different things."""
    if len(made) != len(again):
        return [f"{len(made)} goals, and {len(again)} when they are measured"]
    return [
        f"goal {number} {one['answer']} by {one.get('input')}, and its inputs cover it by {other.get('input')}"
        for number, (one, other) in enumerate(zip(made, again), 1)
        if one.get("input") != other.get("input")
    ]


def within(example: Example, try_in: Callable[[str], list[str]]) -> Outcome:
    """One case, tried in a folder that has the example's file."""
    with tempfile.TemporaryDirectory() as folder:
        shutil.copy(os.path.join(EXAMPLES, example.file), folder)
        wrong = try_in(folder)
    return 1, [f"{example.file} {example.entry}: {'; '.join(wrong)}"[:600]] if wrong else []


def tried(example: Example, budget: list[str]) -> Outcome:
    """An example at one budget: a line where a printed input hits a goal that isn't covered, or another one covers it first."""

    def in_folder(folder: str) -> list[str]:
        _, report = answered(example, folder, *budget)
        return differences(report["goals"], measured(example, folder, report["inputs"]))

    return within(example, in_folder)


def decrypted(first: int, second: int) -> list[int]:
    """The block that two rounds of TEA make into this one, with the key of examples/programs/tea.c; words of 32 bits."""
    keys, words = (0x0F1E2D3C, 0x4B5A6978, 0x8796A5B4, 0xC3D2E1F0), 2**32
    for total in (2 * 0x9E3779B9 % words, 0x9E3779B9):
        mixed = ((first << 4) + keys[2]) % words ^ (first + total) % words ^ ((first >> 5) + keys[3]) % words
        second = (second - mixed) % words
        mixed = ((second << 4) + keys[0]) % words ^ (second + total) % words ^ ((second >> 5) + keys[1]) % words
        first = (first - mixed) % words
    return [first, second]


def turned_round() -> Outcome:
    """The cipher at the default budget: all is covered, and the input that opens the lock is the one block that does; with 1,000 moves
    the lock's last goal stays undecided, so that the measurements above have something to say."""
    lock = Example("programs/tea.c", "unlock")

    def in_folder(folder: str) -> list[str]:
        status, report = answered(lock, folder)
        inputs = [report["inputs"][int(str(goal["input"])) - 1] for goal in report["goals"] if "input" in goal]
        wrong = (
            [] if status == 0 and len(inputs) == len(report["goals"]) == 6 else [f"status {status}: {report['goals']}"]
        )
        wrong += (
            [] if inputs[-1:] == [{"answers": [], "args": decrypted(0x00C0FFEE, 0x0BADCAFE)}] else [f"{inputs[-1:]}"]
        )
        status, report = answered(lock, folder, "--budget", "1000")
        wrong += [] if status == 1 and report["goals"][-1]["answer"] == "undecided" else ["1,000 moves are enough"]
        return wrong

    return within(lock, in_folder)


def parts() -> list[Callable[[], Outcome]]:
    """A part for each example and budget, and one for the cipher."""
    return [turned_round, *(functools.partial(tried, example, budget) for example in TABLE for budget in BUDGETS)]
