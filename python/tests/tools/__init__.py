"""What the tools of python/fshell_tools/ answer: each module here has the cases of one.

A case is run in a fresh folder that holds its files alone. Where it needs what isn't there (the program's command `graph`, a
package, a compiler), it is skipped, with a line for each such need.
"""

import dataclasses
import functools
import importlib.util
import os
import re
import shutil
import subprocess
import tempfile
from collections.abc import Callable, Iterable, Iterator, Sequence
from types import ModuleType
from typing import Any

from tests import environment, parallel_groups

SECONDS = environment.SECONDS
PACKAGES = ("jinja2", "pycparser", "yaml", "jsonschema")  # of Python
DEBIANS = "python3-"  # begins the name of a package of the machine's own Python, by which what is installed runs
EXAMPLES = os.path.join(environment.ROOT, "examples")
Wrong = Callable[[], list[str]]  # a line for each thing that is wrong
Tried = list[tuple[Sequence[str], Callable[[str], Iterator[bool]]]]  # cases that are functions, each with what it needs


def example(path: str) -> str:
    """The text of a file of examples/."""
    with open(os.path.join(EXAMPLES, path), encoding="utf-8") as file:
        return file.read()


@dataclasses.dataclass
class Case:
    """Files, the words after `fshell`, and what is due. A text that is None isn't compared; `written` has the files that must
    stand afterwards beside the given ones, or `written` is None."""

    name: str
    words: list[str]
    files: dict[str, str] = dataclasses.field(default_factory=dict)
    status: int = 0
    stdout: str | None = ""
    stderr: str | None = ""
    written: dict[str, str] | None = dataclasses.field(default_factory=dict[str, str])
    needs: tuple[str, ...] = ()


def run(folder: str, words: Sequence[str], **more: Any) -> subprocess.CompletedProcess[str]:
    """How a tool ends that is run in a folder."""
    return subprocess.run(
        [os.path.join(environment.ROOT, "bin", "fshell"), *words],
        cwd=folder,
        stdin=subprocess.DEVNULL,
        capture_output=True,
        text=True,
        timeout=SECONDS,
        **more,
    )


def put(folder: str, files: dict[str, str]) -> None:
    """Writes files into a folder, by their names."""
    for name, text in files.items():
        os.makedirs(os.path.dirname(os.path.join(folder, name)), exist_ok=True)
        with open(os.path.join(folder, name), "w", encoding="utf-8", newline="") as file:
            file.write(text)


def held(folder: str) -> dict[str, str]:
    """The texts of all files of a folder by their names."""
    found = {}
    for name in sorted(os.listdir(folder)):
        with open(os.path.join(folder, name), encoding="utf-8", newline="") as file:
            found[name] = file.read()
    return found


def captured(pattern: str, text: str) -> str:
    """What the first group of a pattern matches first in a text; `.` is any letter, also a line's end. Raises ValueError where
    it matches nowhere."""
    found = re.search(pattern, text, re.DOTALL | re.MULTILINE)
    if not found:
        raise ValueError(f"{pattern} isn't found")
    return found[1]


def told(*lines: str) -> str:
    """Lines as a text, each with its end."""
    return "".join(line + "\n" for line in lines)


def differences(case: Case) -> list[str]:
    """What differs from what is due, a line each."""
    with tempfile.TemporaryDirectory() as folder:
        put(folder, case.files)
        ended = run(folder, case.words)
        found = [] if ended.returncode == case.status else [f"status {ended.returncode}, not {case.status}"]
        for name, got, due in (("stdout", ended.stdout, case.stdout), ("stderr", ended.stderr, case.stderr)):
            if due is not None and got != due:
                found.append(f"{name} {got[:600]!r}, not {due[:600]!r}")
        if case.written is not None and held(folder) != {**case.files, **case.written}:
            found.append(f"the files {held(folder)!r}"[:900])
    return found


@functools.cache
def is_there(need: str) -> bool:
    """Whether something is there that cases need: the program's command graph, a Python package, one of Debian's, or a command."""
    if need == "graph":
        return (
            "Usage" not in subprocess.run([environment.LAUNCHER, "graph", "/no"], capture_output=True, text=True).stderr
        )
    if need.startswith(DEBIANS):
        own = shutil.which("python3", path="/usr/bin")
        words = [own or "", "-c", f"import {need.removeprefix(DEBIANS)}"]
        return own is not None and subprocess.run(words, capture_output=True).returncode == 0
    return importlib.util.find_spec(need) is not None if need in PACKAGES else shutil.which(need) is not None


def tried(function: Callable[[str], Iterable[bool]]) -> list[str]:
    """What is wrong of a case that is a function: it yields, or answers, whether each thing that it looks at is right."""
    with tempfile.TemporaryDirectory() as folder:
        wrong = list[int]()
        try:
            wrong += [number for number, right in enumerate(function(folder), 1) if not right]
        except Exception as fault:  # so that the other cases are run
            return [f"it broke off: {fault!r}"]
    return [f"wrong at {wrong}"] if wrong else []


def cases(module: ModuleType) -> Iterator[tuple[str, Sequence[str], Wrong]]:
    """The cases of a module: the name of each, what it needs, and what tells what is wrong of it."""
    for case in getattr(module, "CASES", []):
        yield case.name, case.needs, functools.partial(differences, case)
    for needs, function in getattr(module, "TRIED", []):
        yield function.__name__, needs, functools.partial(tried, function)


def outcome(tool: str, name: str, of_case: Wrong) -> parallel_groups.Outcome:
    """One case of a tool, and a line for each thing that is wrong of it."""
    return 1, [f"{tool}: {name}: {line}" for line in of_case()]


def group(tool: str, module: ModuleType, alone: bool = False) -> parallel_groups.Group:
    """The cases of a tool, and of those that are skipped a line for each need. Alone are those that need nothing but Python and
    the program."""
    parts, skipped = list[parallel_groups.Part](), dict[str, int]()
    for name, needs, of_case in cases(module):
        if alone and set(needs) - {"graph"}:
            continue
        lacking = [need for need in needs if not is_there(need)]
        for need in lacking:
            skipped[need] = skipped.get(need, 0) + 1
        if not lacking:
            parts.append(functools.partial(outcome, tool, name, of_case))
    notes = [f"skipped: {number} cases of {tool} need {need}, which isn't there" for need, number in skipped.items()]
    return parallel_groups.Group(tool, parts, notes)
