"""Runs the cases of command_cases/ on the program and compares what it writes byte for byte.

Each case is run in a fresh temporary folder that holds the case's files alone. Its fields:

  name            what it shows
  files           file name -> text; {"folder": true} makes a folder of that name, {"pipe": true} a pipe into which nobody
                  writes; a text may be
                  {"repeat": TEXT, "times": N}, {"count": N, "text": TEXT}, which is TEXT for each of N numbers from 1 on
                  (or from "from" on) with the number in place of #, and the ones beside it in place of #-1 and #+1, or a
                  list of texts
  words           the words after the program's own name; {"hex": "ff"} is a word of these bytes
  stdin           a text that comes through a pipe, the file /dev/stdin; without it there is none
  status          the exit status
  stdout, stderr  the exact texts
  stdout_to       instead of `stdout`: "closed", or a device such as /dev/full
  stdout_room     `stdout` is a file that takes so many bytes and then fails, and holds this text after it
  stderr_to       instead of `stderr`: the same
  each            [A, B]: the case is run for each number from A to B, which stands for "n" in `stdout_room`; a text may
                  be {"first": TEXT}, the first so many bytes of TEXT

The launcher runs the program. Of a case that is run for each number it does so for the first and the last one; between them
the program is started as the launcher starts it, which saves the time in which the launcher looks for it.
"""

import contextlib
import functools
import os
import resource
import signal
import subprocess
import tempfile
from collections.abc import Callable
from typing import IO, Any

from tests import environment
from tests.program.command_cases import Case, every

STACK = 2**30


def at_number(template: str, number: int) -> str:
    """A text of a count, for one number of it."""
    return template.replace("#-1", str(number - 1)).replace("#+1", str(number + 1)).replace("#", str(number))


def text(value: Any) -> bytes:
    """The bytes of a text as the cases write it."""
    if isinstance(value, list):
        return b"".join(text(part) for part in value)
    if isinstance(value, dict) and "hex" in value:
        return bytes.fromhex(value["hex"])
    if isinstance(value, dict) and "count" in value:
        first = value.get("from", 1)
        return b"".join(text(at_number(value["text"], number)) for number in range(first, first + value["count"]))
    if isinstance(value, dict):
        return text(value["repeat"]) * int(value["times"])
    return bytes(value.encode())


def with_number(value: Any, number: int) -> Any:
    """A part of a case that is run for each number, for this one."""
    if isinstance(value, dict) and "first" in value:
        return text(value["first"])[:number].decode()
    if isinstance(value, dict):
        return {name: with_number(part, number) for name, part in value.items() if name != "each"}
    return number if value == "n" else value


def instances(case: Case) -> list[Case]:
    """The case, or one for each of its numbers."""
    if "each" not in case:
        return [case]
    first, last = case["each"]
    numbered = [with_number(case, number) for number in range(first, last + 1)]
    return [numbered[0], *({**one, "direct": True} for one in numbered[1:-1]), *numbered[1:][-1:]]


def make_files(folder: str, files: dict[str, Any]) -> None:
    """Writes the files of a case into a folder; one may be a folder or a pipe."""
    for name, content in files.items():
        path = os.path.join(folder, name)
        if isinstance(content, dict) and content.get("folder"):
            os.mkdir(path)
        elif isinstance(content, dict) and content.get("pipe"):
            os.mkfifo(path)
        else:
            with open(path, "wb") as file:
                file.write(text(content))


def started_as_by_the_launcher() -> None:
    """The stack may grow to the hard limit, or to 1 GiB, and a write past a limit of the file's size is a fault."""
    hard = resource.getrlimit(resource.RLIMIT_STACK)[1]
    resource.setrlimit(resource.RLIMIT_STACK, (STACK if hard == resource.RLIM_INFINITY else hard, hard))
    signal.signal(signal.SIGXFSZ, signal.SIG_IGN)


class Streams:
    """The streams of a case's run: pipes, files with little room, devices, and what is closed before the program begins."""

    def __init__(self, case: Case, kept: contextlib.ExitStack):
        self.room: int | None = case.get("stdout_room")
        self.direct = "direct" in case
        self.closed: list[int] = []
        self.targets: dict[str, int | IO[bytes] | None] = {"stdout": subprocess.PIPE, "stderr": subprocess.PIPE}
        self.file: IO[bytes] | None = None
        if self.room is not None:
            self.targets["stdout"] = self.file = kept.enter_context(tempfile.TemporaryFile())
        for number, name in ((1, "stdout"), (2, "stderr")):
            target = case.get(name + "_to")
            if target == "closed":
                self.targets[name] = None
                self.closed.append(number)
            elif target:
                self.targets[name] = kept.enter_context(open(target, "wb"))

    def before(self) -> None:
        """What is done in the new process, before the program begins."""
        for number in self.closed:
            os.close(number)
        if self.direct:
            started_as_by_the_launcher()
        if self.room is not None:
            resource.setrlimit(resource.RLIMIT_FSIZE, (self.room, self.room))

    def written(self, stdout: bytes | None) -> bytes | None:
        """What standard output got, where that is caught."""
        if self.file is None:
            return stdout
        self.file.seek(0)
        return self.file.read()


def run(case: Case) -> tuple[int, bytes | None, bytes | None]:
    """The exit status and both texts; None for a text that isn't caught."""
    with contextlib.ExitStack() as kept:
        streams = Streams(case, kept)
        folder = kept.enter_context(tempfile.TemporaryDirectory())
        make_files(folder, case["files"])
        words = [os.fsencode(environment.program() if streams.direct else environment.LAUNCHER)] + [
            text(word) for word in case["words"]
        ]
        piped = text(case["stdin"]) if "stdin" in case else None
        ended = subprocess.run(
            words,
            cwd=folder,
            input=piped,
            stdin=subprocess.DEVNULL if piped is None else None,
            timeout=environment.SECONDS,
            preexec_fn=streams.before,
            stdout=streams.targets["stdout"],
            stderr=streams.targets["stderr"],
        )
        told = ended.returncode, streams.written(ended.stdout), ended.stderr
    return told


def differences(case: Case) -> list[str]:
    """What differs from the case's expectation, a line each."""
    try:
        status, stdout, stderr = run(case)
    except subprocess.TimeoutExpired:
        return [f"it didn't end within {environment.SECONDS} seconds"]
    found = []
    if status != case["status"]:
        found.append(f"status {status}, not {case['status']}")
    for name, got in (("stdout", stdout), ("stderr", stderr)):
        if name + "_to" not in case and got != text(case[name]):
            found.append(f"{name} {(got or b'')[:300]!r}, not {text(case[name])[:300]!r}")
    return found


def tried(case: Case) -> tuple[int, list[str]]:
    """The number of runs of a case, and for each that differs a line for each thing, with the case's name."""
    runs = instances(case)
    wrong = ["\n".join(f"{case['name']}: {line}" for line in found) for one in runs if (found := differences(one))]
    return len(runs), wrong


def parts(words: list[str]) -> list[Callable[[], tuple[int, list[str]]]]:
    """The cases whose name has one of the words, or all where there are no words."""
    chosen = [case for case in every.CASES if not words or any(word in case["name"] for word in words)]
    return [functools.partial(tried, case) for case in sorted(chosen, key=lambda case: "each" not in case)]
