"""The standard streams of each tool: one that can't write its answer ends with 2 and one line at most, never with a traceback."""

import os
import subprocess
from collections.abc import Iterator, Sequence
from typing import Any

from tests import environment
from tests.tools import SECONDS, example, put

FILES = {"never.c": example("never/never.c"), "in": "5\n11\n", "worked.cert": example("certificates/worked.cert")}
# words that have an answer on standard output
ANSWERS = [
    ["inputs", "in"], ["explain", "cover ID", "never.c"], ["lcov", "f", "in", "never.c"], ["harness", "f", "in", "never.c"],
    ["mcdc", "f", "never.c"], ["install", "--check"], ["page", "--help"], ["campaign", "--help"], ["drat", "--help"],
    ["order", "--help"],
]  # fmt: skip


def ended(folder: str, words: Sequence[str], **streams: Any) -> tuple[int, str]:
    """The status of a tool and what it writes to standard error; Python's own buffers are as a user has them."""
    own = {name: value for name, value in os.environ.items() if name != "PYTHONUNBUFFERED"}
    path = os.path.join(environment.ROOT, "bin", "fshell")
    streams = {"stdin": subprocess.DEVNULL, "stderr": subprocess.PIPE, **streams}
    told = subprocess.run([path, *words], cwd=folder, env=own, timeout=SECONDS, **streams)
    return told.returncode, (told.stderr or b"").decode()


def a_full_device(folder: str) -> Iterator[bool]:
    put(folder, FILES)
    for words in ANSWERS:
        with open("/dev/full", "wb") as full:
            yield ended(folder, words, stdout=full) == (2, f"{words[0]}: No space left on device\n")


def a_pipe_that_nobody_reads(folder: str) -> Iterator[bool]:
    put(folder, FILES)
    for words in ANSWERS:
        read, write = os.pipe()
        os.close(read)
        try:
            yield ended(folder, words, stdout=write) == (2, "")
        finally:
            os.close(write)


def closed_output(folder: str) -> Iterator[bool]:
    put(folder, FILES)
    for words in ANSWERS:
        yield ended(folder, words, preexec_fn=lambda: os.close(1)) == (2, f"{words[0]}: standard output is closed\n")


def closed_errors(folder: str) -> Iterator[bool]:
    """What would be told there stands nowhere else."""
    put(folder, FILES)
    for words in ANSWERS:
        if words != ["install", "--check"]:
            open_too = subprocess.run(
                [os.path.join(environment.ROOT, "bin", "fshell"), *words], cwd=folder, capture_output=True
            )
            with open(os.path.join(folder, "out"), "wb") as out:
                status, _ = ended(folder, words, stdout=out, stderr=None, preexec_fn=lambda: os.close(2))
            with open(os.path.join(folder, "out"), "rb") as out:
                yield (status, out.read()) == (0, open_too.stdout)


def closed_input(folder: str) -> Iterator[bool]:
    put(folder, FILES)
    yield ended(
        folder, ["explain", "-", "never.c"], preexec_fn=lambda: os.close(0), stdin=None, stdout=subprocess.DEVNULL
    ) == (0, "")


def another_encoding(folder: str) -> Iterator[bool]:
    """The names of files are UTF-8 whatever the locale says."""
    put(folder, {"ü.c": FILES["never.c"]})
    told = subprocess.run([os.path.join(environment.ROOT, "bin", "fshell"), "explain", "cover @LINE(5)", "ü.c"], cwd=folder,
                          env={**os.environ, "PYTHONIOENCODING": "ascii"}, capture_output=True)  # fmt: skip
    yield (told.returncode, told.stdout.decode(), told.stderr) == (
        0,
        "goal 1:\n  e5 ü.c:5:3 f: return 0\n1 goals\n",
        b"",
    )


TRIED = [((), function) for function in (
    a_full_device, a_pipe_that_nobody_reads, closed_output, closed_errors, closed_input, another_encoding)]  # fmt: skip
