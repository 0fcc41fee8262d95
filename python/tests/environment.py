"""The program that the cases run, where it comes from, and how it ends."""

import functools
import os
import subprocess
import sys
from collections.abc import Sequence

HERE = os.path.dirname(os.path.abspath(__file__))
ROOT = os.path.normpath(os.path.join(HERE, "..", ".."))
TOOLS = os.path.join(ROOT, "python")  # which Python runs as a program: a tool's name and words
LAUNCHER = os.path.join(ROOT, "bin", "fshell")
os.environ["FSHELL_HINTS"] = "0"  # the program's line alone is compared; test_hints.py has the lines behind it
SECONDS = 300  # a run that takes longer has no end; it takes seconds at most, but a machine may be busy
COUNT_ITEMS = os.path.join(ROOT, "crates", "count_items", "out", "count_items")


@functools.cache
def program() -> str:
    """The path of the program that the launcher runs, which is made ready first; ends where there is none."""
    words = [os.path.join(ROOT, "bin", "program")]
    found = subprocess.run(words, stdin=subprocess.DEVNULL, stdout=subprocess.PIPE, text=True)
    if found.returncode:
        sys.exit(1)
    return found.stdout.removesuffix("\n")


def ended(words: Sequence[str], folder: str) -> tuple[int, str, str]:
    """How a command ends in a folder, with nothing on its standard input: its status and both texts. Raises
    subprocess.TimeoutExpired where it has no end within SECONDS."""
    run = subprocess.run(words, cwd=folder, stdin=subprocess.DEVNULL, capture_output=True, timeout=SECONDS)
    return run.returncode, run.stdout.decode(), run.stderr.decode()
