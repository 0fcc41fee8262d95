"""What the scripts of this folder share: the built programs, and how long they take."""

import os
import re
import resource
import shutil
import subprocess
import tempfile
import time
from collections.abc import Sequence

ROOT = os.path.join(os.path.dirname(os.path.abspath(__file__)), "..")


def built(name: str) -> str:
    """The path of a program of crates/, which is built first where it must be."""
    folder = os.path.join(ROOT, "crates", name)
    subprocess.run(["rt", "run"], cwd=folder, stdout=subprocess.DEVNULL, stderr=subprocess.DEVNULL, check=False)
    return os.path.join(folder, "out", name)


def program() -> str:
    """The path of the program's launcher, which makes it ready first; the variable FSHELL may name another program."""
    path = os.environ.get("FSHELL", os.path.join(ROOT, "bin", "fshell"))
    subprocess.run([path], stdout=subprocess.DEVNULL, stderr=subprocess.DEVNULL, check=False)
    return path


def program_itself() -> str:
    """The path of the program that the launcher starts, since the launcher raises the stack."""
    if "FSHELL" in os.environ:
        return os.environ["FSHELL"]
    words = [os.path.join(ROOT, "bin", "program")]
    return subprocess.run(words, check=True, stdout=subprocess.PIPE, text=True).stdout[:-1]


def refused(words: Sequence[str], folder: str | None = None, stack: int | None = None) -> tuple[str, float, int]:
    """How a program ends that writes one line at most: the line, its processor time, and the most bytes that it held.

    The line is that of its standard error, and where a signal ended it, the signal's number. The stack may grow to so
    many bytes, where they are given.
    """

    def limit() -> None:
        hard = resource.getrlimit(resource.RLIMIT_STACK)[1]
        resource.setrlimit(resource.RLIMIT_STACK, (stack or hard, hard))

    with subprocess.Popen(
        words,
        cwd=folder,
        stdout=subprocess.DEVNULL,
        stderr=subprocess.PIPE,
        text=True,
        preexec_fn=limit if stack else None,
    ) as child:
        line = child.stderr.read().strip() if child.stderr else ""
        status, usage = os.wait4(child.pid, 0)[1:]
        child.returncode = os.waitstatus_to_exitcode(status)
    if child.returncode < 0:
        line = f"signal {-child.returncode}"
    return line, usage.ru_utime + usage.ru_stime, usage.ru_maxrss * 1024


def seconds(words: Sequence[str], folder: str | None = None, runs: int = 3) -> float:
    """How many seconds a program takes with its start by the clock, the best of so many runs."""
    taken = []
    for _ in range(runs):
        begun = time.perf_counter()
        subprocess.run(words, cwd=folder, check=True, stdout=subprocess.DEVNULL)
        taken.append(time.perf_counter() - begun)
    return min(taken)


def processor_seconds(words: Sequence[str], folder: str | None = None, runs: int = 3) -> float:
    """How many seconds of a processor a program takes with its start, the least of so many runs."""
    taken = []
    for _ in range(runs):
        before = children_seconds()
        subprocess.run(words, cwd=folder, check=True, stdout=subprocess.DEVNULL)
        taken.append(children_seconds() - before)
    return min(taken)


def children_seconds() -> float:
    """The seconds of a processor of all programs that ended so far."""
    used = resource.getrusage(resource.RUSAGE_CHILDREN)
    return used.ru_utime + used.ru_stime


def instructions(words: Sequence[str], folder: str | None = None) -> int | None:
    """How many instructions a program takes, as callgrind counts them, or None where valgrind isn't installed."""
    if shutil.which("valgrind") is None:
        return None
    counted = ["valgrind", "--tool=callgrind", "--callgrind-out-file=/dev/null", *words]
    run = subprocess.run(counted, cwd=folder, check=True, stdout=subprocess.DEVNULL, stderr=subprocess.PIPE, text=True)
    found = re.search(r"Collected : (\d+)", run.stderr)
    return int(found[1]) if found else None


def ended(words: Sequence[str]) -> tuple[str, float, float]:
    """The last line that a run of a program writes, its seconds, and the most megabytes that it held."""
    begun = time.perf_counter()
    with tempfile.TemporaryFile("w+") as written:
        child = subprocess.Popen(words, stdout=written, stderr=subprocess.STDOUT)
        _, _, used = os.wait4(child.pid, 0)
        taken = time.perf_counter() - begun
        child.returncode = 0
        written.seek(0)
        lines = written.read().splitlines() or ["nothing"]
    return lines[-1], taken, used.ru_maxrss / 1024
