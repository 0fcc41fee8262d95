"""Runs FShell, and what all tools share.

The program is that of the environment's FSHELL. Without it, in a clone or below a prefix, it is the one that bin/program names,
which is called once a run; in an installed package it is the package's own. Everything that a tool can't go on with is a
`Failure`: one line, and the status 2.
"""

import argparse
import codecs
import contextlib
import functools
import io
import json
import os
import re
import resource
import signal
import subprocess
import sys
import tempfile
import time
import traceback
from collections.abc import Callable, Iterator, Sequence
from dataclasses import dataclass
from typing import IO

from fshell_tools.core import processes, snapshots
from fshell_tools.core.reports import Report, report_of_json, report_of_text

PACKAGE = os.path.dirname(os.path.dirname(os.path.realpath(__file__)))
PYTHON = os.path.dirname(PACKAGE)  # which Python runs as a program: its __main__.py takes a tool's name and words
ROOT = os.path.dirname(PYTHON)
DONE, OPEN, FAILED = 0, 1, 2
JSON_COMMANDS = ("measure", "generate", "replay")
RANGES = {
    "turns": (0, 1000),
    "frames": (1, 64),
    "answers": (0, 256),
    "budget": (1, 20_000_000),
    "steps": (1, 1_000_000),
}


class Failure(Exception):
    """Why a tool can't go on, in one line."""


@dataclass(frozen=True)
class Ended:
    """How a run of the program ended."""

    status: int
    stdout: str
    stderr: str


# ---- runs of the program


@functools.cache
def program() -> str:
    """The path of the program, which may use as much stack from here on as bin/fshell lets it use. Raises Failure
    where there is none."""
    hard = resource.getrlimit(resource.RLIMIT_STACK)[1]
    resource.setrlimit(resource.RLIMIT_STACK, (1 << 30 if hard == resource.RLIM_INFINITY else hard, hard))
    given = os.environ.get("FSHELL", "")
    if given:
        return os.path.abspath(given) if "/" in given else given
    finder, own = os.path.join(ROOT, "bin", "program"), os.path.join(PACKAGE, "released", "fshell")
    if not os.path.isfile(finder) and os.path.isfile(own):
        return own
    if not os.path.isfile(finder):
        raise Failure("there is no program: set FSHELL to its path, or install the tools from a clone with its release")
    found = subprocess.run([finder], stdin=subprocess.DEVNULL, capture_output=True, text=True, check=False)
    if found.returncode:
        raise Failure("there is no program: " + (found.stderr.strip().splitlines() or [""])[-1])
    return found.stdout.removesuffix("\n")


def started(words: Sequence[str], folder: str | None, stdout: int | IO[bytes]) -> subprocess.CompletedProcess[bytes]:
    """The program's process, at its end. A write past a limit of the file's size is a fault of the write, as by
    bin/fshell. It reads the sources that were taken. Raises Failure where it can't be started, or may have read others.
    """
    try:
        ended = processes.run([program(), *words], cwd=snapshots.folder_of(folder), stdin=subprocess.DEVNULL, stdout=stdout, stderr=subprocess.PIPE,
                              restore_signals=False)  # fmt: skip
        snapshots.check(folder)
        return ended
    except snapshots.Changed as change:
        raise Failure(str(change)) from None
    except OSError as fault:
        raise Failure(f"the program can't be started: {fault.strerror}: {program()}") from None


def run(words: Sequence[str], folder: str | None = None) -> Ended:
    """What the program answers to these words."""
    ended = started(words, folder, subprocess.PIPE)
    return Ended(ended.returncode, *(text.decode(errors="surrogateescape") for text in (ended.stdout, ended.stderr)))


def answer(words: Sequence[str], folder: str | None = None) -> str:
    """The text that the program writes; a refusal is a failure."""
    return text_of(words, run(words, folder))


def text_of(words: Sequence[str], ended: Ended) -> str:
    """The text that the program wrote; a refusal is a failure."""
    if ended.status not in (DONE, OPEN):
        lines = ended.stderr.strip().splitlines() or [f"it ended with status {ended.status}"]
        raise Failure(f"fshell {words[0]}: {lines[-1]}")
    return ended.stdout


def has_command(name: str) -> bool:
    """Whether the program knows a command of sources alone: it answers one that isn't there otherwise than as usage."""
    return "Usage" not in run([name, "/no/source.c"]).stderr


def with_json(words: Sequence[str]) -> list[str]:
    """The words that ask for JSON where the program writes it, so that a line break in a query can't make a line of its own."""
    return [*words, "--json"] if words[0] in JSON_COMMANDS else list(words)


def report(words: Sequence[str], folder: str | None = None) -> Report:
    """The report that the program answers to the words of `measure`, `generate`, `replay`, `goals`, `runs` or `trees`."""
    return report_of(words, run(with_json(words), folder))


def report_of(words: Sequence[str], ended: Ended) -> Report:
    """The report that the program answered to these words. Raises Failure where it refuses them."""
    text = text_of(words, ended)
    try:
        return report_of_json(json.loads(text)) if text.startswith("{") else report_of_text(text)
    except (ValueError, KeyError, TypeError) as line:
        raise Failure(f"fshell {words[0]} wrote a line that isn't known: {line}") from None


# ---- what the tools share


def check_names(sources: Sequence[str]) -> None:
    """A failure where the name of a source has a line feed, which no line of a text can hold."""
    if any("\n" in source for source in sources):
        raise Failure("the name of a source has a line feed")


def read(path: str) -> bytes:
    """A file's bytes, of one that was taken those that it had then. Raises Failure where it can't be read."""
    known = snapshots.held(path)
    if known is not None:
        return known
    try:
        with open(path, "rb") as file:
            return file.read()
    except OSError as fault:
        raise Failure(f"{path}: {fault.strerror}") from None


def write_whole(path: str, text: str) -> None:
    """Writes a file whole or not at all: a new file is moved into its place, where a link leads to. What is there
    and is no file, as /dev/stdout or a pipe, is written into. Raises Failure where it can't be written."""
    place = os.path.realpath(path)
    name = ""
    try:
        if os.path.exists(path) and not os.path.isfile(path) and not os.path.isdir(path):
            _write(os.open(path, os.O_WRONLY), text)
            return
        descriptor, name = tempfile.mkstemp(prefix=".new.", dir=os.path.dirname(place))
        os.fchmod(descriptor, 0o666 & ~_mask())
        _write(descriptor, text)
        os.replace(name, place)
    except OSError as fault:
        if os.path.exists(name):
            os.remove(name)
        raise Failure(f"{path}: {fault.strerror}") from None


def _write(descriptor: int, text: str) -> None:
    """Writes a text into an open file, which is closed then."""
    with os.fdopen(descriptor, "w", encoding="utf-8", errors="surrogateescape", newline="") as file:
        file.write(text)


def in_range(name: str) -> Callable[[str], int]:
    """What reads the number of an option: one to ten digits, and in the range that the program has for it. What it
    makes raises argparse.ArgumentTypeError for another text."""
    least, greatest = RANGES[name]

    def read_number(word: str) -> int:
        if not re.fullmatch(r"[0-9]{1,10}", word) or not least <= int(word) <= greatest:
            raise argparse.ArgumentTypeError(f"{word} isn't from {least} to {greatest}")
        return int(word)

    return read_number


def jobs(word: str) -> int:
    """The number of jobs side by side that a word of digits is, at least 1. Raises argparse.ArgumentTypeError for any other word,
    which ends the tool with status 2."""
    if not word.isdecimal() or int(word) < 1:
        raise argparse.ArgumentTypeError(f"{word} is no number from 1 on")
    return int(word)


def seconds_of_report() -> int:
    """The time that a report has, in seconds since 1970: SOURCE_DATE_EPOCH where that is set, so that two reports of one work are
    the same, and else now. Raises Failure where it is set and is no number of at most 11 digits."""
    given = os.environ.get("SOURCE_DATE_EPOCH", "")
    if given and not re.fullmatch(r"[0-9]{1,11}", given):
        raise Failure("SOURCE_DATE_EPOCH is no number of seconds since 1970")
    return int(given) if given else int(time.time())


@contextlib.contextmanager
def as_file(text: str) -> Iterator[str]:
    """A file with a text, as long as it is used."""
    with tempfile.NamedTemporaryFile("w", encoding="utf-8", suffix=".json") as file:
        file.write(text)
        file.flush()
        yield file.name


def _mask() -> int:
    """The mask of the modes of new files."""
    mask = os.umask(0)
    os.umask(mask)
    return mask


def give(text: str, path: str | None) -> None:
    """Writes a text to a file, or to standard output where none is named."""
    if path is None:
        sys.stdout.buffer.write(text.encode(errors="surrogateescape"))
        sys.stdout.flush()
    else:
        write_whole(path, text)


def _told_byte(fault: UnicodeError) -> tuple[bytes, int]:
    """What standard error has for a letter that UTF-8 hasn't: the byte of a name that isn't UTF-8, or the letter's number."""
    assert isinstance(fault, UnicodeEncodeError)
    code = ord(fault.object[fault.start])
    return bytes([code - 0xDC00]) if 0xDC80 <= code <= 0xDCFF else b"\\u%04x" % code, fault.start + 1


def one_line(text: str) -> str:
    """A text as one line that a terminal shows as it is: its control characters are written as their numbers."""
    return re.sub(r"[\x00-\x1f\x7f-\x9f]", lambda found: f"\\x{ord(found[0]):02x}", " ".join(text.splitlines()))


def _open_streams() -> None:
    """Makes the standard streams such that all that tools do with them ends well, or as an OSError: UTF-8 whatever the
    locale, and the null device for standard input or error where they are closed."""
    if sys.stdin is None:
        sys.stdin = open(os.devnull, encoding="utf-8")
    if sys.stderr is None:
        sys.stderr = open(os.devnull, "w", encoding="utf-8")
    if sys.stdout is None:
        raise Failure("standard output is closed")
    codecs.register_error("fshell.told", _told_byte)
    for stream, errors in ((sys.stdout, "surrogateescape"), (sys.stderr, "fshell.told")):
        if isinstance(stream, io.TextIOWrapper):
            stream.reconfigure(encoding="utf-8", errors=errors)


def _told_changes(tool: str, status: int) -> int:
    """A status, or that of a failure behind a line where sources aren't any more what was judged."""
    names = list(snapshots.changed())
    if not names:
        return status
    sys.stdout.flush()
    line = f"changed meanwhile: {', '.join(names)}; what is reported is of the versions before, of sum {snapshots.taken_sum()}"
    print(f"{tool}: {one_line(line)}", file=sys.stderr)
    return FAILED


def _stop(number: int, frame: object) -> None:
    """What a signal does that stops a tool: the processes that it started are killed, and it ends."""
    processes.stop()
    raise KeyboardInterrupt


def _take_signals() -> None:
    """Has the signals that stop a tool end it with its processes; one that is ignored stays so."""
    for number in (signal.SIGINT, signal.SIGTERM, signal.SIGHUP):
        if signal.getsignal(number) != signal.SIG_IGN:
            signal.signal(number, _stop)


def _why(fault: Exception) -> str:
    """Why a tool ended. What no part of it foresaw is told with its kind, as a fault of the tool; where FSHELL_TRACEBACK is set
    its calls stand before."""
    if isinstance(fault, Failure):
        return str(fault)
    if isinstance(fault, OSError) and fault.strerror:
        return f"{os.fsdecode(fault.filename)}: {fault.strerror}" if fault.filename else fault.strerror
    if os.environ.get("FSHELL_TRACEBACK"):
        traceback.print_exception(fault)
    return f"it can't go on ({type(fault).__name__}: {fault})"


def ended(tool: str, main: Callable[[], int]) -> int:
    """The status of a tool; a failure is one line on standard error, also one that no part of the tool foresaw. One that can't
    write its answer has failed."""
    try:
        _open_streams()
        _take_signals()
        try:
            return _told_changes(tool, main())
        finally:
            sys.stdout.flush()
    except BrokenPipeError:
        pass
    except KeyboardInterrupt:
        print(f"{tool}: stopped", file=sys.stderr)
    except Exception as fault:
        print(f"{tool}: {one_line(_why(fault))}", file=sys.stderr)
    if sys.stdout is not None:
        # (what is left to be written can't be)
        os.dup2(os.open(os.devnull, os.O_WRONLY), sys.stdout.fileno())
    return FAILED
