"""Processes that end with the one that started them, however that one ends.

All of them are in one process group, which a guard leads: a shell that waits on a pipe. The pipe's other end is open in this
process alone, so the guard reads its end also where this process is killed, and then kills the group with itself. It removes the
folders that this process names to it, so that a killed run leaves none of its copies either.
"""

import contextlib
import os
import signal
import subprocess
import tempfile
import threading
from typing import Any

# what the guard runs: each line that it reads is a folder to remove at the end
_GUARD = """\
set --
while IFS= read -r folder; do set -- "$@" "$folder"; done
[ "$#" -eq 0 ] || rm -rf -- "$@"
kill -KILL 0
"""
_lock = threading.Lock()
_guards: list["subprocess.Popen[bytes]"] = []
_stopped = threading.Event()


class Stopped(KeyboardInterrupt):
    """Why no process is started: this one is being stopped."""


def _guard() -> "subprocess.Popen[bytes]":
    """The guard of this process, which is started where there is none."""
    with _lock:
        if not _guards or _guards[-1].poll() is not None:
            words = ["/bin/sh", "-c", _GUARD]
            # (its output goes nowhere, so that it holds none of the streams of this process open)
            nowhere = subprocess.DEVNULL
            _guards.append(
                subprocess.Popen(words, stdin=subprocess.PIPE, stdout=nowhere, stderr=nowhere, process_group=0)
            )
        return _guards[-1]


def run(words: list[str], **more: Any) -> "subprocess.CompletedProcess[Any]":
    """As subprocess.run, of a process that ends with this one. Raises Stopped where this one is being stopped, and OSError where
    the process can't be started."""
    if _stopped.is_set():
        raise Stopped
    given: dict[str, Any] = {"check": False, **more, "process_group": _guard().pid}
    ended: subprocess.CompletedProcess[Any] = subprocess.run(words, **given)
    if _stopped.is_set():
        raise Stopped
    return ended


def stop() -> None:
    """Kills all processes that were started here and still run; none is started from here on."""
    _stopped.set()
    for guard in _guards:
        if guard.poll() is None:
            with contextlib.suppress(ProcessLookupError):
                os.killpg(guard.pid, signal.SIGKILL)


def folder_of_its_own() -> "tempfile.TemporaryDirectory[str]":
    """A new temporary folder, which is gone at the end of this process, also where that is killed."""
    made = tempfile.TemporaryDirectory(prefix="fshell.", ignore_cleanup_errors=True)
    guard = _guard()
    if guard.stdin and "\n" not in made.name:
        guard.stdin.write(os.fsencode(made.name) + b"\n")
        guard.stdin.flush()
    return made
