"""Runs a command in a session of its own, and kills all that is in the session once the process that asked for it has ended.

    python3 session_guard.py FD WORD..

FD is the number of the reading end of a pipe whose writing end only the asking process has. GNU parallel puts each of its jobs into
a process group of its own, so that a group can't be killed with it; they stay in its session.
"""

import contextlib
import os
import signal
import subprocess
import sys
import threading


def members(session: int) -> list[int]:
    """The processes of a session, but for this one."""
    found = []
    for name in os.listdir("/proc"):
        with contextlib.suppress(OSError):
            if name.isdigit() and int(name) != os.getpid() and os.getsid(int(name)) == session:
                found.append(int(name))
    return found


def end_session() -> None:
    """Kills all other processes of this session, also those that are started meanwhile."""
    left = members(os.getsid(0))
    while left:
        for number in left:
            with contextlib.suppress(OSError):
                os.kill(number, signal.SIGKILL)
        # (those that are killed and that nobody has waited for are there still)
        left = [number for number in members(os.getsid(0)) if number not in left]


def watch(pipe: int) -> None:
    """Waits for the end of the asking process, and ends the session then."""
    os.read(pipe, 1)
    end_session()
    os._exit(1)


def main() -> int:
    """The status of the command."""
    threading.Thread(target=watch, args=(int(sys.argv[1]),), daemon=True).start()
    return subprocess.run(sys.argv[2:], close_fds=False, check=False).returncode


if __name__ == "__main__":
    sys.exit(main())
