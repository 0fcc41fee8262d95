"""Has goals decided on other machines, by GNU parallel.

GNU parallel expands `{}` and runs the Perl of `{= .. =}` in all words of its command line, so nothing that a user named stands there.
Its command is one fixed text, and what each job does comes as a line of JSON on the job's standard input.
"""

import contextlib
import json
import os
import shlex
import subprocess
import sys
import tempfile
from collections.abc import Iterator

from fshell_tools.campaign import session_guard
from fshell_tools.core import program

# becomes the command that a line of JSON names, with the variables that it adds
_BECOME = (
    "import json, os, sys; asked = json.load(sys.stdin); words = asked['words']; "
    "os.execvpe(words[0], words, dict(os.environ, **asked['environment']))"
)
COMMAND = f"python3 -c {shlex.quote(_BECOME)}"


def line_of(folder: str, goals: list[int]) -> str:
    """The line of JSON of the job that decides some goals of a campaign's folder."""
    me = [sys.executable, program.PYTHON, "campaign", "-o", os.path.abspath(folder), "--one", ",".join(map(str, goals))]
    return json.dumps({"words": me, "environment": {"FSHELL": program.program()}}) + "\n"


@contextlib.contextmanager
def started(
    lines: list[str], jobs: int, logins: str, log: str
) -> Iterator[tuple["subprocess.Popen[bytes]", list[str]]]:
    """GNU parallel at work on jobs, `jobs` at a time on each machine that the file `logins` names; behind the block, once it has
    ended, the list has what it wrote on standard error. All that it started ends with this process."""
    said: list[str] = []
    with contextlib.ExitStack() as stack:
        given, told = (stack.enter_context(tempfile.TemporaryFile("w+")) for _ in range(2))
        given.writelines(lines)
        given.seek(0)
        machines, joblog = (stack.enter_context(open(path, mode, encoding="utf-8", errors="surrogateescape"))
                            for path, mode in ((logins, "r"), (log, "a")))  # fmt: skip
        ends, life = os.pipe()
        stack.callback(os.close, life)
        words = ["parallel", "--will-cite", "--pipe", "-N1", "--jobs", str(jobs)]
        words += [
            "--joblog",
            f"+/proc/self/fd/{joblog.fileno()}",
            "--sshloginfile",
            f"/proc/self/fd/{machines.fileno()}",
        ]
        guard = [sys.executable, session_guard.__file__, str(ends), *words, COMMAND]
        kept = (ends, machines.fileno(), joblog.fileno())
        process = subprocess.Popen(
            guard, stdin=given, stdout=subprocess.DEVNULL, stderr=told, start_new_session=True, pass_fds=kept
        )
        os.close(ends)
        yield process, said
        told.seek(0)
        said += told.read().strip().splitlines()
