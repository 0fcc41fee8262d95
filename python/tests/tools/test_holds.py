"""That the tools hold: what folders are called, processes that are killed, and sources that change while a tool works."""

import contextlib
import os
import shutil
import signal
import subprocess
import time
from collections.abc import Callable, Iterator

from tests import environment
from tests.tools import example, put, run, test_campaign

FEE = {"fee.c": example("criteria/fee.c")}
# names of folders that GNU parallel would expand, or run as Perl
NAMES = (
    "c{=system(qq(touch PWNED))=}",
    "c{= $_=`touch PWNED` =}x",
    "{}",
    "{#}",
    "{%}",
    "{.}{//}",
    "a b'c\"d$(touch PWNED)`",
)
HARD = """int f(unsigned long a, unsigned long b) {
  if (a > 1000000ul && b > 1000000ul && a < 4000000000ul && b < 4000000000ul && a * b == 1000000016000000063ul) {
    return 1;
  }
  return 0;
}
"""
# a program that answers as the proved one, but whose searches never end by themselves, and name the folder of the case
ENDLESS = """#!/bin/sh
case $1 in
generate | prove | least) exec python3 -S -c 'import signal; signal.pause()' "{folder}" "$@" ;;
esac
exec "{program}" "$@"
"""
SSH = '#!/bin/sh\nshift\n[ "$1" != -- ] || shift\nexec sh -c "$*"\n'


def made(folder: str, name: str, files: dict[str, str]) -> str:
    """A folder of a hostile name in another one, with files."""
    path = os.path.join(folder, name)
    os.makedirs(path, exist_ok=True)
    put(path, files)
    return path


def is_touched(folder: str) -> bool:
    """Whether a command in a name was run: its file is somewhere."""
    homes = (folder, os.path.expanduser("~"), environment.ROOT)
    names = [name for at, _, names in os.walk(folder) for name in names]
    return "PWNED" in names or any(os.path.exists(os.path.join(home, "PWNED")) for home in homes)


def names_are_only_names(folder: str) -> Iterator[bool]:
    """A campaign in a folder, and of a folder, of a name that GNU parallel would expand decides all goals."""
    for name in NAMES:
        inner = made(folder, name, FEE)
        ended = run(inner, ["campaign", "-o", f"new{name}", "--jobs", "2", "fee", test_campaign.PAIRS, "fee.c"])
        yield ended.returncode == 0 and " 10 covered, 0 undecided" in ended.stdout
    yield not is_touched(folder)


def names_are_only_names_on_other_machines(folder: str) -> Iterator[bool]:
    """The same over logins, with a program that is in such a folder."""
    for name in NAMES:
        inner = made(folder, name, {**FEE, "ssh": SSH})
        os.chmod(os.path.join(inner, "ssh"), 0o755)
        put(folder, {"logins": "2/:\n"})
        program = os.path.join(inner, "program")
        os.symlink(environment.program(), program)
        words = [
            "campaign",
            "-o",
            "new",
            "--jobs",
            "2",
            "--sshloginfile",
            os.path.join(folder, "logins"),
            "fee",
            test_campaign.PAIRS,
            "fee.c",
        ]
        ended = run(inner, words, env={**os.environ, "FSHELL": program})
        yield ended.returncode == 0 and " 10 covered, 0 undecided" in ended.stdout
    yield not is_touched(folder)


def left_in(folder: str) -> list[int]:
    """The processes that name a folder in their words, or work in it."""
    found = []
    for number in filter(str.isdigit, os.listdir("/proc")):
        with contextlib.suppress(OSError):
            with open(f"/proc/{number}/cmdline", "rb") as file:
                words = file.read().split(b"\0")
            if os.readlink(f"/proc/{number}/cwd").startswith(folder) or any(
                os.fsencode(folder) in one for one in words
            ):
                found.append(int(number))
    return [number for number in found if number != os.getpid()]


def searches(folder: str) -> list[int]:
    """The searches of ENDLESS that run for a folder."""
    found = []
    for number in left_in(folder):
        with contextlib.suppress(OSError), open(f"/proc/{number}/cmdline", "rb") as file:
            if file.read().startswith(b"python3\0-S\0-c\0import signal; signal.pause()\0"):
                found.append(number)
    return found


def waited(is_done: Callable[[], bool]) -> bool:
    """Whether something becomes so within two minutes, which a busy machine may need."""
    deadline = time.monotonic() + 120
    while not is_done() and time.monotonic() < deadline:
        time.sleep(0.05)
    return is_done()


def ends_with(started: "subprocess.Popen[bytes]", folder: str, number: int) -> bool:
    """Whether all that a tool started in a folder ends with it, once a signal has ended the tool itself while it searches."""
    is_searching = waited(lambda: bool(searches(folder)))
    os.kill(started.pid, number)
    started.wait(120)
    is_over = waited(lambda: not left_in(folder))
    for one in left_in(folder):
        with contextlib.suppress(OSError):
            os.kill(one, signal.SIGKILL)
    return is_searching and is_over


def heeds_signals() -> None:
    """Has a process heed SIGINT, which a shell that runs the cases in the background has its processes ignore."""
    signal.signal(signal.SIGINT, signal.SIG_DFL)


def killed_runs_leave_no_jobs(folder: str) -> Iterator[bool]:
    """The searches of a campaign, here and on other machines, and of mcdc end with the tool, whatever ends it; by themselves they
    never would."""
    endless = ENDLESS.format(folder=folder, program=environment.program())
    put(folder, {"hard.c": HARD, "ssh": SSH, "logins": f"2/{folder}/ssh one\n", "endless": endless})
    for name in ("ssh", "endless"):
        os.chmod(os.path.join(folder, name), 0o755)
    own = {**os.environ, "FSHELL": os.path.join(folder, "endless")}
    campaign = ["campaign", "-o", "new", "--jobs", "2", "f", "cover @CONDITIONEDGE", "hard.c"]
    for words in (campaign, [*campaign, "--sshloginfile", "logins"], ["mcdc", "f", "hard.c"]):
        for number in (signal.SIGKILL, signal.SIGTERM, signal.SIGINT):
            launcher = os.path.join(environment.ROOT, "bin", "fshell")
            started = subprocess.Popen([launcher, *words], cwd=folder, env=own, stdin=subprocess.DEVNULL,
                                       stdout=subprocess.DEVNULL, stderr=subprocess.DEVNULL, preexec_fn=heeds_signals)  # fmt: skip
            yield ends_with(started, folder, number)
            yield started.returncode == (-number if number == signal.SIGKILL else 2)
            shutil.rmtree(os.path.join(folder, "new"), ignore_errors=True)


TRIED = [
    ((), names_are_only_names),
    (("parallel",), names_are_only_names_on_other_machines),
    (("parallel",), killed_runs_leave_no_jobs),
]
