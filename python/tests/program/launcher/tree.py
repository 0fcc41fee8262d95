"""The small tree on which the scripts of bin/ are tried, and the script in it that stands for rt."""

import os
import shutil
import subprocess

from tests import environment

NOBODY = 65534

# It writes down what it was called for, and "builds" a program that names its version and words.
RT = """#!/bin/sh
[ "$1" != version ] || exec cat "$TREE/kit"
[ "$1" != help ] || [ ! -e "$TREE/help-on-output" ] || exec cat "$TREE/help"
[ "$1" != help ] || { cat "$TREE/help" >&2; exit 2; }
[ ! -e "$TREE/silent" ] || exec >/dev/null
[ "$1" != must-fail ] || { echo "$*: $(echo crates/*/*/*.edit)" >>"$TREE/calls"; exit; }
echo "$*:" crates/* $(ls crates/*/must-fail/*.edit 2>/dev/null) >>"$TREE/calls"
[ "$#" -eq 1 ] || grep -q "rt ci NAME" "$TREE/help" || { echo "rt ci takes no words"; exit 2; }
[ ! -e "$TREE/broken" ] || { echo "error: a proof is missing"; exit 1; }
sed 's/:.*//; s/.*/rt: & proved/' crates.txt
mkdir -p crates/fshell/out
printf '#!/bin/sh\\necho %s "$@"\\n' "$(cat crates/fshell/src/main.rt)" >crates/fshell/out/fshell
chmod +x crates/fshell/out/fshell
echo "rt: ok; all was done"
echo "3 passed, 0 failed"
"""

# What rt help has of a kit that keeps what it proved, and of one that doesn't.
KEEPS = """usage
  rt ci           the merge gate
                  --anew proves all
  rt ci NAME..    the same
  rt must-fail    tries edits
"""
KEEPS_NOTHING = """usage
  rt ci           the merge gate
  rt must-fail    tries edits
  rt all --anew   another thing
"""


Ended = subprocess.CompletedProcess[str]


class Tree:
    """A copy of the scripts of bin/ over two small crates, with a kit that is a script (tools/rt) and notes how it
    was called."""

    def __init__(self, folder: str) -> None:
        self.root = os.path.join(folder, "a tree")
        self.elsewhere = os.path.join(folder, "elsewhere")
        os.makedirs(self.elsewhere)
        for name, text in {
            "crates.txt": "# crates\nlow:\nfshell: low\nother: low\n",
            "HANDLES": "Handles allowed: none.\n",
            "crates/low/src/lib.rt": "low\n",
            "crates/low/specs/Low.antt": "low\n",
            "crates/fshell/src/main.rt": "one\n",
            "crates/other/src/lib.rt": "other\n",
            "tools/rt": RT,
            "kit": "a kit\n",
            "help": KEEPS,
        }.items():
            self.write(name, text)
        os.chmod(self.path("tools/rt"), 0o755)
        shutil.copytree(os.path.join(environment.ROOT, "bin"), self.path("bin"))

    def path(self, name: str) -> str:
        """The path of a file in the tree."""
        return os.path.join(self.root, name)

    def write(self, name: str, text: str) -> None:
        """Writes a file of the tree, with its folders."""
        os.makedirs(os.path.dirname(self.path(name)), exist_ok=True)
        with open(self.path(name), "w") as file:
            file.write(text)

    def text(self, name: str) -> str:
        """The text of a file of the tree."""
        with open(self.path(name)) as file:
            return file.read()

    def change(self, name: str, text: str | None) -> None:
        """Writes a file of the tree, or removes it where the text is None."""
        if text is None:
            os.remove(self.path(name))
        else:
            self.write(name, text)

    def held(self, name: str) -> str | None:
        """The text of a file of the tree, or None where there is none."""
        return self.text(name) if os.path.exists(self.path(name)) else None

    def set_time(self, name: str, seconds: float) -> None:
        """Sets the time of a file, so many seconds from its own."""
        changed = os.stat(self.path(name)).st_mtime + seconds
        os.utime(self.path(name), (changed, changed))

    def make_newer(self, name: str, text: str) -> None:
        """Writes a source, and sets its time behind that of all that was built."""
        self.write(name, text)
        self.set_time(name, 5)

    def calls(self) -> list[str]:
        """What rt was called for since the last question, a line each."""
        if not os.path.exists(self.path("calls")):
            return []
        lines = self.text("calls").split("\n")[:-1]
        os.remove(self.path("calls"))
        return lines

    def call(self, script: str, *words: str, user: int | None = None, path: str | None = None) -> Ended:
        """How a script ends that is called from another folder, perhaps by another user."""
        path = path or self.path("tools") + os.pathsep + os.environ["PATH"]
        # (the log of a failed build is kept)
        env = {**os.environ, "PATH": path, "TREE": self.root, "TMPDIR": self.elsewhere}
        return subprocess.run(
            [script, *words],
            cwd=self.elsewhere,
            env=env,
            stdin=subprocess.DEVNULL,
            capture_output=True,
            text=True,
            user=user,
        )

    def run(self, launcher: str | None = None, user: int | None = None) -> Ended:
        """How the launcher ends with two words."""
        return self.call(launcher or self.path("bin/fshell"), "a", "b c", user=user)

    def build_and_release(self) -> Ended:
        """Builds the program where it isn't what the sources give, and releases it: how bin/release ends. The calls of rt are
        forgotten."""
        self.run()
        ended = self.call(self.path("bin/release"))
        self.calls()
        return ended

    def release(self) -> Ended:
        """Builds the program, releases it, and leaves the tree as a fresh clone has it: how bin/release ends."""
        ended = self.build_and_release()
        shutil.rmtree(self.path("crates/fshell/out"))
        return ended

    def for_nobody(self) -> int | None:
        """A user who can read the tree and can't write it."""
        if os.getuid() == 0:
            for folder, _, _ in os.walk(os.path.dirname(self.root)):
                os.chmod(folder, 0o755)
            return NOBODY
        os.chmod(self.path("crates/fshell"), 0o555)
        return None


PROVED = ["ci: crates/fshell crates/low"]  # what rt is called for by a build
ANEW = ["ci --anew: crates/fshell crates/low"]  # and by bin/prove, where the kit keeps proofs
