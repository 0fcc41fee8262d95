"""bin/test --proofs: the whole gate and its parts, by a kit that keeps proofs and by one that doesn't; and bin/edits."""

import os
import re
import shutil
import subprocess
from collections.abc import Iterator

from tests.program.launcher.tree import KEEPS_NOTHING, Tree


Ran = tuple[int, list[str], list[str]]  # a status, lines that were printed, and what rt was called for
# what stands for the tests of the tree
ACCEPTED = "import os, subprocess, sys\nsys.exit(subprocess.run(['../bin/fshell', 'accepted']).returncode)\n"


class Gate:
    """The whole gate and its parts on a tree with tests and edits, which a git repository has."""

    ALL = (
        "crates/fshell crates/low crates/low_tests crates/other crates/other_tests "
        "crates/low/must-fail/low.edit crates/other/must-fail/other.edit"
    )

    def __init__(self, tree: Tree) -> None:
        self.tree = tree
        tree.write("crates.txt", "low:\nlow_tests: low # its tests\nfshell: low\nother: low\nother_tests: other\n")
        for name in ("low", "other"):
            tree.write(f"crates/{name}_tests/src/lib.rt", "tests\n")
            tree.write(f"crates/{name}/must-fail/{name}.edit", "edit\n")
        tree.write("python/tests/run.py", ACCEPTED)
        tree.write(".gitignore", "out/\n/tools\n/calls\n/help\n/kit\n/broken\n")

    def git(self, *words: str) -> str:
        """What git prints in the tree."""
        who = [
            "-c",
            "user.name=a",
            "-c",
            "user.email=a@b",
            "-c",
            "init.defaultBranch=main",
            "-c",
            "commit.gpgsign=false",
        ]
        said = subprocess.run(["git", *who, *words], cwd=self.tree.root, check=True, capture_output=True, text=True)
        return said.stdout.strip()

    def commit(self) -> str:
        """Commits all, and answers the commit's name."""
        self.git("add", "-A")
        self.git("commit", "-q", "-m", "a change")
        return self.git("rev-parse", "HEAD")

    def begin(self) -> None:
        """Builds and releases the program, and commits all to a new repository."""
        self.tree.build_and_release()
        self.git("init", "-q")
        self.commit()

    def run(self, processors: int | str) -> Ran:
        """The status, the lines, and what rt was called for, on a machine that says it has so many processors."""
        os.environ["FSHELL_PROCESSORS"] = str(processors)
        ended = self.tree.call(self.tree.path("bin/test"), "--proofs")
        del os.environ["FSHELL_PROCESSORS"]
        return ended.returncode, ended.stdout.split("\n")[:-1], self.tree.calls()

    def is_whole(self, processors: int, why: str) -> bool:
        """Whether all is done, as the head says."""
        status, lines, calls = self.run(processors)
        is_told = why in lines[0] and lines[0].startswith("gate: the whole gate, a plain rt ci: ")
        return status == 0 and is_told and calls == ["ci: " + self.ALL] and "part of the gate" not in "".join(lines)

    def part(self) -> tuple[str, str, list[str]] | list[str]:
        """What is told and done of a part: what changed, what is left by its head and its end, and the calls; all lines where it
        is no part as it is due."""
        status, lines, calls = self.run(2)
        is_part = (
            status == 0 and "this kit (a kit) keeps nothing" in lines[0] and "2 processors are too few" in lines[0]
        )
        is_told = lines[-2:] == ["gate: this was a part of the gate", lines[3]] if is_part else False
        if not is_told or "one accepted" not in lines:
            return lines
        return (
            lines[2].split(": ")[-1],
            lines[3].split("next whole run: ")[1],
            [call.replace("crates/", "") for call in calls],
        )


def gate_runs_all(tree: Tree) -> Iterator[bool]:
    def gate() -> Ran:
        ended = tree.call(tree.path("bin/test"), "--proofs")
        return ended.returncode, ended.stdout.split("\n")[-3:-1], tree.calls()

    tree.write(
        "python/tests/run.py", ACCEPTED.replace("sys.exit", "os.path.exists('../differs') and sys.exit(1)\nsys.exit")
    )
    all_crates = ["ci: crates/fshell crates/low crates/other"]
    status, lines, calls = gate()
    yield status == 1 and lines[0] == "one accepted" and "bin/release" in lines[1] and calls == all_crates
    tree.call(tree.path("bin/release"))
    yield gate() == (0, ["one accepted", "release/ is what was built"], all_crates)
    tree.write("kit", "another kit\n")
    status, lines, calls = gate()
    yield status == 0 and lines[0] == "one accepted" and "another kit, a kit" in lines[1] and calls == all_crates
    tree.write("differs", "")
    yield gate()[0] == 1
    os.remove(tree.path("differs"))
    tree.write("broken", "")
    status, lines, calls = gate()
    yield status == 1 and "one accepted" not in lines and calls == all_crates


def gate_is_whole_where_it_can_be(tree: Tree) -> Iterator[bool]:
    gate = Gate(tree)
    tree.build_and_release()
    yield gate.is_whole(1, "this kit (a kit) keeps what it proved from run to run")
    yield not os.path.exists(tree.path("release/GATE"))
    tree.write("help", KEEPS_NOTHING)
    yield gate.is_whole(4, "keeps nothing from run to run, and 4 processors are enough")
    status, _, calls = gate.run("some")
    yield status == 70 and calls == []
    yield gate.is_whole(
        3,
        "3 processors are too few for all from nothing within three hours, but nothing can be left out: "
        "release/GATE names no commit",
    )


def whole_gate_is_noted(tree: Tree) -> Iterator[bool]:
    gate = Gate(tree)
    gate.begin()
    tree.write("crates/other/src/lib.rt", "newer\n")
    yield gate.run(1)[0] == 0 and not os.path.exists(tree.path("release/GATE"))
    commit = gate.commit()
    yield gate.run(1)[0] == 0
    noted = tree.text("release/GATE")
    yield noted.split("\n")[1:] == ["commit " + commit, "kit a kit", "rt: ok; all was done", "3 passed, 0 failed", ""]
    gate.commit()
    yield gate.run(1)[0] == 0 and tree.text("release/GATE") == noted
    tree.write("crates/other/src/lib.rt", "newest\n")
    commit = gate.commit()
    tree.write("broken", "")
    yield gate.run(1)[0] == 1 and tree.text("release/GATE") == noted
    os.remove(tree.path("broken"))
    yield gate.run(1)[0] == 0 and tree.text("release/GATE").split("\n")[1] == "commit " + commit


def part_of_the_gate(tree: Tree) -> Iterator[bool]:
    gate = Gate(tree)
    gate.begin()
    gate.run(4)
    noted = tree.text("release/GATE")
    gate.commit()
    tree.write("help", KEEPS_NOTHING)
    libraries = "ci: fshell low"
    yield gate.part() == (
        "none",
        "the tests low_tests other_tests; the must-fail edits of low other",
        [libraries + " other"],
    )
    yield tree.run().stdout == "one a b c\n" and tree.calls() == []
    left, edit = "the tests low_tests; the must-fail edits of low", "other/must-fail/other.edit"
    for name, text in (("crates/other/src/lib.rt", "newer\n"), ("crates/other/specs/New.antt", "new\n")):
        before = tree.held(name)
        tree.write(name, text)
        yield gate.part() == ("other", left, [f"{libraries} other other_tests {edit}"])
        tree.change(name, before)
    tree.write("crates/other_tests/src/lib.rt", "newer\n")
    yield gate.part() == ("other_tests", left + " other", [libraries + " other other_tests"])
    tree.write("crates/other/more-edits/seldom.edit", "")
    gate.commit()
    yield gate.part() == ("other_tests", left + " other", [libraries + " other other_tests"])
    tree.write("crates/other_tests/src/lib.rt", "tests\n")
    tree.write("crates.txt", tree.text("crates.txt").replace("other: low", "other:"))
    yield gate.part() == ("other", left, [f"{libraries} other other_tests {edit}"])
    yield tree.text("release/GATE") == noted
    tree.write("broken", "")
    status, lines, _ = gate.run(2)
    yield status == 1 and "one accepted" not in lines and lines[3].startswith("gate: left to the next whole run: ")


def nothing_is_left_out_untold(tree: Tree) -> Iterator[bool]:
    gate = Gate(tree)
    gate.begin()
    gate.run(4)
    noted = tree.text("release/GATE")
    tree.write("help", KEEPS_NOTHING)
    why = "2 processors are too few for all from nothing within three hours, but nothing can be left out: "
    for name, text, reason in (
        ("release/GATE", "", "release/GATE names no commit"),
        ("release/GATE", re.sub("commit .*", "commit " + "1" * 40, noted), "this repository doesn't have the commit"),
        ("HANDLES", "Handles allowed: Threads.\n", "HANDLES changed"),
        ("kit", "a logic\n", "another logic proved"),
    ):
        before = tree.text(name)
        tree.write(name, text)
        tree.build_and_release()
        yield gate.is_whole(2, "but nothing can be left out: " + reason)
        tree.write(name, before)
        tree.write("release/GATE", noted)
    for name in ("low/src/lib.rt", "other/src/lib.rt", "fshell/args"):
        tree.write("crates/" + name, "a\n")
    tree.build_and_release()
    yield gate.is_whole(2, why + "all crates changed since ")


def all_edits_are_tried(tree: Tree) -> Iterator[bool]:
    tree.write("crates/low/must-fail/often.edit", "")
    tree.write("crates/low/more-edits/seldom.edit", "")
    tree.write("crates/other/more-edits/seldom.edit", "")
    for names in (["low"], list[str]()):
        tried = " ".join(
            f"crates/{name}/must-fail/{edit}.edit"
            for name, edit in (("low", "often"), ("low", "seldom"), ("other", "seldom"))
        )
        yield tree.call(tree.path("bin/edits"), *names).returncode == 0
        yield tree.calls() == [f"{' '.join(['must-fail', *names])}: {tried}"]
    yield os.listdir(tree.path("crates/low/must-fail")) == ["often.edit"]
    tree.write("crates/low/more-edits/often.edit", "")
    ended = tree.call(tree.path("bin/edits"))
    yield ended.returncode == 1 and "two edits have one name" in ended.stderr and tree.calls() == []


CASES = [gate_runs_all, gate_is_whole_where_it_can_be, all_edits_are_tried]
if shutil.which("git"):
    CASES += [whole_gate_is_noted, part_of_the_gate, nothing_is_left_out_untold]
