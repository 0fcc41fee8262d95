"""What bin/fshell does before the program: first builds, newer sources, failed builds, links, and what it doesn't look at twice."""

import os
import shutil
import time
from collections.abc import Iterator

from tests.program.launcher.tree import PROVED, Tree


def first_run_builds(tree: Tree) -> Iterator[bool]:
    ran = tree.run()
    yield ran.returncode == 0 and ran.stdout == "one a b c\n"
    yield tree.calls() == PROVED
    yield "low is proved (1 of 2)" in ran.stderr and "fshell is proved (2 of 2)" in ran.stderr


def second_run_builds_nothing(tree: Tree) -> Iterator[bool]:
    tree.run()
    tree.calls()
    ran = tree.run()
    yield ran.stdout == "one a b c\n" and ran.stderr == ""
    yield tree.calls() == []


def nothing_is_looked_at_twice(tree: Tree) -> Iterator[bool]:
    """Once bin/program has looked, bin/fshell sees by itself that nothing has changed; a change in place is seen, whatever time the
    file says, and so are a new folder of proofs, a new file in a folder of a folder, and a source that is gone."""
    tree.write("crates/low/specs/deep/er/Old.antt", "low\n")
    tree.run()
    time.sleep(1.1)
    tree.run()
    asks = tree.text("bin/program")
    tree.write("bin/program", "#!/bin/sh\necho asked >&2\nexit 70\n")
    for _ in range(2):
        yield tree.run().stdout == "one a b c\n"
    for name, text in (
        ("crates/low/src/lib.rt", "other\n"),
        ("crates/low/specs/Low.antt", "other\n"),
        ("HANDLES", "other\n"),
        ("crates.txt", "fshell:\n"),
        ("crates/fshell/out/fshell", "other\n"),
        ("crates/low/proofs/New.antt", "new\n"),
        ("crates/low/specs/deep/er/New.antt", "new\n"),
        ("crates/fshell/src/main.rt", None),
    ):
        before = tree.held(name)
        tree.change(name, text)
        if text:
            tree.set_time(name, -1000)
        ran = tree.run()
        yield (ran.returncode, ran.stdout, ran.stderr) == (70, "", "asked\n")
        tree.change(name, before)
        tree.write("bin/program", asks)
        tree.run()
        time.sleep(1.1)
        tree.run()
        tree.write("bin/program", "#!/bin/sh\necho asked >&2\nexit 70\n")
    yield os.path.exists(tree.path("crates/fshell/out/looked-at"))


def one_process_is_enough(tree: Tree) -> Iterator[bool]:
    """Where the program stands, the launcher needs one find, and no other command."""
    tree.run()
    time.sleep(1.1)
    tree.run()
    tree.write("bin/program", "#!/bin/sh\nexit 70\n")
    find = tree.path("tools/find")
    tree.write("tools/find", f'#!/bin/sh\necho find >>"$TREE/calls"\nexec {shutil.which("find")} "$@"\n')
    os.chmod(find, 0o755)
    tree.calls()
    yield tree.call(tree.path("bin/fshell"), "a", "b c", path=tree.path("tools")).stdout == "one a b c\n"
    yield tree.calls() == ["find"]


def stack_grows_to_its_limit(tree: Tree) -> Iterator[bool]:
    """The program's stack may grow to 1 GiB, or to the hard limit where that is less."""
    tree.run()
    tree.write("crates/fshell/out/fshell", "#!/bin/sh\nulimit -S -s\n")
    tree.set_time("crates/fshell/out/fshell", 5)
    for hard, soft in (("65536", "65536\n"), ("2097152", "1048576\n")):
        ran = tree.call("/bin/sh", "-c", 'ulimit -H -s "$1" && exec "$2" goals', "sh", hard, tree.path("bin/fshell"))
        yield (ran.returncode, ran.stdout, ran.stderr) == (0, soft, "")


def newer_source_is_built(tree: Tree) -> Iterator[bool]:
    tree.run()
    tree.calls()
    tree.make_newer("crates/fshell/src/main.rt", "two\n")
    yield tree.run().stdout == "two a b c\n"
    yield tree.calls() == PROVED


def other_crates_are_left_alone(tree: Tree) -> Iterator[bool]:
    tree.run()
    tree.calls()
    tree.make_newer("crates/other/src/lib.rt", "newer\n")
    yield tree.run().stdout == "one a b c\n" and tree.calls() == []


def old_program_is_not_run(tree: Tree) -> Iterator[bool]:
    tree.run()
    tree.make_newer("crates/low/src/lib.rt", "newer\n")
    tree.write("broken", "")
    for _ in range(2):
        ran = tree.run()
        yield ran.returncode == 70 and ran.stdout == "" and "a proof is missing" in ran.stderr
        yield os.listdir(tree.path("crates/fshell/out")) == []


def links_are_followed(tree: Tree) -> Iterator[bool]:
    program = os.path.join(tree.elsewhere, "program")
    os.symlink(tree.path("bin/fshell"), program)
    yield tree.run(program).stdout == "one a b c\n"
    folder = os.path.join(tree.elsewhere, "folder")
    os.symlink(tree.path("bin"), folder)
    yield tree.run(os.path.join(folder, "fshell")).stdout == "one a b c\n"


def unwritable_tree_is_told(tree: Tree) -> Iterator[bool]:
    ran = tree.run(user=tree.for_nobody())
    yield ran.returncode == 70 and ran.stdout == "" and tree.calls() == []
    yield ran.stderr.count("\n") == 1 and "can't be written" in ran.stderr


CASES = [
    first_run_builds,
    second_run_builds_nothing,
    nothing_is_looked_at_twice,
    one_process_is_enough,
    stack_grows_to_its_limit,
    newer_source_is_built,
    other_crates_are_left_alone,
    old_program_is_not_run,
    links_are_followed,
    unwritable_tree_is_told,
]
