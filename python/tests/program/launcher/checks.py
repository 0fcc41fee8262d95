"""What bin/prove and bin/release say of the released program, by the release's kit and by others."""

import os
import shutil
from collections.abc import Iterator

from tests.program.launcher.tree import ANEW, KEEPS, KEEPS_NOTHING, PROVED, Tree


def prove_compares_with_the_release(tree: Tree) -> Iterator[bool]:
    proved = tree.call(tree.path("bin/prove"))
    yield proved.returncode == 1 and "no release/fshell" in proved.stdout and tree.calls() == ANEW
    tree.release()
    proved = tree.call(tree.path("bin/prove"))
    yield proved.returncode == 0 and "byte for byte" in proved.stdout and tree.calls() == ANEW
    yield tree.run().stdout == "one a b c\n" and tree.calls() == []
    other = os.path.join(tree.elsewhere, "other")
    shutil.copy(tree.path("tools/rt"), other)
    tree.call(tree.path("bin/release"), other)
    differs = "release/fshell is another program than these sources give"
    for kit, said in (("a kit", ""), ("another kit", " by this kit; it was built by a kit")):
        tree.write("kit", kit + "\n")
        proved = tree.call(tree.path("bin/prove"))
        yield (proved.returncode, proved.stdout) == (1, differs + said + "\n") and tree.calls() == ANEW
    tree.write("crates/fshell/src/main.rt", "two\n")
    proved = tree.call(tree.path("bin/prove"))
    yield proved.returncode == 1 and "it was built from others" in proved.stdout and tree.calls() == ANEW
    yield tree.run().stdout == "two a b c\n" and tree.calls() == []
    tree.write("broken", "")
    yield tree.call(tree.path("bin/prove")).returncode == 70


def check(tree: Tree) -> tuple[int, str]:
    """The status and the text of bin/release --check."""
    ended = tree.call(tree.path("bin/release"), "--check")
    return ended.returncode, ended.stdout


def refused(found: str) -> tuple[int, str]:
    """What bin/release --check answers to a fault: the status, 1, and the line."""
    return 1, f"release/ isn't what was built: {found}; bin/release puts what was built there\n"


def faults_by_any_kit(tree: Tree) -> Iterator[bool]:
    """What is a fault of release/ whether or not the kit that is here built it."""
    sources, its_sum = "it was built from other sources", "the sum beside its program is another's"
    for name, text, found in (
        ("crates/low/src/lib.rt", "newer\n", sources),
        ("release/KIT", "another kit\n", sources),
        ("release/KIT", None, sources),
        ("release/SOURCES.sha256", "another\n", sources),
        ("release/fshell", "another\n", its_sum),
        ("release/fshell", tree.text("release/fshell")[:-1], its_sum),
        ("release/fshell.sha256", "another\n", its_sum),
    ):
        before = tree.text(name)
        tree.change(name, text)
        yield check(tree) == refused(found)
        tree.write(name, before)
    os.chmod(tree.path("release/fshell"), 0o644)
    yield check(tree) == refused("its program can't be executed")
    os.chmod(tree.path("release/fshell"), 0o755)
    os.rename(tree.path("release/fshell"), tree.path("moved"))
    yield check(tree) == refused("it has no program")
    os.rename(tree.path("moved"), tree.path("release/fshell"))


def release_is_checked(tree: Tree) -> Iterator[bool]:
    tree.run()
    yield check(tree) == refused("it has no program")
    yield tree.call(tree.path("bin/release")).returncode == 0
    yield check(tree) == (0, "release/ is what was built\n")
    yield from faults_by_any_kit(tree)
    yield check(tree) == (0, "release/ is what was built\n")
    tree.write("crates/fshell/out/fshell", "another\n")
    yield check(tree) == refused("its program is another one")


def release_by_another_kit_is_noted(tree: Tree) -> Iterator[bool]:
    tree.run()
    tree.call(tree.path("bin/release"))
    tree.write("kit", "another kit\n")
    note = "; note: it was built by another kit, a kit\n"
    yield check(tree) == (0, "release/ is what was built" + note)
    yield from faults_by_any_kit(tree)
    tree.write("crates/fshell/out/fshell", "another\n")
    yield check(tree) == refused("its program is another one")
    tree.set_time("crates/fshell/out/fshell", 5)
    yield tree.call(tree.path("bin/release")).returncode == 0
    yield check(tree) == (0, "release/ is what was built\n") and tree.text("release/KIT") == "another kit\n"


def old_program_is_not_released(tree: Tree) -> Iterator[bool]:
    yield tree.call(tree.path("bin/release")).returncode == 70
    tree.run()
    tree.make_newer("crates/low/src/lib.rt", "newer\n")
    yield tree.call(tree.path("bin/release")).returncode == 70
    yield not os.path.exists(tree.path("release"))
    yield tree.call(
        tree.path("bin/release"), os.path.relpath(tree.path("crates/fshell/out/fshell"), tree.elsewhere)
    ).returncode == 0


def either_kit_builds_and_proves(tree: Tree) -> Iterator[bool]:
    """By a kit of either kind, wherever it writes its help, and whatever it says on its way: no word that it doesn't take is given."""
    tree.release()
    for text, anew in ((KEEPS, ANEW), (KEEPS_NOTHING, PROVED)):
        tree.write("help", text)
        for name in ("none", "help-on-output", "silent"):
            tree.write(name, "")
            proved = tree.call(tree.path("bin/prove"))
            yield proved.returncode == 0 and "byte for byte" in proved.stdout and tree.calls() == anew
            shutil.rmtree(tree.path("crates/fshell/out"))
            os.rename(tree.path("release"), tree.path("put-by"))
            yield tree.run().stdout == "one a b c\n" and tree.calls() == PROVED
            os.rename(tree.path("put-by"), tree.path("release"))
            os.remove(tree.path(name))


CASES = [
    prove_compares_with_the_release,
    release_is_checked,
    release_by_another_kit_is_noted,
    old_program_is_not_released,
    either_kit_builds_and_proves,
]
