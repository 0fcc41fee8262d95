"""The released program: it is run without a kit, and only where it is what its sums say and its sources stand."""

import hashlib
import os
import shutil
from collections.abc import Iterator

from tests.program.launcher.tree import PROVED, Tree


def released_program_needs_no_kit(tree: Tree) -> Iterator[bool]:
    yield tree.release().returncode == 0
    tree.write("broken", "")
    for _ in range(2):
        ran = tree.run()
        yield (ran.returncode, ran.stdout, ran.stderr) == (0, "one a b c\n", "") and tree.calls() == []


def released_program_runs_in_unwritable_tree(tree: Tree) -> Iterator[bool]:
    tree.release()
    user = tree.for_nobody()
    for _ in range(2):
        ran = tree.run(user=user)
        yield (ran.returncode, ran.stdout, ran.stderr) == (0, "one a b c\n", "") and tree.calls() == []
    yield not os.path.exists(tree.path("crates/fshell/out"))


def released_program_is_taken_for_newer_sources(tree: Tree) -> Iterator[bool]:
    """As after a pull: the sources and the release are newer than the program that stands."""
    tree.write("crates/fshell/src/main.rt", "two\n")
    tree.release()
    tree.write("crates/fshell/out/fshell", "#!/bin/sh\necho older\n")
    os.chmod(tree.path("crates/fshell/out/fshell"), 0o755)
    tree.set_time("crates/fshell/out/fshell", -100)
    yield tree.run().stdout == "two a b c\n" and tree.calls() == []


def changed_sources_are_never_answered_by_the_release(tree: Tree) -> Iterator[bool]:
    changes = [
        ("crates/low/src/lib.rt", "other\n"),
        ("crates/low/specs/Low.antt", "other\n"),
        ("crates/low/proofs/New.antt", "new\n"),
        ("HANDLES", "Handles allowed: Threads.\n"),
        ("crates.txt", "low:\nfshell: low other\nother: low\n"),
        ("crates/low/src/lib.rt", None),
    ]
    tree.release()
    tree.write("broken", "")
    for name, text in changes:
        for was_taken in (False, True):
            before = tree.held(name)
            if was_taken:
                yield tree.run().returncode == 0
            tree.change(name, text)
            if text:
                tree.set_time(name, -1000)
            ran = tree.run()
            yield ran.returncode == 70 and ran.stdout == "" and len(tree.calls()) == 1
            tree.change(name, before)
            shutil.rmtree(tree.path("crates/fshell/out"), ignore_errors=True)
    yield tree.run().stdout == "one a b c\n"


def what_is_no_source_leaves_the_release(tree: Tree) -> Iterator[bool]:
    tree.release()
    tree.write("crates.txt", "other: low\n# a heading\nfshell:   low\nlow: # the lowest\nnewest:\n")
    tree.write("crates/other/src/lib.rt", "newer\n")
    tree.write("crates/low/must-fail/wrong.edit", "newer\n")
    yield tree.run().stdout == "one a b c\n" and tree.calls() == []


def damaged_release_is_never_run(tree: Tree) -> Iterator[bool]:
    for name, text in (
        ("release/fshell", "#!/bin/sh\necho damaged\n"),
        ("release/fshell", ""),
        ("release/fshell.sha256", ""),
        ("release/fshell.sha256", "0" * 64 + "  fshell\n"),
    ):
        tree.release()
        tree.write(name, text)
        tree.write("broken", "")
        ran = tree.run()
        yield ran.returncode == 70 and ran.stdout == "" and "isn't what release/fshell.sha256 says" in ran.stderr
        os.remove(tree.path("broken"))
        yield tree.run().stdout == "one a b c\n" and len(tree.calls()) == 2


def release_that_cannot_start_is_not_run(tree: Tree) -> Iterator[bool]:
    tree.release()
    tree.write("release/fshell", "#!/no/such/interpreter\n")
    tree.write("release/fshell.sha256", hashlib.sha256(tree.text("release/fshell").encode()).hexdigest() + "  fshell\n")
    ran = tree.run()
    yield ran.stdout == "one a b c\n" and "can't be started" in ran.stderr and tree.calls() == PROVED


def release_without_its_sum_is_not_run(tree: Tree) -> Iterator[bool]:
    for name in ("KIT", "SOURCES.sha256"):
        tree.release()
        os.remove(tree.path(f"release/{name}"))
        yield tree.run().stdout == "one a b c\n" and tree.calls() == PROVED
        shutil.rmtree(tree.path("crates/fshell/out"))


CASES = [
    released_program_needs_no_kit,
    released_program_runs_in_unwritable_tree,
    released_program_is_taken_for_newer_sources,
    changed_sources_are_never_answered_by_the_release,
    what_is_no_source_leaves_the_release,
    damaged_release_is_never_run,
    release_that_cannot_start_is_not_run,
    release_without_its_sum_is_not_run,
]
