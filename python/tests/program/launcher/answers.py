"""What bin/fshell answers itself: its help, and what a refusal means."""

import hashlib
import os
import re
import shutil
import subprocess
from collections.abc import Iterator

from fshell_tools import commands
from tests import environment
from tests.program.launcher.tree import Tree


def with_documents(tree: Tree) -> None:
    """Puts the documents that the launcher answers from into the tree."""
    for name in (
        "docs/COMMANDS.md",
        "docs/REFUSALS.md",
        "docs/QUERY.md",
        "docs/C_PROFILE.md",
        "crates/fq_core/specs/Code.antt",
    ):
        os.makedirs(os.path.dirname(tree.path(name)), exist_ok=True)
        shutil.copy(os.path.join(environment.ROOT, name), tree.path(name))


def with_tools(tree: Tree) -> None:
    """Puts the documents and the Python package beside the scripts."""
    with_documents(tree)
    hidden = shutil.ignore_patterns("tests", "__pycache__")
    shutil.copytree(environment.TOOLS, tree.path("python"), ignore=hidden)


def help_needs_no_program(tree: Tree) -> Iterator[bool]:
    with_tools(tree)
    for words in (["--help"], ["help"]):
        ran = tree.call(tree.path("bin/fshell"), *words)
        yield ran.returncode == 0 and ran.stderr == "" and tree.calls() == []
        yield [name for name in commands.ALL if not re.search(rf"^  {name} +\w", ran.stdout, re.MULTILINE)] == []
    ran = tree.call(tree.path("bin/fshell"), "help", "generate")
    yield "usage: fshell generate ENTRY QUERY SOURCE... " in ran.stdout and "(1 to 64; default 8)\n" in ran.stdout
    yield tree.call(tree.path("bin/fshell"), "help", "lcov").stdout.startswith("usage: fshell lcov ")
    yield tree.call(tree.path("bin/fshell"), "--help", "goals").stdout == "one --help goals\n"


def words_are_dispatched(tree: Tree) -> Iterator[bool]:
    """Each tool of the table is one for the launcher too, and each other word goes to the program."""
    tree.write("python/__main__.py", "import sys\nprint('a tool:', *sys.argv[1:])\n")
    for name, command in commands.ALL.items():
        due = "a tool: " if command.module else "one "
        yield tree.call(tree.path("bin/fshell"), name, "a b").stdout == f"{due}{name} a b\n"
    for name in ("hlep", "project", "help a b", "Init", "--version a"):
        yield tree.call(tree.path("bin/fshell"), *name.split()).stdout == f"one {name}\n"


def the_program_is_named(tree: Tree) -> Iterator[bool]:
    """`fshell --version` tells the sums, and whether the program is the released one."""
    with_tools(tree)
    tree.run()
    path = tree.path("crates/fshell/out/fshell")
    with open(path, "rb") as file:
        own = hashlib.sha256(file.read()).hexdigest()
    ran = tree.call(tree.path("bin/fshell"), "--version")
    yield ran.stdout.splitlines()[1:] == [f"program {own} {path}", "this program isn't the released one"]
    tree.call(tree.path("bin/release"))
    lines = tree.call(tree.path("bin/fshell"), "--version").stdout.splitlines()
    yield lines[1] == f"program {own} {path}" and lines[2].startswith("kit ") and lines[3].startswith("sources ")


def refusals_are_explained(tree: Tree) -> Iterator[bool]:
    with_documents(tree)
    ran = tree.call(tree.path("bin/fshell"), "--explain", "66")
    yield ran.returncode == 0 and ran.stdout == "66 PredicateNowhere: a predicate is typable in no node's scope\n"
    with open(tree.path("crates/fq_core/specs/Code.antt")) as file:
        codes = re.findall(r"\((\d+), codes \"(\w+)\"\)", file.read())
    yield len(codes) > 50
    for number, name in codes:
        said = tree.call(tree.path("bin/fshell"), "--explain", number).stdout
        yield said.startswith(f"{number} {name}: ") and said.count("\n") == 1 and "`QUERY.md`;" not in said
    for number in ("1", "99", "066", "", "6 6", "a"):
        ran = tree.call(tree.path("bin/fshell"), "--explain", number)
        yield ran.returncode == 2 and ran.stdout == "" and ran.stderr.startswith("fshell: no refusal has the code ")
    yield tree.calls() == []


def answers_of_the_launcher_on_a_full_device(tree: Tree) -> Iterator[bool]:
    with_tools(tree)
    for words, due in ((["--help"], 2), (["--explain", "66"], 8)):
        with open("/dev/full", "wb") as full:
            ended = subprocess.run([tree.path("bin/fshell"), *words], stdout=full, stderr=subprocess.DEVNULL)
            yield ended.returncode == due


CASES = [
    help_needs_no_program,
    words_are_dispatched,
    the_program_is_named,
    refusals_are_explained,
    answers_of_the_launcher_on_a_full_device,
]
