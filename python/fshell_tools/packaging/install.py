"""fshell install: puts the program, the tools, their manual pages and completion for bash, zsh and fish under a folder.

PREFIX/bin gets `fshell`, which needs PREFIX/lib/fshell. A file of others is replaced only with --force, and --uninstall takes back
what was put there. --check says which of the things that tools need are there.
"""

import importlib.util
import os
import shutil
import subprocess
import sys
from collections.abc import Iterator

from fshell_tools import cli
from fshell_tools.campaign.main import has_parallel
from fshell_tools.core import argument_parsers, program
from fshell_tools.core.program import ROOT, Failure
from fshell_tools.packaging import placing
from fshell_tools.packaging.placing import Item
from fshell_tools.user_help import completion, manual_pages

# what fshell --help and fshell --explain answer from, beside the documents
ANSWERED_FROM = ("bin/help.awk", "bin/refusal.awk", "crates/fq_core/specs/Code.antt", "README.md")
COMPLETIONS = {
    "bash": "share/bash-completion/completions/fshell",
    "zsh": "share/zsh/site-functions/_fshell",
    "fish": "share/fish/vendor_completions.d/fshell.fish",
}
PROGRAM = """#!/bin/sh
# Prints the path of FShell's program.
printf '%s\\n' "$(dirname -- "$(dirname -- "$(readlink -f -- "$0")")")/program"
"""


def needs() -> list[tuple[str, bool, str, str]]:
    """What the tools need: its name, whether it is there, Debian's package, and for what."""
    return [
        ("Python 3.11", sys.version_info >= (3, 11), "python3", "all tools"),
        ("GNU parallel", has_parallel(), "parallel", "campaign"),
        ("jinja2", importlib.util.find_spec("jinja2") is not None, "python3-jinja2", "page"),
        ("dot", shutil.which("dot") is not None, "graphviz", "the pictures of page"),
        ("pycparser", importlib.util.find_spec("pycparser") is not None, "python3-pycparser", "adapt"),
        ("genhtml", shutil.which("genhtml") is not None, "lcov", "looking at what lcov writes"),
        (
            "a C compiler",
            any(map(shutil.which, ("cc", "gcc", "clang"))),
            "gcc",
            "adapt, and compiling what harness writes",
        ),
    ]


def check() -> int:
    """Says what is there. The exit status is 1 where something is missing."""
    for name, is_there, package, purpose in needs():
        print(
            f"{'there  ' if is_there else 'missing'}  {name}, for {purpose}"
            + ("" if is_there else f" (Debian: apt-get install {package})")
        )
    return program.DONE if all(is_there for _, is_there, *_ in needs()) else program.OPEN


def text_of(*names: str) -> str:
    """The text of a file of the repository, by the names of its folders."""
    return program.read(os.path.join(ROOT, *names)).decode()


def put(text: str, path: str, is_program: bool = False) -> None:
    """Puts a text into its place."""
    program.write_whole(path, text)
    if is_program:
        os.chmod(path, 0o755)


def copied(source: str, path: str) -> Item:
    """What a file becomes that is copied, with its mode. Raises Failure where it can't be read."""
    return Item(path, program.read(source), is_program=os.access(source, os.X_OK))


def tree(source: str, to: str, endings: tuple[str, ...]) -> Iterator[Item]:
    """What the files of a folder, and of those in it, become whose names end so."""
    for at, _, names in sorted(os.walk(source)):
        folder = os.path.normpath(os.path.join(to, os.path.relpath(at, source)))
        for name in sorted(names):
            if name.endswith(endings):
                yield copied(os.path.join(at, name), os.path.join(folder, name))


def built() -> str:
    """The path of the program that is installed. Raises Failure where it isn't built."""
    if os.environ.get("FSHELL"):
        return program.program()
    found = subprocess.run([os.path.join(ROOT, "bin", "program")], capture_output=True, text=True, check=False)
    if found.returncode:
        raise Failure("there is no program: " + (found.stderr.strip().splitlines() or [""])[-1])
    return found.stdout.removesuffix("\n")


def items() -> Iterator[Item]:
    """All that is put below a prefix, the program first. Raises Failure where it can't be made."""
    commands = text_of("docs", "COMMANDS.md")
    yield Item("lib/fshell/program", program.read(built()), is_program=True)
    yield Item("lib/fshell/bin/program", PROGRAM.encode(), is_program=True)
    for name in ANSWERED_FROM:
        yield copied(os.path.join(ROOT, name), f"lib/fshell/{name}")
    yield copied(os.path.join(ROOT, "bin", "fshell"), "lib/fshell/bin/fshell")
    yield Item("bin/fshell", target="../lib/fshell/bin/fshell")
    for name in ("__main__.py", "pyproject.toml"):
        yield copied(os.path.join(program.PYTHON, name), f"lib/fshell/python/{name}")
    yield from tree(program.PACKAGE, "lib/fshell/python/fshell_tools", (".py", ".html", ".css", ".c", ".h"))
    documents = list(tree(os.path.join(ROOT, "docs"), "lib/fshell/docs", (".md",)))
    yield from documents
    # (what is under share may be left out of a machine, and the program's help is made of the documents)
    for name in sorted({one.path.split("/")[3] for one in documents}):
        yield Item(f"share/doc/fshell/{name}", target=f"../../../lib/fshell/docs/{name}")
    for name, page in manual(commands).items():
        yield Item(f"share/man/man1/{name}.1", page.encode())
    for shell, path in COMPLETIONS.items():
        yield Item(path, completion.SHELLS[shell](commands).encode())


def manual(commands: str) -> dict[str, str]:
    """The manual pages by their names; `commands` is the text of docs/COMMANDS.md."""
    return manual_pages.command_pages(commands) | manual_pages.tool_pages(text_of("docs", "TOOLS.md"))


def install(prefix: str, force: bool = False, is_listed: bool = True) -> int:
    """Installs all, and gives the number of manual pages. Raises Failure where something of others stands in the place of one."""
    found = list(items())
    placing.place(prefix, found, force, is_listed)
    return sum(item.path.startswith("share/man/") for item in found)


def parser_of_words() -> argument_parsers.Parser:
    """What reads the words of the command."""
    done = "all is put there, is taken back, or is there"
    missing = "something is missing that tools need (--check), or stays (--uninstall)"
    parser = argument_parsers.parser("install", __doc__, done, missing)
    parser.add_argument("prefix", nargs="?", metavar="PREFIX", help="such as /usr/local or ~/.local")
    parser.add_argument("--force", action="store_true", help="replaces files there that it didn't put there")
    parser.add_argument(
        "--uninstall", action="store_true", help="takes back what it put there; what was changed since stays"
    )
    parser.add_argument("--check", action="store_true", help="says which of the things that tools need are there")
    return parser


def taken_back(prefix: str) -> int:
    """Takes back what was installed; the status: 1 where files stay that were changed since, which are told."""
    left = placing.uninstall(prefix)
    for path in left:
        print(f"it stays, since it was changed: {path}")
    print(f"{prefix}: what was put there is taken back")
    return program.OPEN if left else program.DONE


def main() -> int:
    """Installs into a prefix, or says what is there, and answers the exit status, as the module says."""
    parser = parser_of_words()
    given = parser.parse_args()
    if given.check:
        return check()
    if not given.prefix:
        parser.error("PREFIX or --check")
    if given.uninstall:
        return taken_back(given.prefix)
    count = install(given.prefix, given.force)
    print(
        f"{given.prefix}: the program, {len(cli.TOOLS)} tools, {count} manual pages, and completion for bash, zsh and fish"
    )
    return program.DONE
