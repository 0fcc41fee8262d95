"""The command `fshell`: a tool's name runs the tool, and a command of the proved program becomes the program.

    fshell --help             all commands, by what they are for
    fshell help COMMAND       the words of one
    fshell --version          the program, the kit that proved it, and its sources, each by its sum

A first word that is no command is refused with the names that are near. In a clone bin/fshell starts the program without Python,
and calls this module for the rest.
"""

import difflib
import gc
import hashlib
import importlib
import os
import sys

from fshell_tools import commands
from fshell_tools.core import argument_parsers, program
from fshell_tools.core.argument_parsers import Parser
from fshell_tools.core.program import Failure

# the tools that manual pages and completion are made for: what a prefix installs others with isn't among them
TOOLS = {name: one.module for name, one in commands.TOOLS.items() if name not in ("install", "package", "completion")}
# what other scripts call
SCRIPTS = {"where": "fshell_tools.repository.where", "hint": "fshell_tools.user_help.hints"}
WIDTH = 14


def of_tool(name: str) -> Parser:
    """What reads the words of a tool."""
    command = commands.TOOLS[name]
    found: Parser = importlib.import_module(command.module).parser_of_words()
    if command.inner:
        inner = argument_parsers.commands_of(found)[name]
        assert isinstance(inner, Parser)
        inner.statuses = found.statuses
        return inner
    return found


def run(words: list[str]) -> int:
    """The status of the tool, or of the script, that the first word names."""
    name = words[0]
    command = commands.TOOLS.get(name)
    sys.argv = ["fshell", *words] if command and command.inner else words
    if name == "adapt":
        gc.disable()  # (trees of sources stay to the end: looking for what is free among them takes a sixth of the time)
    module = command.module if command else SCRIPTS[name]
    return program.ended(name, lambda: int(importlib.import_module(module).main()))


def start(words: list[str]) -> int:
    """Becomes the proved program with these words; the status, where it can't be started, is 2."""
    path = program.program()
    if words[0] not in commands.ALL and words[0] != "--explain":
        print(f"fshell: {words[0]} is no command{near(words[0])}", file=sys.stderr, flush=True)
    os.execvp(path, [path, *words])


# ---- help


def help_text() -> str:
    """What --help prints: all commands, by what they are for."""
    lines = ["FShell tests C functions by coverage queries. Its core is proved.", "", "usage: fshell COMMAND WORD.."]
    for purpose, group in commands.PURPOSES.items():
        lines += ["", f"{purpose}:"]
        for one in group:
            lines.append(f"  {one.name:{WIDTH}}{one.summary}{'' if one.module else ' *'}")
    lines += [
        "",
        "* answered by the proved program; the others are tools around it, which are tested.",
        "fshell help COMMAND has the words of a command, fshell --explain CODE the meaning of a refusal.",
    ]
    return "\n".join(lines) + "\n"


def documents() -> str:
    """The folder with the documents, in a clone or an installation; nothing where there is none."""
    folders = (os.path.join(program.ROOT, "docs"), os.path.join(program.PACKAGE, "released", "docs"))
    return next((folder for folder in folders if os.path.isfile(os.path.join(folder, "COMMANDS.md"))), "")


def help_of(name: str) -> str:
    """The words of a command. Raises Failure where there is no such command."""
    if name not in commands.ALL:
        raise Failure(f"{name} is no command{near(name)}")
    if name in commands.TOOLS:
        return of_tool(name).format_help()
    from fshell_tools.user_help import manual_pages

    page = os.path.join(documents(), "COMMANDS.md")
    rows = manual_pages.rows(program.read(page).decode())
    takes = next((cells[1] for cells in rows if len(cells) == 3 and cells[0] == f"`{name}`"), "")
    about = f"usage: fshell {name} {takes.replace('`', '')}\n\n{commands.ALL[name].summary}\n"
    wanted = {one.split()[0] for one in takes.split("`") if one.startswith("--")}
    options = [cells for cells in rows if len(cells) == 4 and cells[0].strip("`") in wanted]
    told = [
        f"  {cells[0].strip('`'):{WIDTH}}{cells[3].replace('`', '')}{of_range(cells[1], cells[2])}" for cells in options
    ]
    return about + "".join(f"{line}\n" for line in ["", *told] if options) + f"\nExamples: {page}\n"


def of_range(values: str, default: str) -> str:
    """What an option's help says of its values."""
    return f" ({values.replace('`', '')}; default {default.replace('`', '')})" if values else ""


def near(name: str) -> str:
    """The commands whose names are near to a word, in words."""
    close = difflib.get_close_matches(name.lower(), commands.ALL, 3, 0.6)
    return f"; near: {', '.join(close)}" if close else "; fshell --help lists them"


# ---- version


def sum_of(path: str) -> str:
    """The SHA-256 sum of a file."""
    return hashlib.sha256(program.read(path)).hexdigest()


def released(name: str) -> str:
    """A text of the release, in a clone or an installed package; nothing where there is none."""
    for folder in (os.path.join(program.ROOT, "release"), os.path.join(program.PACKAGE, "released")):
        path = os.path.join(folder, name)
        if os.path.isfile(path):
            return program.read(path).decode()
    return ""


def version_text() -> str:
    """The version of the tools, and the sums of the program and of its sources as the release has them."""
    path = program.program()
    own = sum_of(path)
    is_released = released("fshell.sha256").split(" ")[0] == own
    lines = [f"fshell {version()}", f"program {own} {path}"]
    if is_released:
        sources = [line.split(" ")[0] for line in released("SOURCES.sha256").splitlines() if not line.startswith("#")]
        lines += [f"kit {released('KIT').strip()}", *(f"sources {one}" for one in sources)]
    else:
        lines.append("this program isn't the released one")
    return "\n".join(lines) + "\n"


def version() -> str:
    """The number that pyproject.toml has, or that was installed."""
    import importlib.metadata
    import tomllib

    settings = os.path.join(program.PYTHON, "pyproject.toml")
    if os.path.isfile(settings):
        return str(tomllib.loads(program.read(settings).decode())["project"]["version"])
    try:
        return importlib.metadata.version("fshell-tools")
    except importlib.metadata.PackageNotFoundError:
        return "(installed without a version)"


# ---- the command


def answer(words: list[str]) -> int:
    """Prints what --help, help or --version asks for; the status: 0."""
    if words == ["--version"]:
        text = version_text()
    elif len(words) == 2 and words[0] == "help":
        text = help_of(words[1])
    else:
        text = help_text()
    print(text, end="")
    return program.DONE


def main() -> int:
    """Runs a tool, or the program, or answers itself; its status."""
    words = sys.argv[1:]
    if words in ([], ["--help"], ["-h"], ["help"], ["--version"]) or (words[0] == "help" and len(words) == 2):
        return program.ended("fshell", lambda: answer(words))
    if words[0] in commands.TOOLS or words[0] in SCRIPTS:
        return run(words)
    return program.ended("fshell", lambda: start(words))
