"""Completion for bash, zsh and fish, made of docs/COMMANDS.md for the program and of each tool's own words (argument_parsers.py).

    fshell completion bash    the script for bash; zsh and fish alike
"""

import argparse
import os
import re

from fshell_tools import cli, commands
from fshell_tools.core import argument_parsers, program
from fshell_tools.core.reports import ENDS
from fshell_tools.user_help.manual_pages import OPTIONS, rows

FOLDERS = ("DIR", "FOLDER")
FILES = ("FILE", "SOURCE", "OUT", "SOURCES")
FIRST = "--help --version --explain help"
BASH = """# completion of FShell for bash
_fshell() {{
  local word=${{COMP_WORDS[COMP_CWORD]}} before=${{COMP_WORDS[COMP_CWORD - 1]}} command=${{COMP_WORDS[1]}} options= kind=files
  if [ "$COMP_CWORD" -eq 1 ]; then
    mapfile -t COMPREPLY < <(compgen -W "{commands}" -- "$word")
    return
  fi
  case $command in
{options}
  esac
  case "$command $before" in
{values}
  esac
  case $kind,$word in
  files,-*) mapfile -t COMPREPLY < <(compgen -W "$options" -- "$word") ;;
  files,*) mapfile -t COMPREPLY < <(compgen -f -- "$word") ;;
  folders,*) mapfile -t COMPREPLY < <(compgen -d -- "$word") ;;
  *) mapfile -t COMPREPLY < <(compgen -W "${{kind#words}}" -- "$word") ;;
  esac
}}
complete -o filenames -F _fshell fshell
"""
ZSH = """#compdef fshell
# completion of FShell for zsh, by that for bash
autoload -U +X bashcompinit && bashcompinit
{bash}"""


def program_commands(commands: str) -> dict[str, list[tuple[str, str]]]:
    """The commands of the program, each with its options and the words behind these."""
    table = [cells for cells in rows(commands) if len(cells) == 3 and re.fullmatch(r"`[a-z-]+`", cells[0])]
    return {cells[0].strip("`"): OPTIONS.findall(cells[1]) for cells in table}


def kind_of(option: argparse.Action) -> str:
    """What stands behind an option: files, folders, words that are named, or what can't be completed."""
    if option.choices is not None:
        return "words" + " ".join(map(str, option.choices))
    value = argument_parsers.value_of(option)
    return "folders" if value in FOLDERS else "files" if value in FILES else "words"


def rows_of(tool: str, parser: argparse.ArgumentParser) -> tuple[str, dict[str, str]]:
    """The options of a tool or a command of it in one text, and what stands behind each that takes a value."""
    options = argument_parsers.options_of(parser)
    names = " ".join(name for option in options for name in option.option_strings)
    kinds = {
        f"{tool} {name}": kind_of(option) for option in options if option.nargs != 0 for name in option.option_strings
    }
    return names, kinds


Words = dict[str, str]


def words_of_all(page: str) -> tuple[Words, Words]:
    """The options of each command in one text, and what is behind each option that takes a value, by `COMMAND OPTION`. `page` is
    docs/COMMANDS.md."""
    options: Words = {}
    values: Words = {"help help": "words" + " ".join(commands.ALL)}
    for command, takes in program_commands(page).items():
        options[command] = " ".join(name for name, _ in takes)
        values |= {
            f"{command} {name}": "words" + (" ".join(ENDS) if name == "--ends" else "")
            for name, value in takes
            if value
        }
    for name in commands.TOOLS:
        options[name], more = rows_of(name, cli.of_tool(name))
        values |= more
    return options, values


def bash(page: str) -> str:
    """What bash sources: one function that completes each word."""
    options, values = words_of_all(page)
    return BASH.format(
        commands=f"{' '.join(commands.ALL)} {FIRST}",
        options="\n".join(f"  {name}) options='{text}' ;;" for name, text in options.items()),
        values="\n".join(f"  '{key}') kind='{kind}' ;;" for key, kind in values.items() if kind != "files"),
    )


def zsh(page: str) -> str:
    """The script for zsh, which runs that for bash."""
    return ZSH.format(bash=bash(page))


def fish(page: str) -> str:
    """What fish sources: a line for each command and for each option."""
    options, values = words_of_all(page)
    lines = ["# completion of FShell for fish"]
    for name, command in commands.ALL.items():
        lines.append(f"complete -c fshell -n __fish_use_subcommand -f -a {name} -d {quoted(command.summary)}")
    for name, text in options.items():
        for option in text.split():
            if option.startswith("--"):
                kind = values.get(f"{name} {option}")
                takes = "" if kind is None else " -r" if not kind.startswith("words") else f" -x -a {quoted(kind[5:])}"
                lines.append(f"complete -c fshell -n '__fish_seen_subcommand_from {name}' -l {option[2:]}{takes}")
    return "\n".join(lines) + "\n"


def quoted(text: str) -> str:
    """A text as one word of fish."""
    return "'" + text.replace("\\", "\\\\").replace("'", "\\'") + "'"


SHELLS = {"bash": bash, "zsh": zsh, "fish": fish}


def parser_of_words() -> argument_parsers.Parser:
    """What reads the words of the command."""
    parser = argument_parsers.parser("completion", __doc__, "the script is written")
    parser.add_argument("shell", choices=list(SHELLS), help="the shell")
    return parser


def main() -> int:
    """Writes the script for a shell to standard output; the status."""
    given = parser_of_words().parse_args()
    page = program.read(os.path.join(cli.documents(), "COMMANDS.md")).decode()
    print(SHELLS[given.shell](page), end="")
    return program.DONE
