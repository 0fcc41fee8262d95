"""How tools are called, and how they end: each says by argparse which words it takes, and beside that what its statuses mean.

Help, manual pages and completion are all made of this.
"""

import argparse

FAILED = "it can't go on; standard error says why"


class Parser(argparse.ArgumentParser):
    """What reads the words of a tool, and says how the tool ends."""

    statuses: dict[int, str] = {}


def parser(name: str, about: str | None, done: str, is_open: str = "", **more: str) -> Parser:
    """What reads the words of a tool that ends with 0 (`done`), perhaps with 1 (`is_open`), and with 2 where it can't go on.
    `more` has statuses of its own: `status_3`."""
    statuses = {0: done} | ({1: is_open} if is_open else {}) | {2: FAILED}
    statuses |= {int(name.removeprefix("status_")): text for name, text in more.items()}
    epilog = "exit status:\n" + "".join(f"  {number}  {text}\n" for number, text in sorted(statuses.items()))
    made = Parser(
        prog=f"fshell {name}".rstrip(), description=about, epilog=epilog, formatter_class=argparse.RawTextHelpFormatter
    )
    made.statuses = dict(sorted(statuses.items()))
    return made


def takes_entry(of_tool: argparse.ArgumentParser, with_inputs: bool = False) -> None:
    """Has a tool take ENTRY, perhaps INPUTS, and SOURCE.., as most of the program's commands do."""
    of_tool.add_argument("entry", metavar="ENTRY", help="the function in which runs begin")
    if with_inputs:
        told = "a file of inputs, in any form that fshell inputs reads"
        of_tool.add_argument("inputs", metavar="INPUTS", help=told)
    of_tool.add_argument("sources", nargs="+", metavar="SOURCE", help="the sources, in their order")


def commands_of(tool: argparse.ArgumentParser) -> dict[str, argparse.ArgumentParser]:
    """The commands that a tool has as its first word, if it has any."""
    for action in tool._actions:
        if isinstance(action, argparse._SubParsersAction):
            return dict(action.choices)
    return {}


def helps_of(tool: argparse.ArgumentParser) -> dict[str, str]:
    """What is said in a line of each command that a tool has as its first word."""
    for action in tool._actions:
        if isinstance(action, argparse._SubParsersAction):
            return {one.dest: one.help or "" for one in action._choices_actions}
    return {}


def options_of(tool: argparse.ArgumentParser) -> list[argparse.Action]:
    """The options of a tool or of a command of it, in the order in which its help has them."""
    return [action for action in tool._actions if action.option_strings]


def value_of(option: argparse.Action) -> str:
    """The word that stands behind an option in its help, or nothing where none does."""
    if option.nargs == 0:
        return ""
    if isinstance(option.metavar, tuple):
        return " ".join(option.metavar)
    if option.metavar is None and option.choices is not None:
        return "{" + ",".join(map(str, option.choices)) + "}"
    return str(option.metavar or option.dest.upper())
