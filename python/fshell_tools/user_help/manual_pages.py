"""Manual pages, made of docs/COMMANDS.md, of docs/TOOLS.md, and of what tools say of their own words (argument_parsers.py)."""

import argparse
import re
from collections.abc import Iterator

from fshell_tools import cli, commands
from fshell_tools.core import argument_parsers

OPTIONS = re.compile(r"`(--[a-z]+)(?: ([A-Z]+))?`")


def sections(text: str, level: str = "##") -> dict[str, str]:
    """The texts under the headings of a level, by heading."""
    parts = re.split(rf"^{level} (.+)$", text, flags=re.MULTILINE)
    return dict(zip(parts[1::2], parts[2::2]))


def rows(text: str) -> list[list[str]]:
    """The cells of the tables in a text, a row each, without the heads."""
    found: list[list[str]] = []
    for table in re.findall(r"(?:^\|.*\n)+", text, re.MULTILINE):
        lines = table.splitlines()[2:]
        found += [[cell.strip().replace("\\|", "|") for cell in re.split(r"(?<!\\)\|", line)[1:-1]] for line in lines]
    return found


# ---- roff


def escaped(text: str) -> str:
    """A text whose marks mean nothing to roff."""
    text = (
        text.replace("\\", "\\e").replace("-", "\\-").replace("'", "\\(aq").replace("^", "\\(ha").replace("~", "\\(ti")
    )
    return re.sub(r"^\.", "\\\\&.", text, flags=re.MULTILINE)


def words(text: str) -> str:
    """A paragraph: code between backquotes is bold, as is what stands between two stars."""
    parts = re.split(r"`([^`]*)`|\*\*([^*]*)\*\*", " ".join(text.split()))
    found = []
    for plain, code, bold in zip(parts[::3], [*parts[1::3], None], [*parts[2::3], None]):
        found.append(escaped(plain))
        if code is not None or bold is not None:
            found.append(f"\\fB{escaped(code if code is not None else bold or '')}\\fR")
    return "".join(found)


def block(text: str) -> Iterator[str]:
    """The lines of a block of a document."""
    lines = text.splitlines()
    if all(line.startswith("    ") for line in lines):
        yield from (".RS 4", ".EX", *(escaped(line[4:]) for line in lines), ".EE", ".RE")
    elif lines[0].startswith("|"):
        for cells in rows(text + "\n"):
            yield from (".TP", words(cells[0]), words("; ".join(cell for cell in cells[1:] if cell)) or "\\&")
    elif re.match(r"- |\d+\. ", lines[0]):
        for item in re.split(r"^(?:- |\d+\. )", text, flags=re.MULTILINE)[1:]:
            yield from (".IP \\(bu 2", words(item))
    elif lines[0].startswith("#"):
        yield from (f".SS {words(lines[0].lstrip('# '))}",)
    else:
        yield from (".PP", words(text))


def body(text: str) -> list[str]:
    """The lines of a text's blocks, which are parted by blank lines."""
    return [line for part in re.split(r"\n\s*\n", text.strip("\n")) if part.strip() for line in block(part)]


def page(name: str, what: str, synopsis: list[str], parts: dict[str, str]) -> str:
    """A manual page of section 1."""
    lines = [
        f'.TH "{escaped(name.upper())}" 1 "" "FShell" "FShell"',
        ".SH NAME",
        f"{escaped(name)} \\- {words(what)}",
        ".SH SYNOPSIS",
    ]
    for form in synopsis:
        lines += [
            ".nf",
            f"\\fB{escaped(name.replace('fshell-', 'fshell ', 1) if form.startswith(' ') else name)}\\fR {escaped(form.strip())}",
            ".fi",
        ]
    for heading, text in parts.items():
        lines += [f".SH {heading}", *body(text)]
    return "\n".join(lines) + "\n"


# ---- the pages


def command_pages(text: str) -> dict[str, str]:
    """The pages of the program and of each of its commands, by their names."""
    table = [cells for cells in rows(text) if len(cells) == 3 and re.fullmatch(r"`[a-z-]+`", cells[0])]
    options = [cells for cells in rows(text) if len(cells) == 4]
    about = text.split("## ", 1)[0].split("\n\n", 1)[1]
    statuses = "".join(f"| {cells[0]} | {cells[1]} |\n" for cells in rows(text) if re.fullmatch(r"\d+", cells[0]))
    statuses = "| Status | Meaning |\n|---|---|\n" + statuses
    found = {
        "fshell": page("fshell", "measures and makes test inputs for C by coverage queries", ["COMMAND WORD.."],
                       {"COMMANDS": about, "EXIT STATUS": statuses})
    }  # fmt: skip
    for cell, given, what in table:
        name = cell.strip("`")
        form = re.sub(r"`(--[a-z]+)(?: ([A-Z]+))?`", lambda one: f"[{one[1]}{' ' + one[2] if one[2] else ''}]", given)
        mine = "".join(
            f"| {row[0]} | {row[3]} (range {row[1] or 'none'}, default {row[2] or 'none'}) |\n"
            for row in options
            if row[0].strip("`") in given
        )
        parts = {"DESCRIPTION": next(part for heading, part in sections(text).items() if name in heading.split())}
        if mine:
            parts["OPTIONS"] = "| Option | Meaning |\n|---|---|\n" + mine
        parts["EXIT STATUS"] = statuses
        found[f"fshell-{name}"] = page(f"fshell-{name}", what, [f" {form}"], parts)
    return found


def rows_of(tool: argparse.ArgumentParser, is_option: bool) -> Iterator[str]:
    """A row for each option of a tool or a command of it, or for each other word."""
    for action in tool._actions:
        if bool(action.option_strings) != is_option or isinstance(action, argparse._SubParsersAction):
            continue
        value = argument_parsers.value_of(action)
        name = ", ".join(action.option_strings) or str(action.metavar or action.dest)
        yield f"| `{name}`{f' {value}' if is_option and value else ''} | {action.help or ''} |\n"


def table(lines: list[str]) -> str:
    """A table of two columns."""
    return "| Word | Meaning |\n|---|---|\n" + "".join(lines) if lines else ""


def parts_of(name: str, about: str) -> dict[str, str]:
    """The sections of a tool's page."""
    tool = cli.of_tool(name)
    parts = {"DESCRIPTION": about}
    arguments, options = list(rows_of(tool, False)), list(rows_of(tool, True))
    commands = argument_parsers.commands_of(tool)
    if commands:
        helps = argument_parsers.helps_of(tool)
        parts["COMMANDS"] = table([f"| `{one}` | {helps[one]} |\n" for one in commands])
    if arguments:
        parts["ARGUMENTS"] = table(arguments)
    parts["OPTIONS"] = table(options) + "".join(
        f"\n### Of {one}\n\n{table([*rows_of(its, False), *rows_of(its, True)])}" for one, its in commands.items()
    )
    parts["EXIT STATUS"] = table([f"| {number} | {text} |\n" for number, text in tool.statuses.items()])
    parts["ENVIRONMENT"] = table(["| `FSHELL` | the program that is run in place of the installed one |\n"])
    parts["SEE ALSO"] = "`fshell`(1); the documents in the folder `docs` beside the program\n"
    return parts


def tool_pages(tools: str) -> dict[str, str]:
    """The pages of the tools, by their names."""
    found = {}
    headings = {
        name: text for heading, text in sections(tools).items() for name in heading.removeprefix("fshell ").split(", ")
    }
    for name in cli.TOOLS:
        text = headings[name].strip("\n")
        head, _, rest = text.partition("\n\n")
        forms = re.sub(
            r"\n +(?=\[)",
            " ",
            "\n".join(line.strip() if line.strip().startswith("fshell ") else line for line in head.splitlines()),
        )
        named = [re.split(r"\s{3,}", line.strip())[0].split(" ", 2) for line in forms.splitlines()]
        synopsis = [" " + "".join(line[2:]) for line in named if line[1] == name]
        found[f"fshell-{name}"] = page(f"fshell-{name}", commands.TOOLS[name].summary, synopsis, parts_of(name, rest))
    return found
