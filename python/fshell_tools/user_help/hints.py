"""Prints behind a refusal what was wanted and which command helps, in one line (bin/fshell calls it).

    python3 python hint LINE WORD..     the line of the refusal, and the words of the program

The line has the text of `fshell --explain` for the code, and what these words and these sources have to do with it: the word that
isn't one, names that are near, the signature of the entry, the text at the place. A source outside of the profile is led on to
`fshell adapt` and `fshell init`.
"""

import difflib
import json
import os
import re
import shlex
import subprocess
import sys
from collections.abc import Iterator, Sequence
from dataclasses import dataclass, field

from fshell_tools import commands as table
from fshell_tools.core import declarations, program
from fshell_tools.core.declarations import Item
from fshell_tools.core.sources import Source
from fshell_tools.user_help import manual_pages

NUMBERS = {"--turns", "--frames", "--answers", "--budget", "--steps"}
OF_SOURCES = range(10, 40)  # the codes of sources that are refused
FILTERS = (
    "ID FILE LINE FUNC LABEL CALL ENTRY EXIT DEF USE BASICBLOCKENTRY CONDITIONEDGE CONDITIONGRAPH DECISIONEDGE STMTTYPE"
).split()


@dataclass
class Words:
    """The words of a command line by what they are asked for: positionals by their names in docs/COMMANDS.md."""

    command: str
    wanted: list[str]
    options: list[str]
    given: list[str] = field(default_factory=list)
    wrong: str = ""

    def named(self, name: str) -> list[str]:
        """The words that stand for a positional; SOURCE.. has all that are left."""
        if name not in self.wanted:
            return []
        at = self.wanted.index(name)
        return self.given[at:] if name == "SOURCE..." else self.given[at : at + 1]


def commands() -> dict[str, tuple[list[str], list[str]]]:
    """Each command with its positionals and its options, by the table of docs/COMMANDS.md."""
    text = program.read(os.path.join(program.ROOT, "docs", "COMMANDS.md")).decode()
    found = {}
    for cells in manual_pages.rows(text):
        if len(cells) == 3 and re.fullmatch(r"`[a-z-]+`", cells[0]):
            options = [name for name, _ in manual_pages.OPTIONS.findall(cells[1])]
            found[cells[0].strip("`")] = (cells[1].split("`")[0].split(), options)
    return found


def near(name: str, names: Sequence[str]) -> str:
    """The names that are near to one, in words."""
    lower = {one.lower(): one for one in names}
    close = [lower[one] for one in difflib.get_close_matches(name.lower(), list(lower), 3, 0.6)]
    return f"; near: {', '.join(close)}" if close else ""


def words_of(words: Sequence[str]) -> Words:
    """The words with what is wrong of them, if that is seen."""
    known = commands()
    if not words or words[0] not in known:
        wrong = f"`{words[0]}` is no command{near(words[0], list(table.ALL))}" if words else "no command is named"
        return Words(words[0] if words else "", [], [], wrong=f"{wrong}; fshell --help lists them")
    found = Words(words[0], *known[words[0]])
    waiting, seen, is_open = list(words[1:]), set(), True
    while waiting:
        word = waiting.pop(0)
        if not is_open or not word.startswith("-"):
            found.given.append(word)
        elif word == "--":
            is_open = False
        else:
            option, has_value, value = word.partition("=")
            if option not in found.options:
                found.wrong = found.wrong or f"`{option}` is no option of {words[0]}{near(option, found.options)}"
                continue
            found.wrong = found.wrong or (f"`{option}` stands twice" if option in seen else "")
            seen.add(option)
            if option != "--json":
                value = value if has_value else waiting.pop(0) if waiting else ""
                found.wrong = found.wrong or wrong_value(option, value)
    return found


def wrong_value(option: str, value: str) -> str:
    """Why the program refuses an option with a value, in words for the user, or nothing where it takes it."""
    if option in NUMBERS:
        least, greatest = program.RANGES[option[2:]]
        is_right = bool(re.fullmatch(r"[0-9]{1,10}", value)) and least <= int(value) <= greatest
        return "" if is_right else f"`{option} {value}`: {option} is from {least} to {greatest}"
    is_right = value in ("returned", "trapped", "any")
    return "" if is_right else f"`{option} {value}`: {option} is returned, trapped or any"


def usage(found: Words) -> Iterator[str]:
    """What is wrong where words ask for nothing."""
    if found.wrong:
        yield found.wrong
        return
    missing = [name for at, name in enumerate(found.wanted) if at >= len(found.given)]
    if missing:
        yield f"{missing[0].rstrip('.')} isn't there: fshell {found.command} {' '.join(found.wanted)}"
    elif len(found.given) > len(found.wanted) and "SOURCE..." not in found.wanted:
        yield f"`{found.given[len(found.wanted)]}` is one word too many: fshell {found.command} {' '.join(found.wanted)}"
    else:
        goal = (found.named("GOAL") or found.named("N") or [""])[0]
        yield f"`{goal}` is no number that {found.command} takes" if goal else f"fshell {found.command} {' '.join(found.wanted)}"


# ---- the sources


def functions(sources: Sequence[str]) -> dict[str, Item]:
    """The functions that are defined in sources, with the words of their heads."""
    found = {}
    for name in sources:
        for item in declarations.items(Source(name, program.read(name))):
            if item.has_body and declarations.function_name(item):
                found[declarations.function_name(item)] = item
    return found


def head(item: Item) -> str:
    """The head of a function as it is written."""
    text = " ".join(item.tokens)
    return re.sub(r" ?([(),\[\]]) ?", r"\1", text).replace(",", ", ")


def entry(found: Words) -> Iterator[str]:
    """What is known of the entry: its signature, or which functions there are."""
    name = (found.named("ENTRY") or [""])[0]
    known = functions(found.named("SOURCE..."))
    if name in known and "[" in known[name].tokens:
        yield f"it has an array parameter: {head(known[name])}; a function of your own that fills it may be the entry"
    elif name in known:
        yield f"it is {head(known[name])}"
    elif known:
        yield f"`{name}` isn't defined{near(name, list(known))}; defined: " + "; ".join(
            map(head, list(known.values())[:5])
        )


def at_column(found: Words, place: str) -> Iterator[str]:
    """The text of the query at a place."""
    query = (found.named("QUERY") or [""])[0].encode()
    column = re.fullmatch(r"query:(\d+)", place)
    if not column:
        return
    text = query[int(column[1]) - 1 :].decode(errors="replace")
    yield f"there stands `{' '.join(text.split())[:40]}`" if text else "there it ends"
    word = re.match(r"@(\w+)", text)
    if word and word[1].upper() not in FILTERS:
        yield f"`@{word[1]}` is no filter{near(word[1], FILTERS).replace(' ', ' @').replace('; @near: ', '; near: ')}"
    name = re.match(r"@(?:FUNC|ENTRY|EXIT|CALL)\(\s*(\w+)", text, re.IGNORECASE)
    known = list(functions(found.named("SOURCE..."))) if name else []
    if name and name[1] not in known:
        yield f"`{name[1]}` isn't defined{near(name[1], known)}"


def brackets(found: Words) -> Iterator[str]:
    """What of a query's brackets and quotation marks isn't closed."""
    query = re.sub(r"\{[^{}]*\}", "", (found.named("QUERY") or [""])[0])
    opened = query.count("(") - query.count(")")
    if opened:
        yield f"`{'(' if opened > 0 else ')'}` stands {abs(opened)} {'times' if abs(opened) > 1 else 'time'} too often"
    if query.count('"') % 2:
        yield "a quotation mark isn't closed"
    if not re.match(r"\s*(in|cover)\b", query, re.IGNORECASE):
        yield "a query begins with `cover`, or with `in FILTER cover`"


def predicates(found: Words) -> Iterator[str]:
    """The texts of a query's predicates."""
    texts = re.findall(r"\{[^{}]*\}", (found.named("QUERY") or [""])[0])
    if texts:
        yield f"the query has {', '.join(f'`{one}`' for one in dict.fromkeys(texts))}"


def input_at(found: Words, place: str) -> Iterator[str]:
    """How many numbers an input has that isn't as its entry wants it."""
    number = re.fullmatch(r"input (\d+)", place)
    if not number:
        return
    text = program.read((found.named("INPUTS") or [""])[0]).decode(errors="replace")
    try:
        values = json.loads(text) if text.lstrip().startswith("[") else [line.split() for line in text.splitlines()]
        one = values[int(number[1]) - 1]
        count = len(one.get("args", []) if isinstance(one, dict) else one)
    except (ValueError, TypeError, IndexError, RecursionError):
        return
    yield f"input {number[1]} has {count} argument{'' if count == 1 else 's'}"


def unread(place: str) -> Iterator[str]:
    """Why a file isn't read, and which are near."""
    try:
        program.read(place)
    except program.Failure as failure:
        folder, name = os.path.split(place)
        yield f"{failure}{near(name, os.listdir(folder or '.') if os.path.isdir(folder or '.') else [])}"


def at_line(found: Words, place: str) -> Iterator[str]:
    """The text of a source at a place."""
    for name in found.named("SOURCE..."):
        line = place.removeprefix(f"{name}:")
        if place.startswith(f"{name}:") and line.isdigit():
            yield f"there stands `{Source(name, program.read(name)).line_text(int(line))[:60]}`"
            return


def multiplying(found: Words, code: int, words: Sequence[str]) -> str:
    """Which command says what multiplies."""
    options = " ".join(re.findall(r"--(?:turns|frames|answers)[ =]\d+", " ".join(words)))
    sources, entry_of = " ".join(found.named("SOURCE...")), (found.named("ENTRY") or [""])[0]
    asked = f"fshell explain {code} {sources} --entry {entry_of} {options}".strip()
    return f"`{asked}` says which loops and calls multiply"


def led_on(found: Words) -> Iterator[str]:
    """The commands for sources that aren't in the profile."""
    sources = " ".join(map(shlex.quote, found.named("SOURCE...")))
    if sources:
        yield f"next: `fshell adapt {sources} -o adapted` translates C as it is written, `fshell init {sources}` tests a module"


def hints(line: str, words: Sequence[str]) -> Iterator[str]:
    """What is said of a refusal, in parts."""
    refused = re.fullmatch(r"error (\d+) \w+ ?(.*)", line)
    if not refused:
        return
    code, place = int(refused[1]), refused[2]
    said = subprocess.run([os.path.join(program.ROOT, "bin", "fshell"), "--explain", str(code)], capture_output=True, text=True,
                          check=False).stdout.strip()  # fmt: skip
    if said:
        yield said
    found = words_of(words)
    try:
        if code == 2:
            yield from usage(found)
        elif code == 7:
            yield from unread(place)
        elif code in (36, 50, 51, 52):
            yield from input_at(found, place)
            yield from entry(found)
        elif code == 61:
            yield from brackets(found)
        elif code == 65:
            yield from predicates(found)
        elif code in (80, 81):
            yield multiplying(found, code, words)
        elif 60 <= code <= 79:
            yield from at_column(found, place)
        else:
            yield from at_line(found, place)
            if code in OF_SOURCES:
                yield from led_on(found)
    except (program.Failure, IndexError):
        pass  # (a source that isn't read tells nothing)


def main() -> int:
    """Prints a line of hints, where there are some; the status is 0."""
    parts = list(hints(sys.argv[1], sys.argv[2:]))
    if parts:
        print("fshell: " + " ".join("; ".join(parts).split()))
    return program.DONE
