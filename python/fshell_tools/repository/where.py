"""bin/where: says in which rooms of the repository a word is at home.

WORD is a command, an option, a refusal by its name or its number, a filter of queries, a statement kind, a crate, a definition
or a function. First come the places where a document or a file speaks of the word alone, then files with definitions, types and
functions that have it in their names, the lowest crate first.
"""

import argparse
import glob
import os
import re
import sys
from collections.abc import Iterator
from dataclasses import dataclass, field

from fshell_tools.core.program import Failure

ROOT = os.path.abspath(os.path.join(os.path.dirname(__file__), "..", "..", ".."))
MOST = 25  # files, unless all are asked for
NAMED = re.compile(
    r"^\s*(?:(?:abbrev|unfoldable) pub|pub (?:record|data)|(?:pub(?:\(crate\))? )?(?:const )?(?:fn|struct|enum|trait)|(?:pub )?def|class) (\w+)"
    r"|^ {2,4}([A-Za-z]\w*)(?= : |,$| \{$|\()"
)  # fmt: skip
HUMPS = re.compile(r"[A-Z]+(?![a-z])|[A-Z]?[a-z]+|\d+")


@dataclass
class Rooms:
    """What was found of a word: places that speak of it alone, each with a text, and names that have it, by their files."""

    places: list[tuple[str, str]] = field(default_factory=list)
    names: dict[str, list[str]] = field(default_factory=dict)


def text_of(path: str) -> str:
    """The text of a file from the top of the repository."""
    with open(os.path.join(ROOT, path), encoding="utf-8") as file:
        return file.read()


def files(*patterns: str) -> list[str]:
    """The files of these patterns from the top, in order."""
    return [path for pattern in patterns for path in sorted(glob.glob(pattern, root_dir=ROOT, recursive=True))]


def folded(name: str) -> str:
    """A name's letters and digits, in small letters."""
    return re.sub(r"\W|_", "", name).lower()


def has(name: str, wanted: str) -> bool:
    """Whether a name is a word, or some of its parts that follow each other are."""
    parts = [part.lower() for part in HUMPS.findall(name)]
    return any(
        "".join(parts[first:last]) == wanted for first in range(len(parts)) for last in range(first + 1, len(parts) + 1)
    )


def refusals() -> dict[str, str]:
    """The name of each refusal's number."""
    return dict(re.findall(r'\((\d+), codes "(\w+)"\)', text_of("crates/fq_core/specs/Code.antt")))


def of_documents(word: str, wanted: str) -> Iterator[tuple[str, str]]:
    """Lines of documents that speak of a word alone: a heading, a row of a table or of a list that begins with names of which it
    is one, or a line of a grammar in which it stands between quotation marks."""
    quoted = re.escape(word)
    begins = re.compile(
        rf"(?:\| |- )(?:\d+ \| )?(?:`[^`|]*`, )*`?{quoted}(?:`|[({{, ]| \|)|\| {quoted} \||#+ (?:bin/)?{quoted}$"
        rf'|\w+ +=.* "{quoted}"'
    )
    for path in files("README.md", "docs/*.md", "python/tests/README.md"):
        for number, line in enumerate(text_of(path).splitlines(), 1):
            if begins.match(line) or (line.startswith("### ") and folded(line) == wanted):
                yield f"{path}:{number}", line.strip("#| -")[:100]


def of_names(wanted: str) -> Iterator[tuple[str, str]]:
    """Crates and files that are called after a word."""
    for path in files(
        "crates/*",
        "python/tests/*",
        "python/tests/*/*.py",
        "python/fshell_tools/*/*.py",
        "python/fshell_tools/coverage/page/*.py",
        "bin/*",
        "crates/*/specs/*.antt",
        "crates/*/src/*.rt",
    ):
        name = os.path.basename(path).partition(".")[0]
        exact = folded(name) == wanted
        is_crate = path.count("/") == 1 and path.startswith("crates/")
        if exact or (is_crate and has(name, wanted)):
            yield path, "a crate" if is_crate else "a file of that name"


def order() -> list[str]:
    """The crates, the lowest first."""
    return [line.partition(":")[0] for line in text_of("crates.txt").splitlines() if re.match(r"\w+:", line)]


def of_file(text: str, wanted: str, said: re.Pattern[str]) -> Iterator[str]:
    """The names of a file's definitions, types and functions that have a word, and of those in whose lines it is said."""
    last = ""
    for line in text.splitlines():
        named = NAMED.match(line)
        last = (named[1] or last) if named else last
        name = (named[1] or named[2]) if named else ""
        if name and has(name, wanted):
            yield name
        elif last and not line.startswith(("use ", "ghost use ")) and said.search(re.split(r"--|//", line)[0]):
            yield last


def of_definitions(wanted: str, number: str) -> dict[str, list[str]]:
    """The names of definitions, types and functions that have a word, or that say it as a form or a refusal's number, by files."""
    forms = "|".join(re.escape(form) for form in ([number] if number else [f'"{wanted.upper()}"']))
    said = re.compile(rf'(?<![\w."])(?:{forms})(?![\w"])|(?<=\.)(?i:{wanted})\b(?=[\s,)]|$)')
    found: dict[str, list[str]] = {}
    for crate in order():
        if not crate.endswith("_tests"):
            for path in files(f"crates/{crate}/specs/*.antt", f"crates/{crate}/src/*.rt"):
                if names := list(dict.fromkeys(of_file(text_of(path), wanted, said))):
                    found[path] = names
    return found


def rooms_of(word: str) -> Rooms:
    """All that is found of a word."""
    codes = refusals()
    number = word if word in codes else next((code for code, name in codes.items() if name == word), "")
    wanted = folded(codes.get(word, word))
    places = list(of_documents(word, wanted))
    if number:
        places += of_documents(codes[number] if word == number else number, wanted)
    return Rooms(places + list(of_names(wanted)), of_definitions(wanted, number))


def main() -> int:
    """Prints the rooms of a word; status 1 where none is found. Raises Failure for a word without letters and
    digits."""
    parser = argparse.ArgumentParser(
        prog="where", description="Says in which rooms of the repository a word is at home."
    )
    parser.add_argument(
        "word", metavar="WORD", help="a command, option, refusal, filter, statement kind, crate, definition or function"
    )
    parser.add_argument("--all", action="store_true", help=f"all files, where there are more than {MOST}")
    options = [word for word in sys.argv[1:] if word in ("--all", "-h", "--help")]
    given = parser.parse_args([*options, "--", *(word for word in sys.argv[1:] if word not in options)])
    wanted = folded(given.word)
    if not wanted:
        raise Failure(f"{given.word!r} has no letter and no digit")
    rooms = rooms_of(given.word)
    for place, text in rooms.places:
        print(f"{place}  {text}")
    shown = list(rooms.names.items())[: None if given.all else MOST]
    for path, names in shown:
        print(f"{path}  {', '.join(names[:6])}{' ..' if len(names) > 6 else ''}")
    if len(shown) < len(rooms.names):
        print(f"and {len(rooms.names) - len(shown)} files more; --all shows them")
    return 0 if rooms.places or rooms.names else 1
