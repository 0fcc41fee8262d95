"""What the documents show: each example is run as it stands there, and each path that they name must be there.

An example is an indented block that begins with a line `FOLDER$ fshell WORD..`, FOLDER being one of examples/, or with
`$ bin/fshell WORD..`, which is run at the top of the repository. What follows, up to the next such line, is what standard
output gets, or it goes to a file where the line ends with `> NAME`; the status is 0, and standard error gets nothing.

An example of a tool is a block that begins with a line `FOLDER$ ../../bin/fshell NAME WORD..`. Each of its lines of that form is run
by a shell in a copy of the examples, one behind the other, up to the document's end; the status is 0, and what follows is what
standard output gets, where something follows. A line `..` stands for any lines. What needs a program that isn't there is left
out.

A heading that a document refers to, as `PAGE`, "HEADING" or as a link, is there.

A path is a text between backquotes that begins as one from the top of the repository does, or the target of a link. In
docs/PROVED.md those that begin with specs/ or src/ are of the crate whose section it is. The counts in python/tests/README.md must be
those that case_counts.py makes, and those in docs/THEOREM.md those of python/fshell_tools/repository/trusted_base.py; docs/DECISIONS.md
must have the form and the index of decisions.py and docs/PROVED.md the form and the names of proved.py; the sums in
bench/RESULTS.md must be right (figures.py), and CHANGELOG.md has releases (releases.py).
"""

import functools
import glob
import os
import re
import shlex
import shutil
import subprocess
import tempfile
from collections.abc import Callable, Iterator

from fshell_tools import commands
from tests import environment
from tests import tools as tool_tests
from tests.documents import test_crates
from tests.parallel_groups import Outcome
from tests.text_files import anchor, text_of

PLACES = ("README.md", "CHANGELOG.md", "docs/*.md", "python/tests/*.md", "bench/*.md")
FOLDERS = "bench|bin|crates|docs|examples|python"


def texts() -> Iterator[tuple[str, str]]:
    """The documents from the top, with what they hold."""
    for place in PLACES:
        for path in sorted(glob.glob(os.path.join(environment.ROOT, place))):
            yield os.path.relpath(path, environment.ROOT), text_of(path)


def begun(line: str) -> tuple[str, list[str]] | None:
    """The folder and the words of a line that begins an example, if it does."""
    found = re.fullmatch(r"(examples/\S+)\$ fshell (.*)", line) or re.fullmatch(r"()\$ bin/fshell (.*)", line)
    words = shlex.split(found.group(2)) if found else []
    return (found.group(1), words) if found and words[0] not in commands.TOOLS else None


def examples(text: str) -> Iterator[list[tuple[str, list[str], str]]]:
    """Each block of a document that begins an example: its runs, each with its folder, its words and the expected text."""
    for block in re.findall(r"(?:^ {4}.*\n)+", text, re.MULTILINE):
        lines = [line[4:] for line in block.splitlines()]
        runs = list[tuple[str, list[str], list[str]]]()
        for line in lines if begun(lines[0]) else []:
            if first := begun(line):
                runs.append((*first, []))
            else:
                runs[-1][2].append(line + "\n")
        if runs:
            yield [(folder, words, "".join(expected)) for folder, words, expected in runs]


def outcome(folder: str, words: list[str], kept: str) -> str | tuple[int, str, str]:
    """What the program answers to an example's words, where the files of earlier runs are kept in a folder."""
    target = os.path.join(kept, words[-1]) if words[-2:-1] == [">"] else None
    words = [
        os.path.join(kept, word) if word in os.listdir(kept) else word for word in (words[:-2] if target else words)
    ]
    try:
        status, text, err = environment.ended([environment.LAUNCHER, *words], os.path.join(environment.ROOT, folder))
    except subprocess.TimeoutExpired:
        return f"no end within {environment.SECONDS} seconds"
    if target:
        with open(target, "w", encoding="ascii") as file:
            file.write(text)
    return status, "" if target else text, err


def tool_examples(text: str) -> Iterator[tuple[str, str, list[str]]]:
    """The lines of a document that run tools, each with its folder, what the shell runs, and the lines that are due."""
    for block in re.findall(r"(?:^ {4}.*\n)+", text, re.MULTILINE):
        runs = list[tuple[str, str, list[str]]]()
        for line in (line[4:] for line in block.splitlines()):
            found = re.fullmatch(r"(examples/\S+)\$ (\.\./\.\./bin/.*)", line)
            if found:
                runs.append((found[1], found[2], []))
            elif runs:
                runs[-1][2].append(line)
            else:
                break
        yield from runs


def matches(due: list[str], got: str) -> bool:
    """Whether a text has the lines that are due, `..` being any lines."""
    pattern = "".join("(?:.*\n)*" if line == ".." else re.escape(line) + "\n" for line in due)
    return not due or re.fullmatch(pattern, got) is not None


def can_run(line: str) -> bool:
    """Whether what an example's line needs is there."""
    adapts = " adapt " in line or "adapted/" in line
    return (" campaign " not in line or shutil.which("parallel") is not None) and (
        not adapts or all(map(tool_tests.is_there, ("pycparser", "gcc")))
    )


def wrong_tool_examples(text: str) -> Outcome:
    """How many examples of tools a document has, and a line for each that isn't as it says."""
    runs = [run for run in tool_examples(text) if can_run(run[1])]
    wrong = []
    with tempfile.TemporaryDirectory() as kept:
        if runs:
            shutil.copytree(os.path.join(environment.ROOT, "examples"), os.path.join(kept, "examples"))
            os.symlink(os.path.join(environment.ROOT, "bin"), os.path.join(kept, "bin"))
        for folder, line, due in runs:
            try:
                status, said, err = environment.ended(["sh", "-c", line], os.path.join(kept, folder))
            except subprocess.TimeoutExpired:
                wrong.append(f"{line}: no end within {environment.SECONDS} seconds")
                continue
            if status or not matches(due, said):
                wrong.append(f"{line}: {status}, {said!r}, {err[-200:]!r}"[:1500])
    return len(runs), wrong


def paths(document: str, text: str) -> Iterator[str]:
    """The paths that a document names, from the top."""
    for path in re.findall(rf"`((?:{FOLDERS})/[\w./-]+)`", text):
        yield path
    words = re.sub(r"^ {4}.*$|`[^`\n]*`", "", text, flags=re.MULTILINE)  # (no code is a link)
    for path in re.findall(r"\]\(([\w./-]+)(?:#[\w-]+)?\)", words):
        yield os.path.normpath(os.path.join(os.path.dirname(document), path))


def paths_of_crates(text: str) -> Iterator[str]:
    """The paths that the sections of docs/PROVED.md name of their crates, from the top."""
    for crate, section in test_crates.sections(text):
        for path in re.findall(r"`((?:specs|src)/[\w./-]+)`", section):
            yield f"crates/{crate}/{path}"


def headings(path: str) -> set[str]:
    """The headings of a page, from the top of the repository; none where there is no such page."""
    whole = os.path.join(environment.ROOT, path)
    return set(re.findall(r"^#+ (.*)$", text_of(whole), re.MULTILINE)) if os.path.exists(whole) else set()


def references(document: str, text: str) -> Iterator[tuple[str, str]]:
    """The headings that a document refers to, each with its page: `PAGE`, "HEADING", and ("HEADING") of its own."""
    for path, heading in re.findall(r'`([\w/]+\.md)`, "([^"]+)"', text):
        is_whole = os.path.exists(os.path.join(environment.ROOT, path))
        yield path if is_whole else os.path.join(os.path.dirname(document), path), heading
    yield from ((document, heading) for heading in re.findall(r'\("([A-Z][^"]+)"\)', text))


def wrong_headings(document: str, text: str) -> list[str]:
    """A line for each heading that a document refers to and that isn't there, and for each link to no heading of its own."""
    own = set(re.findall(r"^#+ (.*)$", text, re.MULTILINE))
    wrong = [
        f'{document}: there is no "{heading}" in {path}'
        for path, heading in references(document, text)
        if heading not in (own if path == document else headings(path))
    ]
    anchors = set(map(anchor, own))
    return wrong + [
        f"{document}: there is no #{one}" for one in re.findall(r"\]\(#([^)]*)\)", text) if one not in anchors
    ]


def is_built(path: str) -> bool:
    """Whether a path is in a folder that rt makes."""
    return "/out/" in path


def wrong_examples(document: str, text: str) -> Outcome:
    """How many examples of the program a document has, and a line for each that isn't as it says."""
    count, wrong = 0, list[str]()
    for runs in examples(text):
        with tempfile.TemporaryDirectory() as kept:
            for folder, words, expected in runs:
                count += 1
                got = outcome(folder, words, kept)
                if got != (0, expected, ""):
                    wrong.append(f"{document}: {folder}: {' '.join(words)}: {got!r}"[:600])
    return count, wrong


def wrong_paths(document: str, text: str) -> Outcome:
    """How many paths and headings a document names, and a line for each that isn't there."""
    named = set(paths(document, text)) | (set(paths_of_crates(text)) if document == "docs/PROVED.md" else set())
    there = {path for path in named if is_built(path) or os.path.exists(os.path.join(environment.ROOT, path))}
    lost = [f"{document}: there is no {path}" for path in sorted(named - there)]
    return len(named) + len(list(references(document, text))), lost + wrong_headings(document, text)


def of_counts() -> Outcome:
    """How many made parts of pages were looked at, and a line for each that is another one."""
    from tests.documents import case_counts  # which reads this module
    from tests.documents import decisions, figures, proved, readme_lists, releases

    from fshell_tools.repository import trusted_base

    wrong = case_counts.wrong() + decisions.wrong() + figures.wrong() + readme_lists.wrong()
    wrong += proved.wrong() + releases.wrong() + trusted_base.wrong()
    return max(1, len(wrong)), wrong


def of_tools(document: str, text: str) -> Outcome:
    """How many examples of tools a document has, and a line for each that isn't as it says."""
    count, wrong = wrong_tool_examples(text)
    return count, [f"{document}: {line}" for line in wrong]


def parts() -> list[Callable[[], Outcome]]:
    """The examples of the program, those of tools and the paths of each document, and the order of crates."""
    return [of_counts] + [
        functools.partial(of_part, document, text)
        for document, text in texts()
        for of_part in (wrong_examples, of_tools, wrong_paths)
    ]
