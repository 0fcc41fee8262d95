"""The cases of bin/where: over a small repository that each case makes, whose answers are written out by hand, and over this one."""

import os
import shutil
import subprocess
from collections.abc import Iterator

from tests import environment
from tests.tools import SECONDS, put

SMALL = {
    "README.md": "# Small\n\n| Command | Does |\n|---|---|\n| `count` | counts words |\n",
    "docs/COMMANDS.md": "# Commands\n\n## count\n\nIt counts.\n\n- `--most N` is the limit of count.\n",
    "docs/QUERY.md": 'kind = "IF" | "FOR"\n\n| `@FILE(name)`, `@LINE(n)` | edges there |\n',
    "docs/REFUSALS.md": "| 7 | `TooMany` | more words than the limit |\n",
    "python/tests/README.md": "",
    "crates.txt": "the crates\n\n# Ground\n\nwords:\ncounts: words\ncounts_tests: counts\n",
    "crates/fq_core/specs/Code.antt": '(7, codes "TooMany")\n(8, codes "TooFew")\n',
    "crates/words/specs/Words.antt": "abbrev pub first_word : Text\nfirst_word = text\nabbrev pub count_of : Text -> Count\ncount_of = 7\n",
    "crates/counts/src/counts.rt": "pub fn count(text: &[u8]) -> u32 {\n    most\n}\npub fn recount() {}\n",
    "crates/counts/src/limits.rt": "// count is said in a comment alone\npub fn limit() -> u32 {\n    fault(7)\n}\n",
    "crates/counts_tests/src/lib.rt": "pub fn count_of_tests() {}\n",
}


def asked(folder: str, *words: str) -> tuple[int, str, str]:
    """How bin/where ends in the small repository, with what it prints."""
    for name in ("where", "common.sh"):
        os.makedirs(os.path.join(folder, "bin"), exist_ok=True)
        shutil.copy(os.path.join(environment.ROOT, "bin", name), os.path.join(folder, "bin", name))
    python = os.path.join(folder, "python")
    shutil.copytree(
        os.path.join(environment.TOOLS, "fshell_tools"), os.path.join(python, "fshell_tools"), dirs_exist_ok=True
    )
    shutil.copy(os.path.join(environment.TOOLS, "__main__.py"), python)
    ended = subprocess.run([os.path.join(folder, "bin", "where"), *words], cwd=folder, stdin=subprocess.DEVNULL,
                           capture_output=True, text=True, timeout=SECONDS)  # fmt: skip
    return ended.returncode, ended.stdout, ended.stderr


def documents_come_first_then_files_the_lowest_crate_first(folder: str) -> Iterator[bool]:
    put(folder, SMALL)
    yield asked(folder, "count") == (
        0,
        "README.md:5  `count` | counts words\n"
        "docs/COMMANDS.md:3  count\n"
        "crates/words/specs/Words.antt  count_of\n"
        "crates/counts/src/counts.rt  count\n",
        "",
    )


def an_option_has_its_line(folder: str) -> Iterator[bool]:
    put(folder, SMALL)
    status, out, _ = asked(folder, "--most")
    yield (status, out) == (0, "docs/COMMANDS.md:7  `--most N` is the limit of count.\n")


def a_filter_that_stands_second_in_its_row_and_a_kind_of_a_grammar(folder: str) -> Iterator[bool]:
    put(folder, SMALL)
    for word in ("@FILE", "@LINE"):
        status, out, _ = asked(folder, word)
        yield (status, out) == (0, "docs/QUERY.md:3  `@FILE(name)`, `@LINE(n)` | edges there\n")
    for word in ("IF", "FOR"):
        status, out, _ = asked(folder, word)
        yield (status, out) == (0, 'docs/QUERY.md:1  kind = "IF" | "FOR"\n')


def a_refusal_by_name_and_by_number(folder: str) -> Iterator[bool]:
    put(folder, SMALL)
    rooms = (
        "docs/REFUSALS.md:1  7 | `TooMany` | more words than the limit\n",
        "crates/words/specs/Words.antt  count_of\n",
        "crates/counts/src/limits.rt  limit\n",
    )
    for word in ("7", "TooMany"):
        status, out, err = asked(folder, word)
        yield status == 0 and err == "" and all(room in out for room in rooms)


def a_crate_by_its_name(folder: str) -> Iterator[bool]:
    put(folder, SMALL)
    status, out, _ = asked(folder, "counts")
    yield status == 0 and out.splitlines()[0] == "crates/counts  a crate"


def what_is_nowhere_has_status_1(folder: str) -> Iterator[bool]:
    put(folder, SMALL)
    yield asked(folder, "nowhere") == (1, "", "")


def what_has_no_letter_is_refused_in_one_line(folder: str) -> Iterator[bool]:
    put(folder, SMALL)
    yield asked(folder, "--", "..")[0] == 2
    yield asked(folder, "..") == (2, "", "where: '..' has no letter and no digit\n")


def more_than_25_files_are_told_by_their_number(folder: str) -> Iterator[bool]:
    many = {f"crates/counts/src/part{number:02}.rt": f"pub fn pile_{number}() {{}}\n" for number in range(27)}
    put(folder, {**SMALL, **many})
    status, out, _ = asked(folder, "pile")
    yield status == 0 and out.count("\n") == 26
    yield out.endswith("and 2 files more; --all shows them\n")
    status, out, _ = asked(folder, "pile", "--all")
    yield status == 0 and out.count("\n") == 27 and "more" not in out


def this_repository(folder: str) -> Iterator[bool]:
    """Each word of the questions in docs/CHANGING.md leads to its document and to its crate."""
    for word, document, crate in (
        ("bounds", "docs/COMMANDS.md", "crates/command/"),
        ("@LINE", "docs/QUERY.md", "crates/filters/"),
        ("66", "docs/REFUSALS.md", "crates/predicates/"),
        ("FOR", "docs/QUERY.md", "crates/fq_core/"),
        ("--turns", "docs/COMMANDS.md", "crates/command_words/"),
    ):
        words = [os.path.join(environment.ROOT, "bin", "where"), word, "--all"]
        ended = subprocess.run(
            words, cwd=folder, stdin=subprocess.DEVNULL, capture_output=True, text=True, timeout=SECONDS
        )
        yield ended.returncode == 0 and document in ended.stdout
        yield crate in ended.stdout


TRIED = [
    ((), case)
    for case in (
        documents_come_first_then_files_the_lowest_crate_first,
        an_option_has_its_line,
        a_filter_that_stands_second_in_its_row_and_a_kind_of_a_grammar,
        a_refusal_by_name_and_by_number,
        a_crate_by_its_name,
        what_is_nowhere_has_status_1,
        what_has_no_letter_is_refused_in_one_line,
        more_than_25_files_are_told_by_their_number,
        this_repository,
    )
]
