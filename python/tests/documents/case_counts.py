"""How many cases each group of bin/test has, as the table of python/tests/README.md tells it.

    python3 -m tests.documents.case_counts            prints the table (in python/)
    python3 -m tests.documents.case_counts --write    puts it into python/tests/README.md

bin/test fails where the table there is another one.
"""

import os
import re
import sys
from collections.abc import Iterator

from tests import environment
from tests import tools as tool_tests
from tests.documents import test_documents
from tests.program import (
    test_all_inputs,
    test_ast_outcomes,
    test_certificates,
    test_commands,
    test_corpus,
    test_events_of_runs,
    test_launcher,
    test_remeasured_inputs,
    test_replays,
)
from tests.program.command_cases import every
from tests.text_files import put, text_of
from tests.tools.every import TOOLS

HOME = os.path.join(environment.HERE, "README.md")
TABLE = re.compile(
    r"(?<=<!-- made by python/tests/documents/case_counts\.py -->\n\n).*?(?=\n<!-- to here -->)", re.DOTALL
)


def rows() -> Iterator[tuple[str, str]]:
    """Each group with how many cases it has."""
    runs = sum(len(test_commands.instances(case)) for case in every.CASES)
    yield "cases", f"{runs:,} runs of {len(every.CASES)} cases"
    texts = [text for _, text in test_documents.texts()]
    of_program = sum(len(runs) for text in texts for runs in test_documents.examples(text))
    of_tools = sum(len(list(test_documents.tool_examples(text))) for text in texts)
    yield "documents", f"{of_program} examples of the program and {of_tools} of tools"
    yield "certificates", f"{len(test_certificates.GOALS)} goals and {len(test_certificates.BOUNDS)} bounds, with some fifty changed certificates each"
    yield "replays", f"{len(list(test_replays.measurements()))} measurements"
    bounds = sum(len(program.bounds) for program in test_all_inputs.TABLE)
    queries = sum(len(program.bounds) * len(program.queries) for program in test_all_inputs.TABLE)
    yield "all_inputs", f"{bounds} bounds and all goals of {queries} queries within bounds, of {len(test_all_inputs.TABLE)} programs"
    yield "ast_outcomes", f"{len(list(test_ast_outcomes.sources()))} sources"
    yield "events_of_runs", f"{len(list(test_events_of_runs.sources()))} sources"
    yield "remeasured_inputs", f"{len(test_remeasured_inputs.TABLE)} queries with {len(test_remeasured_inputs.BUDGETS)} budgets each, and the cipher"
    yield "corpus", f"{test_corpus.COUNT + 1} sources"
    yield "launcher", f"{len(test_launcher.CASES)} cases"
    for name, module in TOOLS.items():
        yield name, f"{len(list(tool_tests.cases(module)))} cases"


def table() -> str:
    """The table of python/tests/README.md, as it is due."""
    return "| Group | How many |\n|---|---|\n" + "".join(f"| {group} | {number} |\n" for group, number in rows())


def wrong() -> list[str]:
    """A line where the table of python/tests/README.md isn't the one that is due."""
    found = TABLE.search(text_of(HOME))
    is_due = found is not None and found[0] == table()
    return [] if is_due else ["python/tests/README.md: its counts are others; bin/test --write puts them right"]


def write() -> None:
    """Puts the table into its place."""
    put(HOME, TABLE.sub(lambda _: table(), text_of(HOME)))


if __name__ == "__main__":
    write() if sys.argv[1:] == ["--write"] else print(table(), end="")
