"""Runs the acceptance tests, side by side (parallel_groups.py).

Its groups are the cases of command_cases/ (`cases`), those of launcher/, on the scripts of bin/ alone, the examples of the
documents, the sources of test_corpus.py, the certificates of test_certificates.py, the measurements that test_replays.py replays, the programs
of test_all_inputs.py, the sources of test_ast_outcomes.py and test_events_of_runs.py, the inputs of test_remeasured_inputs.py, the order of the crates
(test_crates.py), and the cases of each tool in tests/tools/. For each group a line is printed when its last part has ended: how many of its cases passed and failed, and the seconds that its
parts took, one behind the other. Before it stands a line for each case that failed, with what differs. The last line is
`N passed, M failed`; the status is 0 where none failed, also where all that was asked for is skipped, with a line for each thing
that isn't there.
"""

import argparse
import os
import sys
from collections.abc import Iterable

from tests import environment, parallel_groups
from tests import tools as tool_tests
from tests.documents import test_crates, test_documents
from tests.program import (
    test_all_inputs,
    test_ast_outcomes,
    test_certificates,
    test_commands,
    test_corpus,
    test_events_of_runs,
    test_launcher,
    test_remeasured_inputs,
    test_replays,
)
from tests.tools.every import TOOLS

# those with long parts first
GROUPS = {
    module.__name__.split(".")[-1].removeprefix("test_"): module
    for module in (
        test_all_inputs,
        test_launcher,
        test_certificates,
        test_corpus,
        test_documents,
        test_ast_outcomes,
        test_events_of_runs,
        test_replays,
        test_remeasured_inputs,
        test_crates,
    )
}
WITH_ALL = {"adapt"}  # whose cases are all tried, where what they need is there, also without --with-tools


def arguments() -> argparse.Namespace:
    """The words that it was called with; a wrong one ends it with status 2."""
    parser = argparse.ArgumentParser(description="Runs the acceptance tests.")
    parser.add_argument(
        "words",
        nargs="*",
        metavar="WORD",
        help=f"the cases whose name has it, or a group: tools, {', '.join([*GROUPS, *TOOLS, 'cases'])}",
    )
    parser.add_argument(
        "--with-tools", action="store_true", help="all cases of the tools, also those that need other programs"
    )
    parser.add_argument(
        "--jobs",
        type=int,
        default=len(os.sched_getaffinity(0)),
        metavar="N",
        help="how many parts at a time (default: as many as there are processors)",
    )
    return parser.parse_args()


def of_tools(names: Iterable[str], alone: bool) -> list[parallel_groups.Group]:
    """The groups of tools; alone, without the cases that need more than Python and the program."""
    return [
        tool_tests.group(name, module, alone and name not in WITH_ALL)
        for name, module in TOOLS.items()
        if name in names
    ]


def chosen(words: list[str]) -> list[parallel_groups.Group]:
    """The groups with these names, and the cases whose name has one of the words; all where there are no words."""
    tools = of_tools([name for name in TOOLS if not words or "tools" in words], alone=True)
    tools += of_tools([name for name in TOOLS if name in words and "tools" not in words], alone=False)
    groups = [
        parallel_groups.Group(name, module.parts()) for name, module in GROUPS.items() if not words or name in words
    ]
    named = test_commands.parts([] if "cases" in words else words)
    return [*tools[:2], *groups, *tools[2:], *([parallel_groups.Group("cases", named)] if named else [])]


def main() -> int:
    """Runs what is asked for; the status: 0 where nothing failed and something was tried."""
    given = arguments()
    groups = of_tools(TOOLS, alone=False) if given.with_tools else chosen(given.words)
    print(f"the program is {os.path.relpath(environment.program(), environment.ROOT)}", flush=True)
    count, failed = parallel_groups.run(groups, max(1, given.jobs))
    print(f"{count - len(failed)} passed, {len(failed)} failed")
    tried = count or any(group.notes for group in groups)
    return 1 if failed or not tried else 0


sys.exit(main())
