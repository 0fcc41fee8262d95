"""What the scripts of bin/ do around the program, on a small tree of its own where a script stands for rt (tree.py).

Each module has the cases of one thing; a case is a function of a fresh tree that yields whether each thing is right.
"""

import functools
import tempfile
from collections.abc import Callable, Iterator

from tests import parallel_groups
from tests.program.launcher import answers, checks, gates, releases, starts
from tests.program.launcher.tree import Tree

# those that take long first
CASES = [*gates.CASES, *checks.CASES, *releases.CASES, *starts.CASES, *answers.CASES]


def tried(case: Callable[[Tree], Iterator[bool]]) -> parallel_groups.Outcome:
    """One case, and a line where it fails."""
    with tempfile.TemporaryDirectory() as folder:
        wrong = [number for number, right in enumerate(case(Tree(folder)), 1) if not right]
    return 1, [f"launcher: {case.__name__}: wrong at {wrong}"] if wrong else []


def parts() -> list[parallel_groups.Part]:
    """A part for each case, which has a fresh tree of its own."""
    return [functools.partial(tried, case) for case in CASES]
