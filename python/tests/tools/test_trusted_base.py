"""The cases of python/fshell_tools/repository/trusted_base.py: over a small repository whose counts are taken by hand, and the row that docs/THEOREM.md shows."""

import os
import shutil
import subprocess
import sys
from collections.abc import Iterator

from tests import environment
from tests.tools import SECONDS, put

TOOL = os.path.join("python", "fshell_tools", "repository", "trusted_base.py")
SMALL = {
    "python/fshell_tools/__init__.py": "",
    "python/fshell_tools/repository/__init__.py": "",
    "crates/low/specs/Words.antt": """use Rattle.std.specs.Prelude.{ℕ, List}

-- how long a word may be
abbrev pub most : ℕ
most = 7 -- letters

abbrev pub unused : ℕ
unused = most

pub data Form : Type 0 where
  short : Form
  long : ℕ → Form

abbrev pub form_of : ℕ → Form
form_of n = long n
""",
    "crates/low/src/kinds.rt": "// a kind\npub enum Kind {\n    Word(Size),\n    Blank,\n}\n\npub struct Size {\n    bytes: u32,\n}\n",
    "crates/high/specs/Top.antt": """use Rattle.low.specs.Words.{most, form_of as formed}
use Rattle.low.specs.Words as words
use Rattle.low.specs.declared.kinds.Kind.{Kind}

abbrev pub alone : ℕ
alone = 1

-- most is said in a comment alone
abbrev pub commented : ℕ
commented = 2

abbrev pub direct : ℕ
direct = most

abbrev pub twice : ℕ
twice = direct + most

abbrev pub by_form : ℕ → Form
by_form n = formed n

abbrev pub by_module : ℕ
by_module = words.unused

abbrev pub of_type : Kind → ℕ
of_type k = 1

pub record Holder : Type 0 where
  pub most : ℕ

abbrev pub of_field : Holder → ℕ
of_field h = h.most
""",
}
# what each definition of Top rests on, with its lines that have text and no comment
DUE = {
    "alone": ["alone 2"],
    "commented": ["commented 2"],
    "direct": ["direct 2", "most 2"],
    "twice": ["direct 2", "most 2", "twice 2"],
    "by_form": ["Form 3", "by_form 2", "form_of 2"],
    "by_module": ["by_module 2", "most 2", "unused 2"],
    "of_type": ["Kind 4", "Size 3", "of_type 2"],
}
ASK = """import sys
from fshell_tools.repository import trusted_base as believed
for name in sys.argv[1:]:
    print(sorted(f"{one.name} {one.lines}" for one in believed.rests_on([believed.resolved("high.specs.Top", name)])))
"""


def what_definitions_rest_on(folder: str) -> Iterator[bool]:
    put(folder, SMALL)
    shutil.copy(os.path.join(environment.ROOT, TOOL), os.path.join(folder, TOOL))
    ended = subprocess.run(
        [sys.executable, "-c", ASK, *DUE],
        cwd=os.path.join(folder, "python"),
        capture_output=True,
        text=True,
        timeout=SECONDS,
    )
    got = ended.stdout.splitlines()
    yield ended.returncode == 0 and len(got) == len(DUE)
    for line, due in zip(got, DUE.values()):
        yield line == repr(due)


def a_field_of_a_record_is_no_use_of_its_name(folder: str) -> Iterator[bool]:
    put(folder, SMALL)
    shutil.copy(os.path.join(environment.ROOT, TOOL), os.path.join(folder, TOOL))
    ended = subprocess.run(
        [sys.executable, "-c", ASK, "of_field"],
        cwd=os.path.join(folder, "python"),
        capture_output=True,
        text=True,
        timeout=SECONDS,
    )
    yield ended.stdout == "['Holder 2', 'of_field 2']\n"


def told(*words: str) -> subprocess.CompletedProcess[str]:
    """How python/fshell_tools/repository/trusted_base.py ends over this repository."""
    path = os.path.join(environment.ROOT, "python", "fshell_tools", "repository", "trusted_base.py")
    return subprocess.run([path, *words], stdin=subprocess.DEVNULL, capture_output=True, text=True, timeout=SECONDS)


def each_row_has_what_its_clause_names(folder: str) -> Iterator[bool]:
    """The definitions of a run: among them the states and the first state, and none of the formulas of goals."""
    ended = told("--of", "what a run is")
    yield ended.returncode == 0
    yield all(name in ended.stdout for name in ("IsRun", "c_meaning", "cfa"))
    yield "goal_formula" not in ended.stdout


def a_row_that_isnt_there_is_refused(folder: str) -> Iterator[bool]:
    ended = told("--of", "nothing")
    yield ended.returncode == 2 and ended.stdout == "" and "invalid choice" in ended.stderr


def the_theorem_has_the_table(folder: str) -> Iterator[bool]:
    ended = told()
    with open(os.path.join(environment.ROOT, "docs", "THEOREM.md"), encoding="utf-8") as file:
        yield ended.returncode == 0 and ended.stdout in file.read()


TRIED = [
    ((), case)
    for case in (
        what_definitions_rest_on,
        a_field_of_a_record_is_no_use_of_its_name,
        each_row_has_what_its_clause_names,
        a_row_that_isnt_there_is_refused,
        the_theorem_has_the_table,
    )
]
