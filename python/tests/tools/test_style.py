"""Layout and types of the Python of python/fshell_tools/, python/tests/ and what is typed of bench/ (docstrings.py lists it), by Debian's black, mypy
and pyflakes, and its docstrings, by docstrings.py. Scripts, those of python/tests/models/gcc/ among them, are asked of pyflakes alone.
"""

import ast
import glob
import os
import subprocess
import sys
from collections.abc import Iterator, Sequence

from tests import environment
from tests.documents import docstrings

RULES = os.path.join(environment.TOOLS, "pyproject.toml")
BENCH = os.path.join(environment.ROOT, "bench")
CHECKED = tuple(os.path.join("python", name) for name in ("fshell_tools", "tests", "__main__.py", "wheel_backend.py"))
ROW = '''"""A small text with faults."""
def bare(): pass
def _own(): pass
def case(folder): yield True
def helper(folder): pass
class Open:
    """A class with a method."""
    def shut(self): pass
def raises():
    """Ends in an error that callers see."""
    raise Fault("so")
def told():
    """Raises Fault, which callers see."""
    raise Fault("so")
def many() -> int:
    """What stands there while nobody looks."""
def rows_of_table():
    """The rows of a table."""
'''
FAULTS = [
    "a:bare has no docstring", "a:helper has no docstring", "a:Open.shut has no docstring", "a:raises: its docstring doesn't name Fault",
    "a:many: its docstring doesn't say what its number is of", "a:rows_of_table: its docstring repeats its name",
]  # fmt: skip


def passes(folder: str, *words: str, modules: Sequence[str] = (environment.TOOLS,)) -> bool:
    """Whether a checker finds nothing; what it finds is printed. Modules are looked for in these folders, and its own files go to a
    folder of the case."""
    own = {
        **os.environ,
        "MYPYPATH": os.pathsep.join(modules),
        "MYPY_CACHE_DIR": os.path.join(folder, "mypy"),
        "BLACK_CACHE_DIR": os.path.join(folder, "black"),
    }
    ended = subprocess.run(words, cwd=environment.ROOT, env=own, capture_output=True, text=True, check=False)
    if ended.returncode:
        print(f"{words[0]}: {ended.stdout}{ended.stderr}", end="", flush=True)
    return ended.returncode == 0


def types_are_strict(folder: str) -> Iterator[bool]:
    strict = (
        "mypy",
        "--strict",
        "--python-executable",
        sys.executable,
        "--config-file",
        RULES,
    )  # (whose packages it reads)
    yield passes(folder, *strict, *CHECKED)
    yield passes(folder, *strict, "--scripts-are-modules", *docstrings.BENCH, modules=[BENCH])


def layout_is_black(folder: str) -> Iterator[bool]:
    yield passes(folder, "black", "--check", "-q", "--config", RULES, *CHECKED, *docstrings.BENCH)


def nothing_is_unused_or_undefined(folder: str) -> Iterator[bool]:
    scripts = [
        path for path in glob.glob(os.path.join(environment.ROOT, "bin", "*")) if first_line(path).endswith("python3")
    ]
    yield passes(folder, "pyflakes3", *CHECKED, *scripts, *docstrings.BENCH)


def what_it_is_for_is_said(folder: str) -> Iterator[bool]:
    """Each docstring that is missing, or doesn't name an error, is printed; so are faults that are put into a small text."""
    wrong = docstrings.wrong()
    print(*wrong, sep="\n", end="\n" if wrong else "", flush=True)
    yield wrong == []
    tree = ast.parse(ROW)
    yield list(docstrings.faults_of(tree, "a")) == FAULTS


def first_line(path: str) -> str:
    """What stands on the first line of a file, as the name of what runs a script."""
    with open(path, encoding="utf-8") as file:
        return file.readline().strip()


TRIED = [((), what_it_is_for_is_said), (("mypy", "jinja2"), types_are_strict), (("black",), layout_is_black), (("pyflakes3",), nothing_is_unused_or_undefined)]  # fmt: skip
