"""Whether the Python of python/fshell_tools/, python/tests/ and what is typed of bench/ says what it is for: pydocstyle's first rules, by the trees
of the files alone.

Each module, and each class, function and method without `_` before its name, has a docstring with a sentence that says more than
the name does. One that raises an error of its own names it, or says `failure` of a Failure; one that gives a number says of
what, or in which unit. Cases of tests, which take a folder or a tree alone and yield what is right, have their names for that.
"""

import ast
import glob
import os
import re
from collections.abc import Iterator

from tests import environment
from tests.text_files import text_of

UNITS = re.compile(
    r"number|how many|count|status|seconds?|bytes?|percent|column|line|bit|width|moves|place|least|greatest|value",
    re.IGNORECASE,
)
LITTLE = set(  # words that say nothing by themselves
    "a an the of is it its that this what which one in on at by for to and or as with has have are all each there here be from"
    " them those they such where whose".split()
)
REPEATS = "its docstring repeats its name"
# what of bench/ is typed: the scripts that generation's figures come from, and what they share
BENCH = [
    os.path.join("bench", name)
    for name in (
        "answers.py examples.py harness.py programs.py search_files.py shapes.py tables.py turned.py users.py "
        "decided goal_pairs orders peers undecided"
    ).split()
]


def is_case(node: ast.AST) -> bool:
    """Whether a definition is a case of tests: it takes a folder or a tree of files, and yields what is right."""
    if not isinstance(node, ast.FunctionDef) or [one.arg for one in node.args.args] not in (["folder"], ["tree"]):
        return False
    return any(isinstance(one, (ast.Yield, ast.YieldFrom)) for one in ast.walk(node))


def raised(node: ast.FunctionDef) -> set[str]:
    """The errors that a function raises by their names, without those of functions within it."""
    names, waiting = set[str](), list[ast.AST](node.body)
    while waiting:
        one = waiting.pop()
        if isinstance(one, ast.Raise) and one.exc:
            names.add(ast.unparse(one.exc.func if isinstance(one.exc, ast.Call) else one.exc).split(".")[-1])
        if not isinstance(one, (ast.FunctionDef, ast.Lambda)):
            waiting += ast.iter_child_nodes(one)
    return {name for name in names if name[:1].isupper()}


def repeats(name: str, said: str) -> bool:
    """Whether a docstring has fewer than two words that aren't in the name: `An index of a page.` of `index_of_page`."""
    own = {part.lower()[:5] for part in re.findall(r"[A-Z]?[a-z0-9]+", name)}
    words = {word[:5] for word in re.findall(r"[a-z0-9']+", said.lower()) if word not in LITTLE}
    return len(words - own) < 2


def faults_of(node: ast.Module | ast.ClassDef | ast.FunctionDef, name: str) -> Iterator[str]:
    """A line for each fault of a definition and of those within it."""
    said = ast.get_docstring(node) or ""
    if not said and not is_case(node):
        yield f"{name} has no docstring"
    elif said and "." not in said:
        yield f"{name}: its docstring has no sentence"
    elif said and repeats(name.split(":")[-1].split(".")[-1], said):
        yield f"{name}: {REPEATS}"
    if isinstance(node, ast.FunctionDef):
        missing = {one for one in raised(node) if one not in said and not (one == "Failure" and "failure" in said)}
        yield from (f"{name}: its docstring doesn't name {one}" for one in sorted(missing) if not is_case(node))
        if node.returns and ast.unparse(node.returns) in ("int", "float") and said and not UNITS.search(said):
            yield f"{name}: its docstring doesn't say what its number is of"
        return
    for inner in node.body:
        if isinstance(inner, (ast.ClassDef, ast.FunctionDef)) and not inner.name.startswith("_"):
            yield from faults_of(
                inner, f"{name}:{inner.name}" if isinstance(node, ast.Module) else f"{name}.{inner.name}"
            )


def wrong() -> list[str]:
    """A line for each fault of the files of python/fshell_tools/ and python/tests/, and of those of bench/ that are typed."""
    found = list[str]()
    for pattern in ("python/**/*.py", *BENCH):
        for path in sorted(glob.glob(pattern, root_dir=environment.ROOT, recursive=True)):
            found += faults_of(ast.parse(text_of(os.path.join(environment.ROOT, path))), path)
    return found
