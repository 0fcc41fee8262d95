"""The names of criteria that stand for queries, as docs/CRITERIA.md has them, over the functions that an entry reaches."""

import difflib
from collections.abc import Sequence

from fshell_tools.core.graph import Graph

MCDC = "mcdc"
COVER = {
    "statements": "NODES(ID)",
    "steps": "EDGES(ID)",
    "basic-blocks": "@BASICBLOCKENTRY",
    "decisions": "@DECISIONEDGE",
    "conditions": "@CONDITIONEDGE",
    "returns": "@STMTTYPE(RETURN)",
}
NAMES = (*COVER, MCDC)


def is_query(text: str) -> bool:
    """Whether a text is a query (it begins with the word in or cover), and no criterion's name."""
    return text.split(maxsplit=1)[:1] in (["in"], ["cover"])


def fault(text: str) -> str:
    """What is wrong with a text that is to be a criterion's name, with the nearest name or all names; nothing of a name
    or of a query, which the program reads."""
    if text in NAMES or is_query(text):
        return ""
    near = difflib.get_close_matches(text, NAMES, 1)
    return f"{text} is no criterion and no query" + (f"; is {near[0]} meant?" if near else f"; {', '.join(NAMES)}")


def union(functions: Sequence[str]) -> str:
    """A filter that keeps these functions, at least one; its brackets are as few deep as they can be, since the program
    has a limit of depth."""
    if len(functions) == 1:
        return f"@FUNC({functions[0]})"
    half = len(functions) // 2
    return f"UNION({union(functions[:half])},{union(functions[half:])})"


def query(text: str, functions: Sequence[str], graph: Graph) -> str:
    """The query that a criterion's name stands for over these functions of an automaton; all of them need no `in`. A
    query stands for itself. KeyError of another text, and of mcdc, which is no query."""
    if is_query(text):
        return text
    scope = "" if len(functions) == len(graph.functions) else f"in {union(functions)} "
    return f"{scope}cover {COVER[text]}"
