"""The page's picture of the automaton: one graph of all functions, in which calls lead from function to function.

Where it has too many edges for one picture it is the graph of the calls, and functions have pictures of their own.
"""

import html
import re
import shutil
from collections.abc import Iterator

from fshell_tools.core import processes
from fshell_tools.core.graph import Edge
from fshell_tools.core.verdicts import Verdict
from fshell_tools.coverage.page.data import Page

LARGEST, MOST = 400, 60
COLOURS = {
    Verdict.COVERED: "#1a7f37",
    Verdict.MISSED: "#cf222e",
    Verdict.UNDECIDED: "#8a5a00",
    Verdict.REFUTED: "#57606a",
    Verdict.RETURNING: "#57606a",
    Verdict.FAILS: "#cf222e",
    Verdict.OUTSIDE: "#57606a",
    Verdict.UNREACHABLE: "#24292f",
}
HEAD = 'digraph { node [shape=circle fontsize=10 width=0.3 fixedsize=true]; edge [fontsize=9 fontname="monospace"]; rankdir=TB;'
CALL = 'style=dashed color="#0550ae" fontcolor="#0550ae" constraint=false'


def quoted(text: str) -> str:
    """A text within quotation marks, as graphviz reads it."""
    return '"' + text.replace("\\", "\\\\").replace('"', '\\"') + '"'


def svg(text: str) -> str:
    """The picture of a graph, whose text graphviz reads, as SVG; or why there is none, as a paragraph of HTML."""
    if not shutil.which("dot"):
        return "<p>There is no picture, since graphviz isn't there (Debian: graphviz).</p>"
    drawn = processes.run(["dot", "-Tsvg"], input=text, capture_output=True, text=True, check=False)
    found = re.search(r"<svg.*</svg>", drawn.stdout, re.DOTALL)
    return found[0] if found else f"<p>{html.escape(drawn.stderr[:200])}</p>"


class Drawn:
    """The rows of a graph in graphviz's language; edges that are goals have their verdict's colour."""

    def __init__(self, page: Page) -> None:
        self.page = page
        self.of_function: dict[str, list[Edge]] = {}
        for edge in page.graph.edges:
            self.of_function.setdefault(page.graph.owner(edge), []).append(edge)
        self.verdict = {goal["l"][0]: goal["t"] for goal in page.goals if len(goal["l"]) == 1}

    def edge(self, edge: Edge) -> str:
        """The row of an edge within its function, with a name for clicks where it is a goal."""
        faces = self.page.faces
        text = f"e{edge.number} {faces.deed(edge) or faces.statement(edge)}"[:60]
        known = self.verdict.get(f"e{edge.number}")
        colour = COLOURS[known] if known else "#000000"
        named = f' id="g-e{edge.number}" class="goal"' if known else ""
        return f'{edge.source} -> {edge.target} [label={quoted(text)} color="{colour}" fontcolor="{colour}"{named}];'

    def function(self, name: str) -> Iterator[str]:
        """The rows of a function: its edges, and of a call one dotted over it, to where the function goes on."""
        for edge in self.edges(name):
            if edge.operation == "return":
                call = self.page.graph.edges[edge.number - 1]
                label = quoted(f"e{call.number} calls {self.page.faces.name(call.name)}"[:60])
                yield f'{call.source} -> {edge.target} [label={label} style=dotted color="#57606a" fontcolor="#57606a"];'
            elif edge.operation != "call":
                yield self.edge(edge)

    def edges(self, name: str) -> list[Edge]:
        """The edges of a function, calls and returns among them, in the automaton's order; none of a name that isn't
        there."""
        return self.of_function.get(name, [])

    def calls(self, names: list[str]) -> list[Edge]:
        """The edges of calls from one of these functions to one of them, in the automaton's order."""
        graph = self.page.graph
        return [
            edge for edge in graph.edges if edge.operation == "call" and {graph.owner(edge), edge.name} <= set(names)
        ]

    def joined(self, names: list[str]) -> str:
        """The graph of functions, each in a box, with a dashed edge from where one is called to its entry."""
        rows = [HEAD]
        for number, name in enumerate(names):
            rows += [
                f'subgraph cluster_{number} {{ label={quoted(self.page.faces.name(name))}; color="#d0d7de"; fontname="monospace";'
            ]
            rows += [*self.function(name), "}"]
        for edge in self.calls(names):
            target = self.page.graph.function(edge.name).entry
            rows.append(f'{edge.source} -> {target} [label={quoted(f"e{edge.number} calls")} {CALL}];')
        return "\n".join([*rows, "}"])

    def of_calls(self, names: list[str]) -> str:
        """The graph in which a function is one box, with its percentage, and leads to those that it calls."""
        rows = ['digraph { node [shape=box fontname="monospace" fontsize=10]; rankdir=LR;']
        for name in names:
            share = self.page.percentage(self.page.tally(name)) if name in self.page.functions else "–"
            home = f' URL={quoted("#" + self.page.home(name))}' if self.page.home(name) else ""
            rows.append(f"{quoted(name)} [label={quoted(self.page.faces.name(name) + ' ' + share)}{home}];")
        pairs = dict.fromkeys((self.page.graph.owner(edge), edge.name) for edge in self.calls(names))
        return "\n".join([*rows, *(f"{quoted(one)} -> {quoted(other)};" for one, other in pairs), "}"])


def functions_of(page: Page) -> list[str]:
    """The functions that are drawn: those with goals, and those that they call or that call them, in the sources'
    order."""
    used = {name for name in page.functions if name != "(no place)"}
    graph = page.graph
    for edge in graph.edges:
        if edge.operation == "call" and (graph.owner(edge) in used or edge.name in page.functions):
            used |= {graph.owner(edge), edge.name}
    return [one.name for one in graph.functions if one.name in used]


def graphs_of(page: Page) -> dict[str, str]:
    """The texts of the pictures, by their titles: one of all functions, up to 400 edges; else that of the calls, up to
    400 functions, and one of each of the 60 functions of which the least is covered."""
    drawn, names = Drawn(page), functions_of(page)
    if sum(len(drawn.edges(name)) for name in names) <= LARGEST:
        title = "the automaton" + (
            f" of {page.faces.name(names[0])}" if len(names) == 1 else f": {len(names)} functions, calls dashed"
        )
        return {title: drawn.joined(names)} if names else {}
    found = {f"the calls of {len(names)} functions": drawn.of_calls(names)} if len(names) <= LARGEST else {}
    # (of many functions those of which the least is covered)
    own = [name for name in names if name in page.functions and len(drawn.edges(name)) <= LARGEST]
    chosen = sorted(own, key=lambda name: page.tally(name).counts[Verdict.COVERED] / page.tally(name).goals)[:MOST]
    for name in own:
        if name in chosen:
            found[f"the automaton of {page.faces.name(name)}"] = "\n".join([HEAD, *drawn.function(name), "}"])
    return found
