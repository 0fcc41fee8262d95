"""fshell lcov: writes what the counted runs of inputs took as an lcov tracefile, for genhtml and for services that read one.

A line is one on which a step of a statement stands; it counts as often as the place of control on it that runs left most often.
A branch is a guard, so each part of a condition has two, and each label of a `switch`: the one where it holds, then the other.
With --refuted FILE, a report of `generate ENTRY "cover ID" SOURCE..`, a branch that is unreachable, and a line on which each step
is, is left out, with a note: refuted there, also for runs that don't return, where `bounds` says that no run leaves the report's
bounds. What runs take that don't return stays, with a note that names one. Where the bounds don't suffice the report is refused;
--bounds-are-enough takes it all the same, and stands as a comment in the tracefile.
"""

import argparse
import dataclasses
import os
import sys
from collections import Counter
from collections.abc import Iterator
from dataclasses import dataclass, field

from fshell_tools.bounds import other_ends, sufficiency
from fshell_tools.bounds.other_ends import Ending
from fshell_tools.core import argument_parsers, inputs, program, snapshots
from fshell_tools.core import graph as graphs
from fshell_tools.core.graph import Edge, Graph
from fshell_tools.core.program import Failure
from fshell_tools.core.reports import BOUNDS, ENDS, Goal, Report, Run
from fshell_tools.core.sources import Faces
from fshell_tools.core.verdicts import Verdict
from fshell_tools.coverage.explain import report_of

LOOPS = ("FOR", "WHILE", "DO")


class Coverage:
    """What runs took of an automaton."""

    def __init__(self, faces: Faces, entry: str, runs: list[Run], refuted: set[int]) -> None:
        self.faces, self.graph = faces, faces.graph
        graph = self.graph
        self.taken = Counter(edge for run in runs for edge in run.edges)
        self.entered: Counter[str] = Counter()
        for edge in graph.edges:
            if edge.operation == "call":
                self.entered[edge.name] += self.taken[edge.number]
        self.entered[entry] += len(runs)
        self.refuted = refuted
        self.excluded: list[str] = []

    def steps(self, file: str) -> Iterator[Edge]:
        """The edges of a file by which a statement on their line does something: no returns, whose calls stand at the same place,
        no guards of labels, and nothing by which a loop is only entered or gone round."""
        for edge in self.graph.edges:
            is_round = edge.operation == "skip" and edge.kind in LOOPS
            if edge.file == file and edge.operation != "return" and not is_round and not self.faces.is_label(edge):
                yield edge

    def lines(self, file: str) -> dict[int, int]:
        """How often runs came to each line of a file."""
        passed: dict[int, Counter[int]] = {}
        reached = set()
        for edge in self.steps(file):
            line = self.faces.line(edge)
            passed.setdefault(line, Counter())[edge.source] += self.taken[edge.number]
            if edge.number not in self.refuted:
                reached.add(line)
        self.excluded += [f"{self.faces.own(file).name}:{line}" for line in sorted(passed) if line not in reached]
        return {line: max(passed[line].values()) for line in sorted(passed) if line in reached}

    def branches(self, file: str) -> list[tuple[int, int, int, int | None]]:
        """The line, the test's number, 0 or 1 and the count of each guard of a file; no count where the test wasn't made."""
        found = []
        tests = sorted(
            (pair for pair in self.graph.guards() if pair[0].file == file),
            key=lambda pair: (pair[0].line, pair[0].column),
        )
        for number, pair in enumerate(tests):
            is_made = any(self.taken[edge.number] for edge in pair)
            for branch, edge in enumerate(pair):
                if edge.number in self.refuted:
                    self.excluded.append(f"{self.faces.place(edge)} {'true' if edge.truth else 'false'}")
                else:
                    found.append((self.faces.line(edge), number, branch, self.taken[edge.number] if is_made else None))
        return found

    def functions(self, file: str) -> list[tuple[int, str, int]]:
        """The line, the name and the number of entries of each function of a file."""
        places = [(self.graph.nodes[one.entry], one.name) for one in self.graph.functions]
        at = [(self.faces.node_line(node), name) for node, name in places if node.file == file]
        return [(line, self.faces.name(name), self.entered[name]) for line, name in at]


class Totals:
    """How many lines, functions and branches there are, and how many were reached."""

    def __init__(self) -> None:
        self.found: Counter[str] = Counter()
        self.hit: Counter[str] = Counter()

    def add(self, what: str, counts: list[int | None]) -> tuple[int, int]:
        """Adds those of a file, and gives their numbers."""
        numbers = len(counts), sum(bool(count) for count in counts)
        self.found[what] += numbers[0]
        self.hit[what] += numbers[1]
        return numbers

    def text(self) -> str:
        """The counts of lines, functions and branches, those that were hit first."""
        return ", ".join(
            f"{what} {self.hit[what]} of {self.found[what]}" for what in ("lines", "functions", "branches")
        )


def record(coverage: Coverage, file: str, totals: Totals) -> Iterator[str]:
    """The lines of a source's record."""
    functions, branches, lines = coverage.functions(file), coverage.branches(file), coverage.lines(file)
    yield "TN:"
    yield f"SF:{os.path.abspath(coverage.faces.own(file).name)}"
    yield from (f"FN:{line},{name}" for line, name, _ in functions)
    yield from (f"FNDA:{count},{name}" for _, name, count in functions)
    found, hit = totals.add("functions", [count for _, _, count in functions])
    yield from (f"FNF:{found}", f"FNH:{hit}")
    for line, number, branch, count in branches:
        yield f"BRDA:{line},{number},{branch},{'-' if count is None else count}"
    found, hit = totals.add("branches", [count for *_, count in branches])
    yield from (f"BRF:{found}", f"BRH:{hit}")
    yield from (f"DA:{line},{count}" for line, count in lines.items())
    found, hit = totals.add("lines", list(lines.values()))
    yield from (f"LF:{found}", f"LH:{hit}", "end_of_record")


def refuted_edges(graph: Graph, report: Report) -> set[int]:
    """The edges that a report refutes; a failure where it is none of single edges of this automaton."""
    if report.command != "generate":
        raise Failure("--refuted wants a report of generate")
    found = set()
    for goal in report.goals:
        try:
            letters = graphs.letters(graph, goal.text)
        except (ValueError, IndexError):
            raise Failure(f"the report isn't of these sources: {goal.text[:80]}") from None
        if len(letters) != 1 or not letters[0].edge:
            raise Failure(f'the report isn\'t of the query "cover ID": {goal.text[:80]}')
        if goal.verdict == "refuted":
            found.add(letters[0].edge.number)
    return found


@dataclass(frozen=True)
class LeftOut:
    """The edges that are left out, why, in words that follow `left out`, and the comment of the tracefile, if any. `stays` says why
    others aren't left out, though the report refutes them, a line each."""

    edges: set[int] = field(default_factory=set)
    why: str = ""
    comment: str = ""
    stays: tuple[str, ...] = ()


def left_out(given: argparse.Namespace, graph: Graph, runs: list[Run]) -> LeftOut:
    """What a report shows to be unreachable; a failure where it shows nothing of the kind, or a run takes it."""
    report = report_of(given.refuted)
    edges = refuted_edges(graph, report)
    if ENDS.index(report.ends) < ENDS.index(given.ends):
        raise Failure(f"{given.refuted}: it is of runs that {report.ends}, and other ends count here (--ends)")
    bounds = " ".join(f"{name} {report.bounds[name]}" for name in BOUNDS)
    budget = report.bounds.get("budget", 5_000_000)
    said = None
    if edges:
        said = sufficiency.asked(graph, given.entry, given.sources, report.bounds, budget, query="")
    for run in runs:
        for number in sorted(edges & set(run.edges)):
            raise Failure(
                f"{given.refuted}: it refutes e{number}@{graph.edges[number].place}, which input {run.number} takes"
            )
    if not said:
        return LeftOut()
    if not said.limits.make_unreachable and not given.bounds_are_enough:
        why = "; ".join(said.lines())
        raise Failure(
            f"{given.refuted}: what it refutes may be reached: {why} (--bounds-are-enough takes it all the same)"
        )
    enough = dataclasses.replace(said.limits, suffice=True, restriction="")
    faces = Faces(graph, given.sources)
    judged = other_ends.of_report(faces, given.entry, given.sources, report, enough)
    unreachable = {edge_of(graph, goal).number for goal in report.goals if is_unreachable(judged, goal)}
    stays = tuple(stays_line(faces, edge_of(graph, goal), *judged[goal.number]) for goal in report.goals
                  if goal.number in judged and not is_unreachable(judged, goal))  # fmt: skip
    if said.limits.make_unreachable:
        return LeftOut(unreachable, "since no run takes it", stays=stays)
    why = f"since it is refuted within {bounds}, which are taken to be enough"
    return LeftOut(unreachable, why, f"# what is refuted within {bounds} is left out: --bounds-are-enough\n", stays)


def edge_of(graph: Graph, goal: Goal) -> Edge:
    """The edge of a goal of one edge. ValueError where it is another goal."""
    edge = graphs.letters(graph, goal.text)[0].edge
    if not edge:
        raise ValueError(goal.text)
    return edge


def is_unreachable(judged: dict[int, tuple[Verdict, Ending | None]], goal: Goal) -> bool:
    """Whether a goal is unreachable by what is said of the refuted ones."""
    return goal.number in judged and judged[goal.number][0] is Verdict.UNREACHABLE


def stays_line(faces: Faces, edge: Edge, verdict: Verdict, ending: Ending | None) -> str:
    """Why an edge that a report refutes isn't left out."""
    truth = f" {'true' if edge.truth else 'false'}" if edge.is_guard else ""
    why = f", {ending.text}" if ending else ""
    return f"not left out: {faces.place(edge)}{truth}: {verdict}{why}"


def parser_of_words() -> argument_parsers.Parser:
    """What reads the words of fshell lcov; a wrong word ends the tool with status 2."""
    parser = argument_parsers.parser("lcov", __doc__, "the tracefile is written")
    argument_parsers.takes_entry(parser, with_inputs=True)
    parser.add_argument("-o", metavar="OUT", dest="out", help="the tracefile that is written; else standard output")
    parser.add_argument("--ends", choices=ENDS, default="returned", help="the ends of runs that count")
    parser.add_argument("--steps", type=program.in_range("steps"), metavar="N", help="as for runs")
    parser.add_argument("--refuted", metavar="FILE", help="leaves out what is unreachable by this report")
    enough = "leaves out what the report refutes, though a run may leave its bounds"
    parser.add_argument("--bounds-are-enough", action="store_true", help=enough)
    return parser


def words() -> argparse.Namespace:
    """What the words of fshell lcov say."""
    return parser_of_words().parse_intermixed_args()


def main() -> int:
    """Writes a tracefile, as the module says; the status is 0."""
    given = words()
    snapshots.take(given.sources)
    graph = graphs.of_sources(given.sources)
    steps = ["--steps", str(given.steps)] if given.steps else []
    _, runs = inputs.runs_of(given.entry, given.inputs, given.sources, steps)
    counted = [run for run in runs if run.is_counted(given.ends)]
    left = left_out(given, graph, counted) if given.refuted else LeftOut()
    coverage = Coverage(Faces(graph, given.sources), given.entry, counted, left.edges)
    totals = Totals()
    files = [source for source in dict.fromkeys(given.sources) if any(coverage.steps(source))]
    text = "".join(line + "\n" for file in files for line in record(coverage, file, totals))
    program.give(left.comment + text, given.out)
    told = [f"{len(counted)} of {len(runs)} runs count: {totals.text()}"]
    told += [f"left out, {left.why}: {one}" for one in coverage.excluded]
    told += dict.fromkeys(left.stays)
    print("\n".join(told), file=sys.stderr if given.out is None else sys.stdout)
    return program.DONE
