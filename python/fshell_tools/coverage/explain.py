"""fshell explain: says what the goals of a query or of a report are, and where runs ended that didn't return.

WHAT is a query, or a file with a report of `measure`, `generate`, `goals`, `runs` or `trees` as text or JSON; `-` stands for standard
input. SOURCE.. are the sources that the report is about. Each goal is told with what its letters are: the place as
FILE:LINE:COLUMN, the function, the condition with its outcome or what else is done, and the statement; of a covered goal also
its input. A report of `measure` or `trees` has no inputs and no paths of runs in it: with --entry and --inputs they are told too.
With --entry, `bounds` and runs of any end are asked of a report with refuted goals, so that they are told as unreachable, as hit by
runs that don't return, or which bound is left.
WHAT may be the code 80 or 81, or a file with its refusal: with --entry and the bounds it says which loops and calls multiply the pairs
of node and context, the largest first.
"""

import argparse
import json
import os
import re
import sys
from collections.abc import Iterator
from functools import cache

from fshell_tools.bounds import other_ends, sufficiency, unwinding_size
from fshell_tools.bounds.other_ends import Ending
from fshell_tools.core import argument_parsers, inputs, program, snapshots, verdicts
from fshell_tools.core import graph as graphs
from fshell_tools.core.graph import Graph, Letter, Node
from fshell_tools.core.program import Failure
from fshell_tools.core.reports import BOUNDS, Goal, Input, Report, Run, report_of_json, report_of_text
from fshell_tools.core.sources import Faces
from fshell_tools.core.verdicts import Verdict

# what is said of refuted goals by their numbers, and the run that shows it
Judged = dict[int, tuple[Verdict, Ending | None]]
OPENED = {"trapped", "blocked", "too-deep"}


def is_query(word: str) -> bool:
    """Whether a word is a query rather than a file's name."""
    return re.match(r"\s*(in|cover)\b.", word, re.IGNORECASE | re.DOTALL) is not None


def report_of(word: str) -> Report:
    """The report in a file or on standard input; one that isn't read is a failure. Raises Failure; a ValueError of
    what reads it is told so."""
    try:
        text = text_of(word)
        if text.startswith("fshell traces 1"):
            raise ValueError(of_traces(text))
        return report_of_json(json.loads(text)) if text.startswith("{") else report_of_text(text)
    except (ValueError, KeyError, TypeError, RecursionError) as fault:
        raise Failure(f"{word}: it is no report: {str(fault)[:110]}") from None


@cache
def text_of(word: str) -> str:
    """What is in a file, or on standard input. Raises Failure, and a ValueError where it is no text."""
    return (sys.stdin.buffer.read() if word == "-" else program.read(word)).decode()


def refused_code(word: str) -> str:
    """The code 80 or 81 that a word is, or that the refusal in a file has; nothing of any other one."""
    if is_query(word) or (word in unwinding_size.LIMITS and not os.path.exists(word)):
        return "" if is_query(word) else word
    try:
        return unwinding_size.code_of(text_of(word))
    except ValueError:
        return ""  # (told where it is read as a report)


def of_traces(text: str) -> str:
    """What is said of a trace file."""
    if "\r\n" in text:
        return "it is a trace file that came through another system: its lines end with carriage return and line feed"
    return "it is a trace file; replay measures it"


def letter_line(faces: Faces, letter: Letter) -> str:
    """What one part of a goal asks for, in one line: an edge, a node, a predicate that holds or doesn't, or a row of
    steps."""
    if letter.edge:
        return f"e{letter.edge.number} {faces.face(letter.edge)}"
    if letter.node:
        return f"n{letter.node.number} {node_line(faces, letter.node)}"
    text = " ".join(letter.text.split())  # (a query may have line breaks)
    if text.startswith("!"):
        return f"{text[1:]} doesn't hold"
    return f"{text} holds" if text.startswith("{") else f"a row of steps that match {text}"


def node_line(faces: Faces, node: Node) -> str:
    """What a node is, in one line: its place, its function, and whether it is the entry, the exit, or before a
    statement."""
    function = faces.graph.function(node.function)
    if node.number in (function.entry, function.exit):
        what = "the entry" if node.number == function.entry else "the exit"
    else:
        what = f"control before {faces.node_text(node)}"
    return f"{faces.node_place(node)} {faces.name(node.function)}: {what}"


def end_line(faces: Faces, run: Run, entry: str) -> str:
    """Where the run of an input ended that was trapped, blocked or too deep, in one line."""
    last = faces.graph.edges[run.edges[-1]].target if run.edges else faces.graph.function(entry).entry
    leaving = faces.graph.leaving[last]
    if not leaving:
        return node_line(faces, faces.graph.nodes[last])
    edge = leaving[0]
    test = f"{faces.condition(edge)}, in " if edge.is_guard else ""
    return f"{faces.place(edge)} {faces.name(faces.graph.owner(edge))}: {test}{faces.statement(edge)}"


class Explained:
    """Writes what fshell explain says of goals and of where runs stood, line by line."""

    def __init__(
        self, faces: Faces, entry: str, report: Report, given: list[Input], runs: list[Run], judged: Judged
    ) -> None:
        self.faces, self.entry, self.report, self.judged = faces, entry, report, judged
        self.inputs = report.inputs or given
        self.runs = runs

    def goal(self, goal: Goal) -> Iterator[str]:
        """The lines of a goal. Raises Failure where the report names an edge or node that the automaton hasn't."""
        said, ending = self.judged.get(goal.number, (None, None))
        verdict = str(said or (verdicts.of_word(goal.verdict) if goal.verdict else ""))
        verdict += f" by input {goal.input}" if goal.input else f", {ending.text}" if ending else ""
        yield f"goal {goal.number}: {verdict}" if verdict else f"goal {goal.number}:"
        try:
            letters = graphs.letters(self.faces.graph, goal.text)
        except (ValueError, IndexError):
            raise Failure(f"goal {goal.number} isn't one of these sources: {goal.text[:80]}") from None
        yield from (f"  {letter_line(self.faces, letter)}" for letter in letters)
        if goal.input and goal.input <= len(self.inputs):
            yield f"  input {goal.input}: {self.inputs[goal.input - 1].told()}"

    def run(self, run: Run) -> Iterator[str]:
        """The line of a run, where it was trapped, blocked or too deep. Raises Failure where the run takes an edge
        that the automaton hasn't."""
        if run.end.split(" ")[0] not in OPENED:
            return
        entry = self.entry or (
            self.faces.graph.nodes[self.faces.graph.edges[run.edges[0]].source].function if run.edges else ""
        )
        if not entry:
            raise Failure("a run has no edges; --entry says where it began")
        yield f"input {run.number} {run.end} at {end_line(self.faces, run, entry)}"

    def lines(self) -> Iterator[str]:
        """What is said of the report, a line each: its goals, its runs, and a hint where runs were lost and no
        inputs are given."""
        for goal in self.report.goals:
            yield from self.goal(goal)
        for run in self.runs:
            yield from self.run(run)
        lost = [run for run in self.report.runs if run.end.split(" ")[0] in OPENED]
        if lost and not self.runs:
            yield f"{len(lost)} runs were trapped, blocked or too deep; --entry and --inputs tell where"


# what is said where a goal is refuted, and the entry isn't known
WITHIN = "refuted goals have no run within the bounds; with --entry, bounds is asked whether a run leaves them"


def counts(report: Report, judged: Judged) -> str:
    """How many goals have which verdict, in one line."""
    found = verdicts.tally(verdict_of(goal, judged) for goal in report.goals if goal.verdict)
    told = ", ".join(f"{found.counts[one]} {one}" for one in Verdict if found.counts[one])
    return f"{len(report.goals)} goals" + (f": {told}" if told else "")


def bounds_of(given: argparse.Namespace, faces: Faces, report: Report) -> tuple[Judged, list[str]]:
    """What is known of the refuted goals of a report, and what is said of its bounds."""
    if not report.count("refuted"):
        return {}, []
    if not given.entry:
        return {}, [WITHIN]
    budget = report.bounds.get("budget", 5_000_000)
    left = sufficiency.asked(faces.graph, given.entry, given.sources, report.bounds, budget, query=None)
    judged = other_ends.of_report(faces, given.entry, given.sources, report, left.limits)
    return judged, list(left.lines())


def verdict_of(goal: Goal, judged: Judged) -> Verdict:
    """What is said of a goal; KeyError where nothing is said of it."""
    return judged[goal.number][0] if goal.number in judged else verdicts.of_word(goal.verdict)


def is_of(goal: Goal, judged: Judged, mark: str) -> bool:
    """Whether a goal has the verdict that a word of --only means."""
    return bool(goal.verdict) and verdict_of(goal, judged).mark == mark


def parser_of_words() -> argument_parsers.Parser:
    """What reads the words of fshell explain; a wrong word ends the tool with status 2."""
    parser = argument_parsers.parser("explain", __doc__, "the goals are told")
    parser.add_argument("what", metavar="WHAT", help="a query, a file with a report, or - for standard input")
    parser.add_argument("sources", nargs="+", metavar="SOURCE", help="the sources, in their order")
    parser.add_argument("--entry", default="", help="the function in which runs begin")
    parser.add_argument("--inputs", metavar="FILE", help="the inputs of the runs")
    parser.add_argument(
        "--only",
        choices=[one.mark for one in Verdict],
        help="goals of this verdict alone; of refuted ones those that aren't unreachable",
    )
    parser.add_argument("--steps", type=program.in_range("steps"), metavar="N", help="as for runs")
    for name, least in (("turns", 4), ("frames", 8), ("answers", 16)):
        about = f"with a code: as for the command that was refused ({least})"
        parser.add_argument(f"--{name}", type=program.in_range(name), default=least, metavar="N", help=about)
    return parser


def words() -> argparse.Namespace:
    """What the words of fshell explain say; words that can't go together end it with status 2 and a line."""
    parser = parser_of_words()
    given = parser.parse_intermixed_args()
    if given.inputs and not given.entry:
        parser.error("--inputs needs --entry")
    return given


def main() -> int:
    """Explains a report or a query and answers the exit status, as the module says. Raises Failure where the program refuses the
    sources, or where a code has no entry."""
    given = words()
    code = refused_code(given.what)
    if code and not given.entry:
        raise Failure(f"code {code} is of an entry; --entry names it")
    snapshots.take(given.sources)
    automaton: Graph = graphs.of_sources(given.sources)
    if code:
        bounds = {name: int(getattr(given, name)) for name in BOUNDS}
        told = unwinding_size.Told(Faces(automaton, given.sources), given.entry, bounds)
        print("".join(line + "\n" for line in told.lines(code)), end="")
        return program.DONE
    report = graphs.goals_of(automaton, given.what, given.sources) if is_query(given.what) else report_of(given.what)
    read: list[Input] = []
    runs = report.runs if report.command == "runs" else []
    if given.inputs:
        steps = ["--steps", str(given.steps)] if given.steps else []
        read, runs = inputs.runs_of(given.entry, given.inputs, given.sources, steps)
    faces = Faces(automaton, given.sources)
    judged, said = bounds_of(given, faces, report)
    if given.only:
        report.goals = [goal for goal in report.goals if is_of(goal, judged, given.only)]
    explained = Explained(faces, given.entry, report, read, runs, judged)
    print("".join(line + "\n" for line in explained.lines()), end="")
    if report.goals:
        print(counts(report, judged))
    if report.count("refuted"):
        print("".join(line + "\n" for line in said), end="")
    return program.DONE
