"""fshell mcdc: modified condition/decision coverage, in the masking form, with short circuits.

For each decision it takes the paths through its conditions as goals, has inputs made for them, and says of each condition by
which two inputs it decides on its own: its value and the outcome differ, and in both the other conditions, as far as they are
evaluated, leave the outcome to it. Where no such pair is among the paths that inputs take, and each that would do has a path
which is refuted, there is none within the bounds, and none at all where these are refuted for runs of any end and `bounds` says that
they suffice; the goals that say so are named, and --certificates DIR has their certificates written and checked. A decision that can't be asked for is told with the
reason. Asserts and assumes are listed apart. Only runs that returned count. The status is 1 where something is undecided; with
--at-least P it is 1 where less than P percent of the decisions' conditions that aren't unreachable are covered.
"""

import argparse
import os
import sys

from fshell_tools.bounds import other_ends, sufficiency
from fshell_tools.bounds.other_ends import Question
from fshell_tools.bounds.sufficiency import Left
from fshell_tools.campaign.state_folder import STEPS
from fshell_tools.core import argument_parsers, inputs, program, progress, snapshots, verdicts
from fshell_tools.core import graph as graphs
from fshell_tools.core.graph import Graph
from fshell_tools.core.program import Failure
from fshell_tools.core.progress import Progress
from fshell_tools.core.reports import Report
from fshell_tools.core.sources import Faces
from fshell_tools.core.verdicts import Limits
from fshell_tools.coverage.decisions import Decision, Decisions
from fshell_tools.coverage.masking import MOST_ARROWS, NONE, Asked, goals_of, query_of, shown, take
from fshell_tools.coverage.mcdc_report import Found, Text, json_text

BOUNDS = {"turns": 4, "frames": 8, "answers": 16}
# what is refused of one decision alone: its query is too long, its goals are none or too many, or one is too large
OF_ONE = tuple(f"error {code} " for code in (63, 71, 72, 73, 82))


# ---- the whole


def options(given: argparse.Namespace) -> list[str]:
    """The options of the program for the bounds that are given."""
    return [word for name in BOUNDS for word in (f"--{name}", str(getattr(given, name)))]


def ask(given: argparse.Namespace, graph: Graph, decision: Decision) -> Asked:
    """Has inputs made for the paths of a decision."""
    for arrows in range(MOST_ARROWS, -1, -1):
        query = query_of(graph, decision, arrows)
        words = ["generate", given.entry, query, *given.sources, *options(given), "--budget", str(given.budget)]
        ended = program.run(program.with_json(words))
        # (many calls make too many goals; with fewer arrows the paths behind them may stay undecided)
        if not ended.stderr.startswith("error 71 "):
            break
    if ended.stderr.startswith(OF_ONE):
        return Asked(decision, query, Report("generate"), why=f"it can't be asked for, {ended.stderr.strip()}")
    asked = Asked(decision, query, program.report_of(words, ended))
    asked.goals = goals_of(graph, asked)
    return asked


def ask_all(given: argparse.Namespace, graph: Graph, decisions: list[Decision]) -> list[Asked]:
    """Has inputs made for the paths of all decisions."""
    found: list[Asked] = []
    with progress.shown(Progress("mcdc: decisions", len(decisions))) as tell:
        for decision in decisions:
            tell.at(len(found), f"{decision.function}, line {decision.first.line}")
            found.append(ask(given, graph, decision))
    return found


def certify(given: argparse.Namespace, all_asked: list[Asked]) -> int:
    """Writes the certificates of the goals that say that conditions have no pair, and has them checked; gives their number."""
    os.makedirs(given.certificates, exist_ok=True)
    count = 0
    for asked in all_asked:
        needed = {path for test in asked.decision.tests for path in shown(asked, test.node).needed}
        for goal in sorted({goal for path in needed for goal in asked.goals[path]}):
            name = os.path.join(given.certificates, f"decision{asked.decision.number}-goal{goal}.cert")
            words = [given.entry, asked.query, str(goal)]
            program.write_whole(
                name, program.answer(["prove", *words, *given.sources, *options(given), "--budget", str(given.budget)])
            )
            program.answer(["check", *words, os.path.abspath(name), *given.sources, *options(given)])
            count += 1
    return count


def parser_of_words() -> argument_parsers.Parser:
    """What reads the words of fshell mcdc; a wrong word ends the tool with status 2."""
    parser = argument_parsers.parser(
        "mcdc",
        __doc__,
        "each condition is decided, and the gate of --at-least passes",
        "a condition is undecided, or the gate fails",
    )
    argument_parsers.takes_entry(parser)
    for name, value in BOUNDS.items():
        parser.add_argument(
            f"--{name}", type=program.in_range(name), default=value, metavar="N", help=f"as for generate ({value})"
        )
    parser.add_argument(
        "--budget", type=program.in_range("budget"), default=5_000_000, metavar="N", help="as for generate (5000000)"
    )
    parser.add_argument("--inputs", metavar="FILE", help="inputs that are taken first")
    only = "only the decisions of this function; again for others"
    parser.add_argument("--function", action="append", metavar="NAME", help=only)
    parser.add_argument("--suite", metavar="FILE", help="writes all inputs to this file")
    parser.add_argument("--certificates", metavar="DIR", help="has certificates written there, and checked")
    parser.add_argument("--json", action="store_true", help="the report is one line of JSON")
    gate = "the status is 1 where less than P percent of the conditions are covered"
    parser.add_argument("--at-least", type=verdicts.percent, metavar="P", help=gate)
    return parser


def words() -> argparse.Namespace:
    """What the words of fshell mcdc say."""
    return parser_of_words().parse_intermixed_args()


def bounds_of(given: argparse.Namespace, graph: Graph, all_asked: list[Asked]) -> Left:
    """What is known of the bounds, once a condition without a pair asks for it."""
    needs = any(shown(asked, test.node).needed for asked in all_asked for test in asked.decision.tests
                if shown(asked, test.node).state == NONE)  # fmt: skip
    if not needs:
        return Left(Limits())
    bounds = {name: getattr(given, name) for name in BOUNDS}
    return sufficiency.asked(graph, given.entry, given.sources, bounds, given.budget, query="")


def judge(given: argparse.Namespace, faces: Faces, all_asked: list[Asked], limits: Limits) -> None:
    """Notes what runs of any end say of the refuted goals by which conditions have no pair."""
    bounds = {name: getattr(given, name) for name in BOUNDS}
    question = Question(given.entry, tuple(given.sources), bounds, given.budget)
    wanted = {asked.decision.number: sorted({goal for test in asked.decision.tests if shown(asked, test.node).state == NONE
                                             for path in shown(asked, test.node).needed for goal in asked.goals[path]})
              for asked in all_asked}  # fmt: skip
    if not any(wanted.values()):
        return
    stops = other_ends.stops_of(faces, question)
    for asked in all_asked:
        goals = wanted[asked.decision.number]
        others = other_ends.others_of(faces, question, asked.query, goals, "returned")
        said = other_ends.Judge(faces, question, limits, stops, asked.query)
        asked.judged = {goal: said.verdict(asked.report.goals[goal - 1].text, others[goal]) for goal in goals}


def main() -> int:
    """Decides all conditions and answers the exit status, as the module says. Raises Failure where there is no
    decision."""
    given = words()
    snapshots.take(given.sources)
    graph = graphs.of_sources(given.sources)
    faces = Faces(graph, given.sources)
    decisions = [one for one in Decisions(graph, faces).found if not given.function or one.function in given.function]
    if not decisions:
        raise Failure("there is no decision")
    all_asked = ask_all(given, graph, decisions)
    made = inputs.of_entry(given.inputs, given.entry, given.sources) if given.inputs else []
    made = inputs.once(made + [one for asked in all_asked for one in asked.report.inputs])
    with program.as_file(inputs.json_text(made)) as path:
        take(graph, all_asked, program.report(["runs", given.entry, path, *given.sources, "--steps", STEPS]).runs)
    count = certify(given, all_asked) if given.certificates else 0
    if given.suite:
        program.write_whole(given.suite, inputs.best_text(made))
    left = bounds_of(given, graph, all_asked)
    judge(given, faces, all_asked, left.limits)
    found = Found(faces, all_asked, made, left)
    if given.json:
        bounds = {name: getattr(given, name) for name in BOUNDS}
        print(json_text(found, given.entry, given.sources, bounds))
    else:
        checked = f"; {count} certificates are checked" if given.certificates else ""
        print("".join(line + "\n" for line in Text(found).lines(checked)), end="")
    return judged(found, given.at_least, given.json)


def judged(found: Found, at_least: float | None, is_json: bool) -> int:
    """The status, and the line of the gate, on standard error where JSON is written."""
    tally = found.tally(found.decisions)
    if at_least is None:
        return program.OPEN if found.is_open else program.DONE
    why = verdicts.failures(tally, at_least, len(found.given))
    print(verdicts.gate_line(at_least, why), file=sys.stderr if is_json else sys.stdout)
    return program.OPEN if why else program.DONE
