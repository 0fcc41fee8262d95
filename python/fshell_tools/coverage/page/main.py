"""fshell page: shows reports as one HTML file: the sources with a mark at each goal, and what each goal is.

A REPORT is a report of `measure` or `generate` (text or JSON), one of `mcdc` as JSON, of which each condition is a goal, or the
folder of a campaign; the last two have all that is needed. The folder of fshell rte is a page of its own. For a report the sources are named by --source; with --entry the page also has the paths of its inputs (--inputs for a report of
`measure`), and says whether a refuted goal is unreachable, by `bounds` and runs of any end; with --query it has the commands that write and check the
certificate of a refuted goal.
"""

import argparse
import os
from collections import Counter

from fshell_tools.core import argument_parsers, program, progress, snapshots, templates, verdicts
from fshell_tools.core import graph as graphs
from fshell_tools.core.program import Failure
from fshell_tools.core.progress import Progress
from fshell_tools.core.sources import Faces
from fshell_tools.core.verdicts import Verdict
from fshell_tools.coverage.page import picture, rte, syntax, tabs
from fshell_tools.coverage.page.data import Page, folded, worst
from fshell_tools.coverage.page.report_context import shown

TEMPLATE = os.path.join(os.path.dirname(os.path.realpath(__file__)), "main.html")
SIGNS = {
    Verdict.COVERED: "✓",
    Verdict.MISSED: "✗",
    Verdict.UNDECIDED: "?",
    Verdict.REFUTED: "⊘",
    Verdict.RETURNING: "⊖",
    Verdict.FAILS: "↯",
    Verdict.OUTSIDE: "⊄",
    Verdict.UNREACHABLE: "∅",
}
TABS = {"mcdc": "MC/DC", "requirements": "Requirements"}
# the verdicts of which a number is told, also where it is 0
ALWAYS = (Verdict.COVERED, Verdict.MISSED, Verdict.UNDECIDED, Verdict.REFUTED, Verdict.UNREACHABLE)
# the order of a bar's parts
BARS = (
    Verdict.COVERED,
    Verdict.UNREACHABLE,
    Verdict.OUTSIDE,
    Verdict.REFUTED,
    Verdict.RETURNING,
    Verdict.UNDECIDED,
    Verdict.FAILS,
    Verdict.MISSED,
)


def page_text(page: Page) -> str:
    """The page as HTML, by the templates beside this file. Raises Failure where jinja2 isn't there, or the
    program refuses what the tabs ask of it."""
    tally = verdicts.tally(goal["t"] for goal in page.goals)
    tables = {"mcdc": tabs.decisions(page), "requirements": tabs.requirements(page)}
    errors = tabs.errors(page)
    shown_tabs = {"sources": "Sources"} | {name: TABS[name] for name, rows in tables.items() if rows}
    shown_tabs |= {"errors": f"Run-time errors ({len(errors)})"} if errors is not None else {}
    graphs_of = picture.graphs_of(page)
    pictures = {}
    with progress.shown(Progress("page: pictures", len(graphs_of))) as tell:
        for title, text in graphs_of.items():
            pictures[title] = picture.svg(text)
            tell.step(title)
    return templates.rendered(
        TEMPLATE, page=page, verdicts=BARS, signs=SIGNS, tally=tally, kinds=sorted({goal["k"] for goal in page.goals}), folded=folded,
        worst=worst, pictures=pictures, colours=syntax.KINDS, data=page.data(),
        tabs=shown_tabs, decisions=tables["mcdc"], requirements=tables["requirements"], errors=errors,
    )  # fmt: skip


def parser_of_words() -> argument_parsers.Parser:
    """What reads the words of fshell page; a wrong word ends the tool with status 2."""
    parser = argument_parsers.parser("page", __doc__, "the page is written")
    parser.add_argument("reports", nargs="+", metavar="REPORT", help="a report, or a campaign's folder")
    parser.add_argument("-o", metavar="FILE", dest="out", required=True, help="the page that is written")
    parser.add_argument("--source", action="append", default=[], help="a source, in their order")
    parser.add_argument("--entry", default="", help="the function in which runs begin")
    parser.add_argument(
        "--query",
        action="append",
        default=[],
        help="the query of the report; of several reports one each, in their order",
    )
    parser.add_argument("--inputs", metavar="FILE", help="the inputs of a report of measure")
    return parser


def words() -> argparse.Namespace:
    """The words that the tool was called with; a wrong one, or another number of queries than of reports, ends it with
    status 2, --help with 0."""
    parser = parser_of_words()
    given = parser.parse_intermixed_args()
    if len(given.query) not in (0, len(given.reports)):
        parser.error(
            f"{len(given.reports)} reports and {len(given.query)} queries: --query stands once for each report"
        )
    return given


def main() -> int:
    """Writes the page, and says on standard output what is on it; the status: 0. Raises Failure, by which the tool ends
    with status 2, where a report can't be read, or reports are of different sources."""
    given = words()
    if any(rte.is_folder(name) for name in given.reports):
        if len(given.reports) > 1:
            raise Failure("a folder of fshell rte is a page of its own")
        return rte.write(given.reports[0], given.out)
    queries = given.query or [""] * len(given.reports)
    reports = [shown(name, query, given) for name, query in zip(given.reports, queries)]
    sources, place = reports[0].sources, reports[0].place
    if any(one.sources != sources or one.place != place for one in reports):
        raise Failure("the reports are of different sources")
    snapshots.take(sources, place)
    graph = graphs.of_sources(sources, place)
    faces = Faces(graph, sources, place)
    for one in reports:
        if not one.verdicts:
            one.judge(faces)
    page = Page(reports, graph, faces)
    program.write_whole(given.out, page_text(page))
    totals = Counter(goal["t"] for goal in page.goals)
    print(
        f"{given.out}: {len(page.goals)} goals, "
        + ", ".join(f"{totals[one]} {one}" for one in Verdict if totals[one] or one in ALWAYS)
    )
    return program.DONE
