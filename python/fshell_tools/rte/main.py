"""fshell rte: says of each operation that can end a run of a function wrongly whether it ever does.

The operations are the divisions, remainders, indices, shifts and asserts of the functions that the entry may call, and with
--ends any also its assumes and calls. Reads of objects that may never have been set, and results of functions that may end
without a `return`, are operations too. A line each:

    FILE:LINE:COLUMN: VERDICT: OPERATION

never                    no run ends there, by certificates that `check` and `check-bounds` accept, or by its constant alone
never within the bounds  no run within the bounds ends there, but a run may leave them
fails                    the input that is told ends there
not reached              no run comes there, by certificates
open                     the budget was spent, another operation of the same step fails, or C leaves an order open

DIR gets rte.json, rte.sarif, the certificates, the inputs, and failures.c, which repeats the runs that fail. Where it is there, of the same question, what it holds is checked again and
what is missing is made. The status is 0 where all are never, and 1 else.
"""

import argparse
import dataclasses
import json
import os

from fshell_tools.bounds import sufficiency
from fshell_tools.bounds.sufficiency import Left
from fshell_tools.campaign.main import DEFAULTS, locked, measured
from fshell_tools.campaign.request import Asked, read_sums
from fshell_tools.campaign.state_folder import Folder
from fshell_tools.core import argument_parsers, inputs, program, snapshots
from fshell_tools.core import graph as graphs
from fshell_tools.core.graph import Graph
from fshell_tools.core.program import Failure
from fshell_tools.core.verdicts import Limits
from fshell_tools.order.main import Warned
from fshell_tools.rte import (
    checked_calls,
    evaluation_order,
    export,
    failing_operations,
    operand_predicates,
    reproduction,
)
from fshell_tools.rte.failing_operations import Finder
from fshell_tools.rte.rows import Row, Rows, Verdict, is_clean, tally
from fshell_tools.rte.unset_objects import Flow
from fshell_tools.rte.unset_verdicts import Unset
from fshell_tools.rte.search import ENDINGS, has_bounds_certificates, known, not_reached, prove_bounds


def parser_of_words() -> argument_parsers.Parser:
    """What reads the words of fshell rte; a wrong word ends the tool with status 2."""
    parser = argument_parsers.parser(
        "rte", __doc__, "each row is `never`, and the bounds suffice", "a row is another, or the bounds don't suffice"
    )
    argument_parsers.takes_entry(parser)
    parser.add_argument("-o", metavar="DIR", dest="folder", required=True, help="the folder of what is found")
    for name, value in DEFAULTS.items():
        number = program.in_range(name)
        parser.add_argument(f"--{name}", type=number, default=value, metavar="N", help=f"as for generate ({value})")
    budget = "as for prove (5000000); a greater one tries again what was left open"
    parser.add_argument("--budget", type=program.in_range("budget"), default=5_000_000, metavar="N", help=budget)
    ends = "trapped (the default): runs that trap; any: also runs that are blocked or too deep"
    parser.add_argument("--ends", choices=("trapped", "any"), default="trapped", help=ends)
    confirm = "compiles DIR/failures.c by gcc with its sanitizers, runs each failure, and tells what they say"
    parser.add_argument("--confirm", action="store_true", help=confirm)
    told = "how many searches at a time, which is kept (as many as there are processors)"
    parser.add_argument("--jobs", type=program.jobs, metavar="N", help=told)
    return parser


def words() -> argparse.Namespace:
    """The words that the tool was called with; a wrong one ends it with status 2, --help with 0."""
    return parser_of_words().parse_intermixed_args()


def asked_by(given: argparse.Namespace) -> Asked:
    """What the words ask for, with the sums of the sources. Raises Failure where one can't be read, or its name has a
    line feed."""
    sources, place = tuple(given.sources), os.getcwd()
    program.check_names(sources)
    snapshots.take(sources, place)
    bounds = {name: getattr(given, name) for name in DEFAULTS}
    return Asked(given.entry, ENDINGS, sources, place, read_sums(sources, place), bounds, given.ends, given.budget)


def bounds_of(graph: Graph, folder: Folder, asked: Asked) -> Left:
    """What is known of the bounds, by a certificate that `check-bounds` accepts, which is kept in the folder. Raises
    Failure where the program refuses, or rejects its own certificate."""
    said = prove_bounds(folder, asked)
    words = (graph, asked.entry, asked.sources, asked.bounds, asked.place)
    return sufficiency.of_answer(said, *words, query=asked.query, ends=asked.ends)


def rows_of(graph: Graph, folder: Folder, asked: Asked, limits: Limits, warned: list[Warned], jobs: int) -> list[Row]:
    """The rows of all operations, in the order of the sources, with the user's own places. `limits` is what is known of
    the bounds, `warned` the statements in which C leaves an order open that matters there alone. Raises Failure where
    the program refuses a query."""
    finder = failing_operations.finder_of(graph, asked.sources)
    table = checked_calls.table_of(asked.sources, graph)
    hidden = {node.number for node in graph.nodes if node.function in table.functions}
    found = known(graph, folder, asked, hidden | {graph.function(asked.entry).exit}, jobs)
    all_of = failing_operations.of_finder(graph, finder, asked.entry, asked.ends)
    operations = [one for one in all_of if one.file != table.header]
    made = Rows(graph, operations, found, limits)
    steps = operand_predicates.Steps(graph, folder.path, asked, operations, jobs)
    made.apart = {node: steps.of_node(node) for node in found.failed}
    written = checked_calls.of_finder(graph, finder, table, asked.entry, asked.place)
    sites = checked_calls.Sites(graph, folder.path, asked, written, jobs) if written else None
    if limits.make_unreachable and (operations or sites):
        nodes = made.all_never() | {node for site in written for node in site.operation.nodes}
        made.unreached = not_reached(graph, folder.path, asked, nodes, jobs)
    rows = [(tokens_of(finder, row), row) for row in made.rows()]
    if sites:
        for site in written:
            rows.append((set(finder.at.get((site.file, *site.spot), [])), sites.row(site, limits, made.unreached)))
    flow = Flow(graph, finder.lowering, finder.unit, asked.entry)
    rows += Unset(graph, finder, flow, folder.path, asked, jobs).rows(limits)
    rows.sort(key=lambda one: min(one[0], default=len(finder.words)))
    restricted = evaluation_order.Regions(graph, finder, warned, asked.place).restricted(rows)
    return [export.of_the_user(row, asked) for _, row in restricted]


def tokens_of(finder: Finder, row: Row) -> set[int]:
    """The numbers of the tokens at the places of a row's operations."""
    return {token for one in row.operations for token in finder.at.get((one.file, one.line, one.column), [])}


def repeated(folder: Folder, asked: Asked, rows: list[Row], is_confirmed: bool) -> list[Row]:
    """The rows with the numbers of their inputs, from 1, which are written with a C file that repeats their runs, and
    with what gcc says of these, where it is asked (`is_confirmed`). Raises Failure where a file can't be written, or
    gcc isn't there or doesn't compile it."""
    found = inputs.once([row.input for row in rows if row.input])
    program.write_whole(folder.at("inputs.json"), inputs.json_text(found))
    if not found:
        return rows
    header = checked_calls.header_of(asked.sources)
    text = reproduction.text_of(asked.entry, found, asked.sources, header, folder.path)
    program.write_whole(folder.at(reproduction.NAME + ".c"), text)
    said = list(reproduction.confirmed(folder.path, header, len(found))) if is_confirmed else [""] * len(found)
    return [
        dataclasses.replace(row, number=found.index(row.input) + 1, gcc=row.of_gcc(said[found.index(row.input)]))
        if row.input
        else row
        for row in rows
    ]


def json_of(asked: Asked, left: Left, rows: list[Row], missing: list[str]) -> str:
    """The text of rte.json (docs/TOOLS.md): the rows with what was asked, what is known of the bounds, what isn't looked
    at (`missing`), and whether all is clean."""
    named = {name: getattr(asked, name) for name in ("entry", "sources", "sums", "bounds", "ends", "budget")}
    limits = dataclasses.asdict(left.limits) | {"next": left.options}
    if left.limits.left:
        limits["left"] = json.loads(inputs.json_text([left.limits.left]))[0]
    counts = {one: sum(row.verdict is one for row in rows) for one in Verdict}
    value = named | {
        "limits": limits,
        "not_looked_at": missing,
        "rows": [row.value() for row in rows],
        "counts": counts,
        "clean": is_clean(rows, left.limits),
    }
    return json.dumps(value, indent=1) + "\n"


def main() -> int:
    """Finds what it can, keeps it in the folder and tells it; the status: 0 where each row is `never`, 1 else. Raises
    Failure, by which the tool ends with status 2."""
    given = words()
    asked = asked_by(given)
    graph = graphs.of_sources(asked.sources)
    graph.function(asked.entry)
    if not has_bounds_certificates():
        raise Failure("the program has no command prove-bounds; a newer one is needed (FSHELL names another)")
    measured(asked, [])
    missing = export.not_looked_at(graph, asked)
    folder = Folder(given.folder)
    folder.begin(asked, [])
    with locked(folder):
        folder.clean()
        folder.keep_sources(asked)
        left = bounds_of(graph, folder, asked)
        limits, warned = evaluation_order.limits_of(left.limits, asked)
        left = dataclasses.replace(left, limits=limits)
        rows = rows_of(graph, folder, asked, limits, warned, folder.jobs(given.jobs))
        rows = repeated(folder, asked, rows, given.confirm)
        program.write_whole(folder.at("rte.json"), json_of(asked, left, rows, missing))
        program.write_whole(folder.at("rte.sarif"), export.sarif_of(rows, asked, missing))
    lines = [line for row in rows for line in row.lines(given.folder)]
    how = (
        [
            f"failures are repeated by {' '.join(reproduction.command(given.folder, checked_calls.header_of(asked.sources)))}"
        ]
        if any(row.input for row in rows)
        else []
    )
    said = [*lines, *left.lines(), *how, *export.lines_of(missing), tally(rows)]
    program.give("".join(line + "\n" for line in said), None)
    return program.DONE if is_clean(rows, left.limits) else program.OPEN
