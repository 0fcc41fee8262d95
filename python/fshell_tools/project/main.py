"""init, run, report, gate: test, report and judge a module of many functions, as its fshell.toml says.

  init SOURCE..   writes a fshell.toml for sources: an entry for each function that can be one
  run             does what isn't done yet, writes the report, and judges the gate
  report          writes the report of what is done
  gate            judges the gate by what is done, and does nothing else

A run that was stopped goes on where it was; a second one with nothing changed does nothing. The status is 0 where the gate passes,
and 1 where it fails or something isn't done yet.
"""

import argparse
import os
import sys

from fshell_tools.core import argument_parsers, program, snapshots
from fshell_tools.core.program import Failure
from fshell_tools.project import criteria, gate, runner, settings
from fshell_tools.project import init as initial
from fshell_tools.project import report as reports
from fshell_tools.project.results import Results
from fshell_tools.project.tasks import Context
from fshell_tools.project.toml_tables import Faults
from fshell_tools.project.work_folder import NAME, Work

FILE = "fshell.toml"


def parser_of_words() -> argument_parsers.Parser:
    """What reads the words of the four commands; a wrong word ends the tool with status 2."""
    parser = argument_parsers.parser(
        "",
        __doc__,
        "the gate passes, or what was asked for is written",
        "the gate fails, or something isn't done",
    )
    commands = parser.add_subparsers(dest="command", metavar="COMMAND", required=True)
    _init_words(commands.add_parser("init", help="writes a fshell.toml for sources"))
    for name, told in (
        ("run", "does what isn't done yet, writes the report, and judges the gate"),
        ("report", "writes the report of what is done"),
        ("gate", "judges the gate by what is done"),
    ):
        one = commands.add_parser(name, help=told, description=told)
        one.add_argument("file", nargs="?", default=FILE, metavar="FILE", help=f"the settings ({FILE})")
        one.add_argument("-o", metavar="DIR", dest="work", help=f"the work folder ({NAME} beside the settings)")
        if name != "gate":
            one.add_argument("--since", metavar="FOLDER", help="tells the difference to the report in this folder")
        if name == "run":
            one.add_argument(
                "--jobs", type=program.jobs, default=os.cpu_count() or 1, metavar="N", help="jobs side by side"
            )
            one.add_argument("--entry", metavar="FUNCTION", help="does the tasks of this entry alone, without a report")
            one.add_argument("--sshloginfile", metavar="FILE", help="the machines, as GNU parallel reads them")
    for inner in argument_parsers.commands_of(parser).values():
        inner.epilog, inner.formatter_class = parser.epilog, parser.formatter_class
    return parser


def words() -> argparse.Namespace:
    """The words that the tool was called with; a wrong one ends it with status 2, --help with 0."""
    return parser_of_words().parse_args()


def _init_words(one: argparse.ArgumentParser) -> None:
    one.description = (
        "Writes a fshell.toml for sources: an entry for each function that can be one, and why others can't."
    )
    one.add_argument("sources", nargs="+", metavar="SOURCE", help="the sources, in their order")
    one.add_argument("-o", default=FILE, metavar="FILE", dest="file", help=f"the file that is written ({FILE})")
    one.add_argument("--driver", action="append", default=[], metavar="SOURCE", help="a source with drivers or stubs")
    one.add_argument("-I", action="append", default=[], metavar="DIR", dest="include", help="a folder with headers")
    one.add_argument("-D", action="append", default=[], metavar="NAME=VALUE", dest="defines", help="a macro")
    one.add_argument("--input", action="append", default=[], metavar="NAME", help="as for fshell adapt")
    one.add_argument(
        "--query", action="append", default=[], metavar="QUERY", help="a criterion or query of each entry (decisions)"
    )


def init(given: argparse.Namespace) -> int:
    """Writes the settings; the status: 0. Raises Faults where a --query is no criterion and no query, and Failure where
    the file can't be made."""
    wrong = [one for one in map(criteria.fault, given.query) if one]
    if wrong:
        raise Faults(wrong)
    folder = os.path.dirname(os.path.abspath(given.file))

    def named(paths: list[str]) -> tuple[str, ...]:
        return tuple(os.path.relpath(path, folder) for path in paths)

    module = settings.Module(
        named(given.sources), named(given.driver), named(given.include), tuple(given.defines), tuple(given.input)
    )
    entries, functions = initial.write(given.file, module, given.query or ["decisions"])
    print(f"{given.file}: {entries} entries for {functions} functions")
    return program.DONE


def context_of(given: argparse.Namespace, work: Work) -> Context:
    """What the tasks of a command share, by the settings. Raises Faults with all that is wrong with them, and Failure
    where the sources are refused."""
    read = settings.of_file(given.file)
    return runner.context_of(read, work, getattr(given, "jobs", 1), getattr(given, "sshloginfile", None))


def work_of(given: argparse.Namespace) -> Work:
    """The work folder, beside the settings where -o names none; nothing is made yet. Raises Failure where the settings
    can't be read."""
    snapshots.take_file(given.file)
    program.read(given.file)
    return Work(given.work or os.path.join(os.path.dirname(os.path.abspath(given.file)), NAME))


def told_left(context: Context) -> bool:
    """Whether something isn't done, which is told on standard output, a line a task."""
    left = runner.left(context)
    for task in left:
        print(f"not done yet: {task.entry.function}, {task.name}")
    if left:
        print(f"{len(left)} tasks aren't done as the sources and {context.settings.path} stand; fshell run does them")
    return bool(left)


def run(given: argparse.Namespace) -> int:
    """Does what isn't done, writes the report and judges the gate; the status: 0 where it passes, 1 where it fails.
    Raises Failure where another process works in the folder, and Faults with what went wrong."""
    if given.sshloginfile:
        program.read(given.sshloginfile)
    work = work_of(given)
    settings.of_file(given.file)
    if given.entry:
        return run_entry(given, work)
    with work.lock():
        context = context_of(given, work)
        count = runner.run(context)
        print(f"{count} tasks were done" if count else "nothing was left to be done", file=sys.stderr)
        results = Results(context, context.requirements)
        print("\n".join(reports.write(results, given.since)), file=sys.stderr)
        return judged(results)


def run_entry(given: argparse.Namespace, work: Work) -> int:
    """Does the tasks of one entry, beside other processes that do those of others, and writes no report; the status: 0.
    Raises Failure where the settings have no such entry."""
    with work.lock(waits=True):
        context = context_of(given, work)
    if given.entry not in context.given:
        raise Failure(f"{given.file} has no entry {given.entry}; it has {', '.join(context.given)}")
    count = runner.run(context, given.entry)
    print(f"{count} tasks of {given.entry} were done")
    return program.DONE


def report(given: argparse.Namespace) -> int:
    """Writes the report of what is done; the status: 0, or 1 where something isn't done, and nothing is written."""
    work = work_of(given)
    with work.lock():
        context = context_of(given, work)
        if told_left(context):
            return program.OPEN
        print("\n".join(reports.write(Results(context, context.requirements), given.since)))
    return program.DONE


def judged(results: Results) -> int:
    """Tells the gate's judgement on standard output; the status: 0 where it passes, 1 where it fails."""
    told, passes = gate.verdict(results)
    print("\n".join([*gate.lines(results), *told]))
    return program.DONE if passes else program.OPEN


def judge(given: argparse.Namespace) -> int:
    """Judges the gate by what is done; the status: 0 where it passes, 1 where it fails or something isn't done."""
    work = work_of(given)
    context = context_of(given, work)
    if told_left(context):
        return program.OPEN
    return judged(Results(context, context.requirements))


def main() -> int:
    """Does the command that the words name; its status, or 2 behind a line for each fault of the settings. Raises
    Failure, by which the tool ends with status 2 too."""
    given = words()
    try:
        return {"init": init, "run": run, "report": report, "gate": judge}[given.command](given)
    except Faults as faults:
        for line in faults.lines:
            print(f"{given.command}: {line}", file=sys.stderr)
        return program.FAILED
