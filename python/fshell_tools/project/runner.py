"""Does the tasks that aren't done, side by side."""

import concurrent.futures
import os
import shutil
from collections.abc import Iterable

from fshell_tools.core import inputs, program, progress, snapshots
from fshell_tools.core.graph import Graph
from fshell_tools.core.input_reader import Reader
from fshell_tools.core.named_inputs import Named, Signature
from fshell_tools.core.program import Failure
from fshell_tools.core.progress import Progress
from fshell_tools.project import requirements
from fshell_tools.project import unit as units
from fshell_tools.project.entry_slices import Slices
from fshell_tools.project.settings import Entry, Settings
from fshell_tools.project.tasks import Bounds, Context, Task, tasks_of
from fshell_tools.project.toml_tables import Faults
from fshell_tools.project.unit import Unit, sum_of_file, sum_of_text
from fshell_tools.project.work_folder import Work


def _given(settings: Settings, work: Work, unit: Unit, graph: Graph, entry: Entry) -> tuple[list[Named], Signature]:
    """The given inputs of an entry, which are kept in the program's form as long as nothing has changed."""
    for name in entry.inputs:
        snapshots.take_file(settings.at(name), name)
    reader = Reader(unit.place, unit.sources, graph, entry.function)
    place = work.task(entry.function, "given")
    sums = [(name, sum_of_file(settings.at(name))) for name in entry.inputs]
    key = sum_of_text(repr((unit.sum(), sums, entry.function)))
    if entry.inputs and place.is_done(key):
        return (reader.of_values(place.value("inputs.json"), "inputs.json"), reader.signature)
    found = [one for name in entry.inputs for one in _of_file(reader, settings.at(name), name)]
    if entry.inputs:
        place.keep("inputs.json", [one.value() for one in found])
        place.finish(key)
    return found, reader.signature


def _of_file(reader: Reader, path: str, shown: str) -> list[Named]:
    """The inputs of a file in any form."""
    text = program.read(path).decode(errors="surrogateescape")
    if text.lstrip(" \t\r\n")[:1] == "[":
        return reader.of_text(text, shown)
    found = [Named(one.args, one.answers) for one in inputs.of_file(path)]
    return reader.of_values([one.value() for one in found], shown)


def context_of(settings: Settings, work: Work, jobs: int, logins: str | None) -> Context:
    """What the tasks share: the unit, its automaton, the given inputs and the requirements. Raises Faults where an
    entry, a function that is left out, or a requirement of an input isn't there, and Failure where a file can't be
    read."""
    unit = units.made(settings, work.at("unit"))
    graph = unit.graph()
    defined = [one.name for one in graph.functions]
    wrong = [
        f"{settings.path}:{entry.line}: no source defines the function {entry.function}"
        for entry in settings.entries
        if entry.function not in defined
    ]
    wrong += [
        f"{settings.path}: left-out names {name}, which no source defines"
        for name in settings.module.left_out
        if name not in defined
    ]
    if wrong:
        raise Faults(wrong)
    pairs = {entry.function: _given(settings, work, unit, graph, entry) for entry in settings.entries}
    given = {name: pair[0] for name, pair in pairs.items()}
    signatures = {name: pair[1] for name, pair in pairs.items()}
    required = requirements.of_settings(settings)
    _check_requirements(settings, required, given)
    return Context(settings, unit, graph, Slices(unit), work, given, signatures, required, jobs, logins)


def _check_requirements(
    settings: Settings, required: tuple[requirements.Requirement, ...], given: dict[str, list[Named]]
) -> None:
    """A failure where an input names a requirement that there isn't."""
    known = {one.id for one in required}
    wrong = [
        f"{settings.path}: {one.id or 'an input'} of {entry} names the requirement {name}, which isn't there"
        for entry, tests in given.items()
        for one in tests
        for name in one.requirements
        if name not in known
    ]
    if wrong:
        raise Faults(wrong)


def _done(task: Task, context: Context) -> str:
    """Does a task; what is wrong, if anything."""
    try:
        task.run(context)
    except Failure as failure:
        return str(failure)
    return ""


def side_by_side(tasks: list[Task], context: Context, tell: Progress) -> list[str]:
    """Does tasks, at most `context.jobs` at a time; what went wrong, a line each. Where it is interrupted, those that
    haven't begun are left."""
    workers = max(1, min(context.jobs, len(tasks)))
    wrong = []
    with concurrent.futures.ThreadPoolExecutor(workers) as pool:
        waiting = {pool.submit(_done, task, context): task for task in tasks}
        try:
            for one in concurrent.futures.as_completed(waiting):
                task, failure = waiting[one], one.result()
                wrong += [failure] if failure else []
                tell.step(f"{task.entry.function}, {task.name}")
        except BaseException:
            pool.shutdown(wait=False, cancel_futures=True)
            raise
    return wrong


def left(context: Context) -> list[Task]:
    """The tasks that aren't done, in their order."""
    return [task for task in tasks_of(context.settings, context.requirements) if not task.is_done(context)]


def run(context: Context, entry: str | None = None) -> int:
    """Does what isn't done, of all entries or of one, the bounds first; gives the number of tasks that were. Raises
    Faults with a line for each task that failed."""
    if entry is None:
        _forget(context)
    tasks = [task for task in left(context) if entry in (None, task.entry.function)]
    os.environ["FSHELL"] = program.program()
    first: list[Task] = [task for task in tasks if isinstance(task, Bounds)]
    parts = [first, [task for task in tasks if task not in first]]
    with progress.shown(Progress("project: tasks", len(tasks))) as tell:
        for part in parts:
            wrong = side_by_side(part, context, tell)
            if wrong:
                raise Faults(wrong)
    return len(tasks)


def _forget(context: Context) -> None:
    """Removes the folders of entries and tasks that the file no longer has."""
    wanted = {(task.entry.function, task.name) for task in tasks_of(context.settings, context.requirements)}
    names = {entry for entry, _ in wanted}
    for entry in _names(context.work.at("tasks")):
        for name in _names(context.work.at("tasks", entry)):
            base = name.removesuffix(".new").removesuffix(".old")
            if entry not in names or (base != "given" and (entry, base) not in wanted):
                shutil.rmtree(context.work.at("tasks", entry, name), ignore_errors=True)


def _names(path: str) -> Iterable[str]:
    return sorted(os.listdir(path)) if os.path.isdir(path) else ()
