"""What is known of the goals of fshell rte, and of its bounds, in its folder: each fact is a file, and is checked again in each run.

The folder is that of a campaign (python/fshell_tools/campaign/state_folder.py) with `bounds.cert`, the certificate that the bounds suffice, and the folder
`reached`, which is that of a campaign for the nodes that runs come to.
"""

import os
from collections.abc import Iterable
from concurrent.futures import ThreadPoolExecutor
from dataclasses import dataclass, replace

from fshell_tools.bounds import sufficiency
from fshell_tools.campaign.main import measured
from fshell_tools.campaign.request import Asked
from fshell_tools.campaign.state_folder import STEPS, TOO_LARGE, Folder
from fshell_tools.core import graph as graphs
from fshell_tools.core import inputs, program, progress
from fshell_tools.core.graph import Graph
from fshell_tools.core.program import Failure
from fshell_tools.core.progress import Progress
from fshell_tools.core.reports import Input, Run

ENDINGS, REACHED = "cover NODES(ID)$", "cover NODES(ID)"
CERTIFICATE = "fshell certificate 1\n"


@dataclass(frozen=True)
class Failed:
    """An input whose run ends wrongly, and how it ends, in the program's words."""

    input: Input
    end: str


@dataclass(frozen=True)
class Known:
    """Of each node that has a goal its number; the refuted nodes, those where runs were found that end there, and why
    others are open."""

    goals: dict[int, int]
    refuted: set[int]
    failed: dict[int, Failed]
    open: dict[int, str]


def node_of(graph: Graph, text: str) -> int:
    """The number of the node that a goal asks for. Raises Failure where its text asks for anything else."""
    try:
        (letter,) = graphs.letters(graph, text)
    except ValueError:
        raise Failure(f"the goal {text} isn't known") from None
    if not letter.node:
        raise Failure(f"the goal {text} isn't known")
    return letter.node.number


def goals_of(graph: Graph, asked: Asked) -> dict[int, int]:
    """The number of the goal of each node. Raises Failure where the program refuses the query."""
    return {node_of(graph, goal.text): goal.number for goal in measured(asked, []).goals}


def side_by_side(jobs: int) -> ThreadPoolExecutor:
    """Threads for `jobs` searches at a time. Raises Failure where there is no program to ask."""
    program.program()
    return ThreadPoolExecutor(jobs)


def decide(folder: Folder, asked: Asked, wanted: Iterable[int], jobs: int) -> dict[int, Input]:
    """Has goals decided, and gives the inputs of those that are hit, by the goals' numbers. Certificates that are there
    are checked again. Raises Failure where the program refuses the query or a file can't be written."""
    folder.forget_checks()
    with side_by_side(jobs) as pool:
        list(pool.map(lambda goal: folder.is_checked(asked, goal), folder.numbers("certificates", ".cert")))
    made, found = folder.generated(asked), folder.found()
    for goal in made.goals if made else ():
        if goal.input and made:
            found.setdefault(goal.number, made.inputs[goal.input - 1])
    known = set(folder.numbers("certificates", ".cert")) | set(found) | set(folder.open(asked.budget))
    easy = folder.known_refuted()
    left = sorted(set(wanted) - known)
    with side_by_side(jobs) as pool, progress.shown(Progress("rte: goals", len(left))) as tell:
        for _ in pool.map(lambda goal: folder.decide(goal, goal in easy), left):
            tell.step()
    return folder.found() | found


def runs_of(asked: Asked, found: list[Input]) -> list[Run]:
    """The runs of inputs, with their edges. Raises Failure where the program refuses the inputs."""
    if not found:
        return []
    with program.as_file(inputs.json_text(found)) as path:
        return program.report(["runs", asked.entry, path, *asked.sources, "--steps", STEPS], asked.place).runs


def known(graph: Graph, folder: Folder, asked: Asked, left_out: set[int], jobs: int) -> Known:
    """What is known of all ends but those at some nodes; an input is kept only where its run ends at its node. Raises
    Failure as `decide` does."""
    goals = {node: goal for node, goal in goals_of(graph, asked).items() if node not in left_out}
    found = decide(folder, asked, goals.values(), jobs)
    refuted = set(folder.refuted(asked))
    shown = {node: found[goal] for node, goal in goals.items() if goal in found}
    start = graph.function(asked.entry).entry
    failed = {}
    for (node, one), run in zip(shown.items(), runs_of(asked, list(shown.values()))):
        at = graph.edges[run.edges[-1]].target if run.edges else start
        if at == node and run.end.split(" ")[0] not in ("returned", "cut") and run.is_counted(asked.ends):
            failed[node] = Failed(one, run.end)
    said = folder.open(asked.budget)
    left = {node: said.get(goal, "it wasn't decided") for node, goal in goals.items()
            if goal not in refuted and node not in failed}  # fmt: skip
    return Known(goals, {node for node, goal in goals.items() if goal in refuted}, failed, left)


def not_reached(graph: Graph, path: str, asked: Asked, nodes: set[int], jobs: int) -> set[int]:
    """Which of some nodes no run comes to within the bounds, by certificates in the folder `reached` below `path`.
    Raises Failure as `decide` does."""
    ours = replace(asked, query=REACHED, ends="any")
    goals = {node: goal for node, goal in goals_of(graph, ours).items() if node in nodes}
    folder = Folder(os.path.join(path, "reached"))
    folder.begin(ours, [])
    folder.clean()
    decide(folder, ours, goals.values(), jobs)
    refuted = set(folder.refuted(ours))
    return {node for node, goal in goals.items() if goal in refuted}


# ---- the bounds


def check_bounds(asked: Asked, path: str) -> str:
    """Why `check-bounds` rejects the certificate at `path`, in its own words, or nothing."""
    options = sufficiency.options_of(asked.bounds)
    ended = program.run(["check-bounds", asked.entry, os.path.abspath(path), *asked.sources, *options], asked.place)
    return (ended.stderr.strip() or f"status {ended.status}") if ended.status else ""


def prove_bounds(folder: Folder, asked: Asked) -> str:
    """The line that `prove-bounds` writes; `bounds suffice` only where `check-bounds` accepts the certificate, which is
    kept in the folder. Raises Failure where the program refuses, or rejects its own certificate."""
    kept, path = folder.at("bounds.cert"), folder.at(f".new.bounds.{os.getpid()}")
    if os.path.exists(kept) and not check_bounds(asked, kept):
        return "bounds suffice"
    words = [
        "prove-bounds",
        asked.entry,
        *asked.sources,
        *sufficiency.options_of(asked.bounds),
        "--budget",
        str(asked.budget),
    ]
    try:
        with open(path, "wb") as file:
            ended = program.started(words, asked.place, file)
        with open(path, "rb") as file:
            line = file.readline(1_000_000).decode()
        said = ended.stderr.decode().strip()
        if said.startswith(TOO_LARGE):
            return "bounds open"
        if ended.returncode not in (program.DONE, program.OPEN):
            raise Failure(f"fshell prove-bounds: {said or f'status {ended.returncode}'}")
        if line != CERTIFICATE:
            return line.strip()
        wrong = check_bounds(asked, path)
        if wrong:
            raise Failure(f"check-bounds rejects the certificate of the bounds: {wrong}")
        os.replace(path, kept)
        return "bounds suffice"
    finally:
        if os.path.exists(path):
            os.remove(path)


def has_bounds_certificates() -> bool:
    """Whether the program has the commands prove-bounds and check-bounds."""
    return "Usage" not in program.run(["prove-bounds", "f", "/no/source.c"]).stderr
