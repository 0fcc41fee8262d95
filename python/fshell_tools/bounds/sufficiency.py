"""Whether runs leave bounds: what `bounds` says, which bound its input leaves and where, and which bounds to try next.

A run is counted here as docs/STEPS.md says: a loop's counter is opened by the edge that enters it and raised by each edge back to
its head, a frame stands from a call to its return, and each answer counts.
"""

from collections.abc import Iterator, Mapping, Sequence
from dataclasses import dataclass, field
from typing import Any

from fshell_tools.core import inputs, original_sources, program, translation_traps
from fshell_tools.core.graph import Edge, Graph
from fshell_tools.core.program import RANGES
from fshell_tools.core.reports import BOUNDS, Input, Run, input_of
from fshell_tools.core.verdicts import Limits
from fshell_tools.order import main as order

# (the walk to where a run leaves bounds has at most 50,000 edges, by code 80)
STEPS = 100_000


@dataclass
class Counts:
    """The counters of a run's state: those of each frame's loops, and how many answers were read."""

    frames: list[list[int]] = field(default_factory=lambda: [[]])
    answers: int = 0
    greatest: dict[str, int] = field(default_factory=lambda: {"turns": 0, "frames": 1, "answers": 0})

    def take(self, graph: Graph, edge: Edge) -> None:
        """Goes along an edge."""
        loops = self.frames[-1]
        if edge.operation == "call":
            self.frames.append([])
        elif edge.operation == "return":
            self.frames.pop()
        elif edge.enter:
            loops.append(0)
        elif edge.back:
            loops[-1] += 1
        if edge.operation not in ("call", "return"):
            del loops[min(graph.nodes[edge.source].depth, graph.nodes[edge.target].depth) + edge.enter :]
        self.answers += edge.operation == "answer"
        now = {"turns": max(self.frames[-1], default=0), "frames": len(self.frames), "answers": self.answers}
        self.greatest = {name: max(now[name], self.greatest[name]) for name in BOUNDS}


def counted(graph: Graph, run: Run) -> Iterator[tuple[Edge, Counts]]:
    """The edges of a run with the counters behind each."""
    counts = Counts()
    for number in run.edges:
        counts.take(graph, graph.edges[number])
        yield graph.edges[number], counts


def where(
    graph: Graph, run: Run, bounds: dict[str, int], place: str | None, own: Mapping[str, str] | None = None
) -> str:
    """Which bound a run leaves first and where, in a few words; nothing where it stays within them. The sources stand in `place`;
    `own` has the names of files as they are shown, where these are others than their paths from there."""
    for edge, counts in counted(graph, run):
        if not any(counts.greatest[name] > bounds[name] for name in BOUNDS):
            continue
        at = original_sources.place_of(edge.file, edge.line, edge.column, place, own)
        if counts.greatest["turns"] > bounds["turns"]:
            node = graph.nodes[edge.target]
            return f"turn {counts.greatest['turns']} of the loop at {original_sources.place_of(node.file, node.line, 0, place, own)}"
        if counts.greatest["frames"] > bounds["frames"]:
            return f"frame {counts.greatest['frames']}: a call of {edge.name} at {at}"
        if counts.greatest["answers"] > bounds["answers"]:
            return f"answer {counts.answers} of {edge.name} at {at}"
    return ""


def next_bounds(graph: Graph, run: Run, bounds: dict[str, int]) -> dict[str, int]:
    """The bounds to try next: those that a run which ended takes; of one that went on, twice those that it left. A bound stays
    where it is no less, and within its range."""
    counts = Counts()
    for _, counts in counted(graph, run):
        pass
    wanted = dict(bounds)
    for name in BOUNDS:
        if counts.greatest[name] > bounds[name]:
            greater = max(2 * bounds[name], 1) if run.end == "cut" else counts.greatest[name]
            wanted[name] = min(greater, RANGES[name][1])
    return wanted


@dataclass(frozen=True)
class Left:
    """What is known of bounds, and the options of those to try next, where there are any."""

    limits: Limits
    options: str = ""

    def lines(self) -> Iterator[str]:
        """What is said of the bounds."""
        if self.limits.suffice:
            yield "the bounds suffice: no run at all leaves them"
            if self.limits.restriction:
                yield f"no refuted goal is called unreachable: {self.limits.restriction}"
        elif self.limits.left:
            yield f"the bounds don't suffice: {self.limits.where}, by the input {self.limits.left.line()}"
            yield f"bounds to try next: {self.options}" if self.options else "a greater bound can't be asked for"
        else:
            yield "whether a run leaves the bounds is open: the budget of `bounds` was spent"


def of_value(value: dict[str, Any]) -> Left:
    """What a campaign's report has as `limits`."""
    left = inputs.of_object(value["left"]) if value["left"] else None
    return Left(Limits(value["suffice"], left, value["where"], value["restriction"]), value["next"])


def options_of(bounds: dict[str, int]) -> list[str]:
    """The bounds as options of the program."""
    return [word for name in BOUNDS for word in (f"--{name}", str(bounds[name]))]


def asked(
    graph: Graph,
    entry: str,
    sources: Sequence[str],
    bounds: dict[str, int],
    budget: int,
    place: str | None = None,
    *,
    query: str | None,
    ends: str = "returned",
) -> Left:
    """What the program says of bounds; where it names an input that leaves them, its run is counted. Where they suffice, it is said
    whether C leaves an order of evaluation open that matters for what the query refutes over runs with these ends; for goals that
    no run of any end hits that is what matters for runs that return (docs/ORDER.md). Where the query isn't known it is None.
    """
    words = ["bounds", entry, *sources, *options_of(bounds), "--budget", str(budget)]
    return of_answer(program.answer(words, place).strip(), graph, entry, sources, bounds, place, query=query, ends=ends)


def of_answer(
    said: str,
    graph: Graph,
    entry: str,
    sources: Sequence[str],
    bounds: dict[str, int],
    place: str | None = None,
    *,
    query: str | None,
    ends: str,
) -> Left:
    """What the line of `bounds` or of `prove-bounds` says."""
    if not said.startswith("bounds left "):
        if not said.startswith("bounds suffice"):
            return Left(Limits())
        why = translation_traps.restriction(entry, sources, options_of(bounds), place)
        return Left(Limits(suffice=True, restriction=why or order.restriction(entry, sources, query, ends, place)))
    one = input_of(said.removeprefix("bounds left "))
    run = run_of(entry, sources, one, place)
    tried = next_bounds(graph, run, bounds)
    options = " ".join(f"--{name} {tried[name]}" for name in BOUNDS if tried[name] != bounds[name])
    return Left(Limits(False, one, where(graph, run, bounds, place)), options)


def run_of(entry: str, sources: Sequence[str], one: Input, place: str | None) -> Run:
    """The run of an input, as far as it can leave bounds."""
    with program.as_file(inputs.json_text([one])) as path:
        (run,) = program.report(["runs", entry, path, *sources, "--steps", str(STEPS)], place).runs
    return run


EVERY_RUN = 'cover "ID*"'


def no_run(
    entry: str, sources: Sequence[str], bounds: dict[str, int], budget: int, ends: str, place: str | None
) -> str:
    """That no run at all stays within bounds, or none that counts, in words; nothing where one does, or it isn't known."""
    for kind, words in (("any", "no run at all"), (ends, "no run that counts")):
        asked_for = ["generate", entry, EVERY_RUN, *sources, *options_of(bounds), "--budget", str(budget)]
        report = program.report([*asked_for, "--ends", kind], place)
        if report.goals and report.goals[0].verdict == "refuted":
            return f"{words} stays within the bounds"
    return ""
