"""`events` beside what `graph` and `runs` tell: each edge of a run tells events by its line in the automaton alone.

What an edge tells is read here from its printed line (docs/FORMATS.md). One thing no line has: whether the result of a call is put
anywhere. So behind `left` and `answered` of an edge of the kind CALL one `did CALL` may stand, or none.

Tried are the examples, some inputs of the programs of test_all_inputs.py, and random programs, those that models/gcc/program_runs makes
(for which no gcc is needed), also cut after few edges: then as many events stand there as edges at least.
"""

import dataclasses
import functools
import json
import os
import re
import subprocess
import tempfile
from collections.abc import Callable, Iterator

from tests import environment
from tests.parallel_groups import Outcome
from tests.program import test_all_inputs, test_ast_outcomes

RANDOM = range(2001, 2017)
FEW, MANY = (1, 7, 40), 20000
INPUTS = 60
LINE = re.compile(
    r"edge (?P<number>\d+) from \d+ to (?P<target>\d+) (?P<place>\S+:\d+:\d+) (?P<kind>[A-Z]+) "
    r"(?P<operation>skip|assign|clear|guard true|guard false|call \S+|return \S+|answer \S+|assert|assume)(?P<marks>.*)"
)
# the folder of examples/, the entry, the file of inputs or the inputs as lines, the sources
EXAMPLES = (
    ("first", "f", "in.txt", ("a.c",)),
    ("average", "average", "in.txt", ("quotient.c", "average.c")),
    ("clamp", "clamp", "in.txt", ("clamp.c",)),
    ("triangle", "classify", "sides.txt", ("tri.c",)),
    ("triangle", "main_loop", '[{"args":[13],"answers":[1,3,4,5,1,2,2,2,1,9,1,1,0]},{"args":[0]}]', ("tri.c",)),
    ("counting", "count", "0\n1\n3\n7\n", ("count.c",)),
    ("counting", "both", '[{"args":[1],"answers":[5,9]},{"args":[1]},{"args":[0],"answers":[5,9]}]', ("both.c",)),
    ("counting", "upto", "0\n4\n5\n", ("upto.c",)),
    ("never", "f", "0\n11\n", ("never.c",)),
)


@dataclasses.dataclass(frozen=True)
class Edge:
    """An edge of a printed automaton: its place as it is printed, the word of its kind, its operation with the name behind it, and its
    marks; `ends` says whether it leads to the exit of a function."""

    place: str
    kind: str
    operation: str
    marks: str
    ends: bool

    def written(self) -> str:
        """The name of the first variable that it writes, behind a space, or nothing."""
        found = re.search(r" writes( \S+)", self.marks)
        return found[1] if found else ""


def read(text: str) -> list[Edge]:
    """The edges of a printed automaton, by number. Raises ValueError for a line that isn't of the form."""
    lines = text.splitlines()
    exits = {line.split()[-1] for line in lines if line.startswith("function ")}
    found = [LINE.fullmatch(line) for line in lines if line.startswith("edge ")]
    edges = []
    for number, line in enumerate(found):
        if line is None or int(line["number"]) != number:
            raise ValueError(f"graph: edge {number}")
        edges.append(Edge(line["place"], line["kind"], line["operation"], line["marks"], line["target"] in exits))
    return edges


def skipped(edge: Edge) -> str:
    """What an edge tells along which nothing is computed."""
    label = re.search(r" label( \S+)", edge.marks)
    words = {"FOR": "always", "SWITCH": "straight"}
    if re.search(r" enter\b", edge.marks):
        return f"enters {edge.kind} {edge.place}"
    if re.search(r" back\b", edge.marks):
        return f"again {edge.kind} {edge.place}"
    if label:
        return f"did {edge.kind} {edge.place}{label[1]}"
    return f"{words.get(edge.kind, 'did')} {edge.kind} {edge.place}"


def told(edge: Edge) -> str:
    """The line of the event that an edge tells first."""
    word, _, name = edge.operation.partition(" ")
    at = f"{edge.kind} {edge.place}"
    if word == "guard":
        return f"outcome {at} {name}" + (" settles" if re.match(r"( decision)? outcome\b", edge.marks) else "")
    if word in ("call", "return", "answer"):
        return {"call": "entered", "return": "left", "answer": "answered"}[word] + f" {name}"
    if word == "skip":
        return skipped(edge)
    if word == "assign" and not edge.written() and not (edge.kind == "RETURN" and edge.ends):
        return f"valued {at}"
    return f"did {at}{edge.written()}"


def may_end(edge: Edge) -> bool:
    """Whether a call that is a statement may be done with an edge."""
    return edge.kind == "CALL" and edge.operation.startswith(("return ", "answer "))


def wrong_at(events: list[str], taken: list[Edge]) -> str:
    """The first line that differs from what the edges of a run tell, or nothing."""
    rest = list(reversed(events))
    for number, edge in enumerate(taken):
        line = rest.pop() if rest else "nothing"
        if line != told(edge):
            return f"at edge {number} {line}, not {told(edge)}"
        if may_end(edge) and rest and rest[-1] == f"did CALL {edge.place}":
            rest.pop()
    return f"{rest[-1]} behind the last edge" if rest else ""


def parted(lines: list[str]) -> list[tuple[str, list[str]]]:
    """The lines of inputs, each with the lines behind it."""
    answer: list[tuple[str, list[str]]] = []
    for line in lines:
        if line.startswith("input "):
            answer.append((line, []))
        else:
            answer[-1][1].append(line)
    return answer


def differing(steps: int, entry: str, inputs: str, sources: list[str], folder: str) -> list[str]:
    """A line for each input whose events differ from what the edges of its run tell."""
    words = ["--steps", str(steps), entry, inputs, "--", *sources]
    edges = read("\n".join(test_ast_outcomes.said(["graph", "--", *sources], folder)))
    runs = test_ast_outcomes.said(["runs", *words], folder)
    events = parted(test_ast_outcomes.said(["events", *words], folder))
    if len(runs) != len(events):
        return [f"{len(events)} inputs, not {len(runs)}"]
    wrong = []
    for run, (line, told_lines) in zip(runs, events):
        end, _, numbers = run.partition(" edges")
        taken = [edges[int(number)] for number in numbers.split()]
        fault = f"{line}, not {end}" if line != end else wrong_at(told_lines, taken)
        fault = fault or (f"{len(told_lines)} events of {len(taken)} edges" if len(told_lines) < len(taken) else "")
        wrong += [f"{end} with {steps} steps: {fault}"] if fault else []
    return wrong


def at_steps(entry: str, inputs: str, sources: list[str], folder: str) -> list[str]:
    """The same with many steps and with few."""
    return [line for steps in (MANY, *FEW) for line in differing(steps, entry, inputs, sources, folder)]


def of_example(row: tuple[str, str, str, tuple[str, ...]], folder: str) -> list[str]:
    """The same of a row of the examples."""
    name, entry, inputs, sources = row
    home = os.path.join(environment.ROOT, "examples", name)
    if inputs.endswith(".txt"):
        return at_steps(entry, inputs, list(sources), home)
    path = os.path.join(folder, "inputs.json")
    with open(path, "w", encoding="ascii") as file:
        file.write(inputs)
    return at_steps(entry, path, list(sources), home)


def of_source(source: str, entry: str, inputs: str, folder: str) -> list[str]:
    """The same of a source and inputs as JSON, which are written into a folder."""
    for name, content in (("p.c", source), ("in.json", inputs)):
        with open(os.path.join(folder, name), "w", encoding="ascii") as file:
            file.write(content)
    return at_steps(entry, "in.json", ["p.c"], folder)


def of_some(name: str, folder: str) -> list[str]:
    """The same of some inputs of a program of test_all_inputs.py, as far from one another as they can be."""
    program = next(program for program in test_all_inputs.TABLE if program.name == name)
    every = list(program.inputs())
    some = every[:: max(1, len(every) // INPUTS)]
    inputs = json.dumps([{"args": words, "answers": answers} for words, answers in some])
    return of_source(test_all_inputs.SOURCES[name], "f", inputs, folder)


def of_seed(seed: int, folder: str) -> list[str]:
    """The same of the random program with this number."""
    program = test_ast_outcomes.generator()(seed)
    return of_source("\n".join(program.ours) + "\n", program.entry, json.dumps(program.inputs()), folder)


def sources() -> Iterator[tuple[str, Callable[[str], list[str]]]]:
    """A name for each source that is tried, with what looks at it in a folder."""
    for row in EXAMPLES:
        yield f"{row[0]}, {row[1]}", functools.partial(of_example, row)
    for name in test_all_inputs.SOURCES:
        yield f"inputs of {name}", functools.partial(of_some, name)
    for seed in RANDOM:
        yield f"random program {seed}", functools.partial(of_seed, seed)


def outcome(name: str, looks: Callable[[str], list[str]]) -> Outcome:
    """One source, and a line where its events are others than the edges tell."""
    with tempfile.TemporaryDirectory() as folder:
        try:
            lines = looks(folder)
        except (subprocess.TimeoutExpired, ValueError) as fault:
            lines = [str(fault)]
    return 1, [f"{name}: {'; '.join(lines)}"[:600]] if lines else []


def parts() -> list[Callable[[], Outcome]]:
    """The sources, a part each."""
    return [functools.partial(outcome, name, looks) for name, looks in sources()]
