"""One `generate` over many goals in parts side by side, whose answers are joined as if it had been one.

A query without a passing clause whose goals are single edges asks for those of some functions alone where `in` stands before it;
so the goals of the functions, taken together, are those of the query. Where they aren't, and where there are few, one `generate` is
asked for all. The parts don't hang on the number of processors, so that each machine gets the same answer.
"""

import json
import re
from collections.abc import Callable, Iterator
from concurrent.futures import ThreadPoolExecutor, as_completed
from typing import Any

from fshell_tools.campaign.request import Asked
from fshell_tools.core import graph as graphs
from fshell_tools.core import program
from fshell_tools.core.program import Ended
from fshell_tools.core.reports import Report

MANY, PARTS = 400, 16
_FILTERS = re.compile(r"\s*cover\s+[@\w(),\s]+", re.IGNORECASE)
_EDGE = re.compile(r"e(\d+)@[^ ]*")
Tell = Callable[[int, int], None]


def words_of(asked: Asked, query: str, budget: int) -> list[str]:
    """The program's words for one part of a split `generate`, as JSON where it writes that."""
    words = ["generate", asked.entry, query, *asked.sources, *asked.words(), "--budget", str(budget)]
    return program.with_json(words)


def parts_of(asked: Asked) -> list[tuple[str, list[str]]]:
    """The queries of the parts, each with its goals' texts; none where it isn't to be split."""
    if not _FILTERS.fullmatch(asked.query) or re.search(r"\bpassing\b", asked.query, re.IGNORECASE):
        return []
    texts = [goal.text for goal in _goals(asked, asked.query).goals]
    found = [_EDGE.fullmatch(text) for text in texts]
    if len(texts) < MANY or None in found:
        return []
    graph = graphs.of_sources(asked.sources, asked.place)
    of_function: dict[str, list[str]] = {}
    for one in found:
        if one:
            of_function.setdefault(graph.owner(graph.edges[int(one[1])]), []).append(one[0])
    parts = [(f"in {within(names)} {asked.query.strip()}", goals) for names, goals in gathered(of_function, len(texts))]
    if len(parts) < 2 or any(
        sorted(g.text for g in _goals(asked, query).goals) != sorted(goals) for query, goals in parts
    ):
        return []
    return parts


def _goals(asked: Asked, query: str) -> Report:
    """The goals of a query; none where it is refused."""
    ended = program.run(["goals", query, *asked.sources], asked.place)
    return program.report_of(["goals"], ended) if ended.status == program.DONE else Report("goals")


def within(names: list[str]) -> str:
    """The filter of some functions."""
    text = f"@FUNC({names[-1]})"
    for name in reversed(names[:-1]):
        text = f"UNION(@FUNC({name}),{text})"
    return text


def gathered(of_function: dict[str, list[str]], total: int) -> Iterator[tuple[list[str], list[str]]]:
    """Functions side by side in parts of about the same number of goals."""
    names: list[str] = []
    goals: list[str] = []
    for name, own in of_function.items():
        names.append(name)
        goals += own
        if len(goals) * PARTS >= total:
            yield names, goals
            names, goals = [], []
    if names:
        yield names, goals


def joined(asked: Asked, answers: list[dict[str, Any]]) -> dict[str, Any]:
    """The answers of the parts as one, in the order of the whole query's goals."""
    inputs: dict[str, dict[str, Any]] = {}
    places: dict[str, int] = {}
    by_text: dict[str, dict[str, Any]] = {}
    suite: list[int] = []
    for value in answers:
        keys = [json.dumps(one, sort_keys=True) for one in value["inputs"]]
        inputs |= zip(keys, value["inputs"])
        numbers = [places.setdefault(key, len(places) + 1) for key in keys]
        for goal in value["goals"]:
            by_text[goal["text"]] = goal | ({"input": numbers[goal["input"] - 1]} if "input" in goal else {})
        suite += [numbers[number - 1] for number in value["suite"]]
    goals = [by_text[goal.text] for goal in _goals(asked, asked.query).goals]
    counts = {word: sum(goal["answer"] == word for goal in goals) for word in ("covered", "refuted", "undecided")}
    ends = {name: answers[0][name] for name in ("ends",) if name in answers[0]}
    return {
        "bounds": answers[0]["bounds"],
        **counts,
        **ends,
        "goals": goals,
        "inputs": list(inputs.values()),
        "suite": sorted(set(suite)),
    }


def generate(asked: Asked, budget: int, jobs: int, tell: Tell) -> Ended:
    """What `generate` answers of all goals, or how it refuses; `tell` hears how many goals are done, and of how many."""
    parts = parts_of(asked)
    if not parts:
        return program.run(words_of(asked, asked.query, budget), asked.place)
    total, done = sum(len(goals) for _, goals in parts), 0
    answers: list[Ended | None] = [None] * len(parts)
    with ThreadPoolExecutor(jobs) as pool:
        waiting = {
            pool.submit(program.run, words_of(asked, query, budget), asked.place): at
            for at, (query, _) in enumerate(parts)
        }
        for one in as_completed(waiting):
            answers[waiting[one]] = one.result()
            done += len(parts[waiting[one]][1])
            tell(done, total)
    ended = [one for one in answers if one]
    refused = next((one for one in ended if one.status not in (program.DONE, program.OPEN)), None)
    if refused:
        return refused
    value = joined(asked, [json.loads(one.stdout) for one in ended])
    return Ended(max(one.status for one in ended), json.dumps(value) + "\n", "")
