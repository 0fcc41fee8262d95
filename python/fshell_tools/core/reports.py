"""The program's texts as small records, and the inputs, goals and runs that they tell of."""

import re
from dataclasses import dataclass, field
from typing import Any

ENDS = ("returned", "trapped", "any")
BOUNDS = ("turns", "frames", "answers")
VERDICTS = ("", "covered", "missed", "refuted", "undecided")
LEAST, GREATEST = -(2**63), 2**64 - 1


@dataclass(frozen=True)
class Input:
    """The arguments of an entry, and the answers that its input functions give in order. `own` has the keys that a user wrote
    beside them, as the text of a JSON object, or nothing."""

    args: tuple[int, ...]
    answers: tuple[int, ...] = ()
    own: str = ""

    def line(self) -> str:
        """As the program writes it behind an input's number."""
        words = ["args", *map(str, self.args)]
        return " ".join(words + (["answers", *map(str, self.answers)] if self.answers else []))

    def told(self) -> str:
        """The same, with the user's own keys behind it."""
        return f"{self.line()} {self.own}" if self.own else self.line()


@dataclass(frozen=True)
class Goal:
    """A goal with its verdict: covered, missed, refuted, undecided, or none where the query's goals are listed."""

    number: int
    verdict: str
    input: int | None
    text: str


@dataclass(frozen=True)
class Run:
    """How the run of an input ends, and the edges that it took, where they are told."""

    number: int
    end: str
    value: int | None
    edges: tuple[int, ...] = ()

    def is_counted(self, ends: str) -> bool:
        """Whether a run that ends so counts."""
        kind = self.end.split(" ")[0]
        return kind == "returned" or (kind == "trapped" and ends != "returned") or (kind != "cut" and ends == "any")


@dataclass
class Report:
    """What `measure`, `generate`, `goals`, `runs` or `trees` answered; parts that the command doesn't have are empty."""

    command: str
    goals: list[Goal] = field(default_factory=list)
    inputs: list[Input] = field(default_factory=list)
    runs: list[Run] = field(default_factory=list)
    suite: list[int] = field(default_factory=list)
    bounds: dict[str, int] = field(default_factory=dict)
    ends: str = "returned"

    def count(self, verdict: str) -> int:
        """How many goals have a verdict."""
        return sum(goal.verdict == verdict for goal in self.goals)


# ---- texts of the program


def numbers(words: str) -> tuple[int, ...]:
    """The whole numbers of a row of words."""
    return tuple(map(int, words.split()))


def number(value: object) -> int:
    """A whole number that an input may have; ValueError where it is none."""
    if isinstance(value, bool) or not isinstance(value, int) or not LEAST <= value <= GREATEST:
        raise ValueError(f"{value} is no whole number from -2^63 to 2^64 - 1")
    return value


def input_of(words: str) -> Input:
    """The input that `args .. answers ..` stands for. Raises ValueError where it is none."""
    found = re.fullmatch(r"args((?: -?\d+)*)(?: answers((?: -?\d+)+))?", words)
    if not found:
        raise ValueError(words)
    return Input(tuple(map(number, numbers(found[1]))), tuple(map(number, numbers(found[2] or ""))))


def run_of(number: int, words: str) -> Run:
    """The run that `END [edges ..]` stands for. Raises ValueError where it is none."""
    found = re.fullmatch(r"(returned|trapped [a-z-]+|blocked|too-deep|cut)(?: (-?\d+))?( edges((?: \d+)*))?", words)
    if not found:
        raise ValueError(words)
    return Run(number, found[1], None if found[2] is None else int(found[2]), numbers(found[4] or ""))


def goal_of(words: str) -> Goal:
    """The goal that `N [covered I|missed|refuted|undecided] TEXT` stands for."""
    found = re.fullmatch(r"(\d+) (?:covered (\d+)|(missed|refuted|undecided)) (.*)", words, re.DOTALL)
    if found:
        return Goal(int(found[1]), found[3] or "covered", int(found[2]) if found[2] else None, found[4])
    number, text = words.split(" ", 1)
    return Goal(int(number), "", None, text)


def _head(report: Report, line: str) -> int:
    """Reads the first line of a report; gives the number of its goals."""
    words = re.fullmatch(r"goals (\d+)((?: (?:inputs|turns|frames|answers|budget) \d+)*)(?: ends (trapped|any))?", line)
    if not words:
        raise ValueError(line)
    pairs = words[2].split()
    report.bounds = {name: int(value) for name, value in zip(pairs[::2], pairs[1::2]) if name != "inputs"}
    report.ends = words[3] or "returned"
    report.command = "generate" if report.bounds else "measure" if "inputs" in pairs else "goals"
    return int(words[1])


def _line(report: Report, line: str) -> None:
    """Reads another line of a report."""
    word, rest = (line.split(" ", 1) + [""])[:2]
    if word == "input":
        number, words = rest.split(" ", 1)
        if words.startswith("args"):
            report.inputs.append(input_of(words))
        else:
            report.runs.append(run_of(int(number), words))
    elif word == "goal":
        report.goals.append(goal_of(rest))
    elif word == "suite":
        report.suite = list(numbers(rest))
    elif word != "covered":
        raise ValueError(line)


def report_of_text(text: str) -> Report:
    """The report that a text of the program is; ValueError where it is none, or isn't whole."""
    lines = text.split("\n")
    if lines.pop() != "":
        raise ValueError("its last line isn't whole")
    # (trees tells no edges)
    report, count = Report("runs" if all(" edges" in line for line in lines) else "trees"), 0
    if lines and not lines[0].startswith("input "):
        count = _head(report, lines.pop(0))
    for line in lines:
        _line(report, line)
    if len(report.goals) != count:
        raise ValueError(f"it has {len(report.goals)} of {count} goals")
    return _whole(report)


def _whole(report: Report) -> Report:
    """A report whose goals and suite name inputs that it has, and which has all of its bounds; ValueError where it isn't so."""
    count = len(report.inputs) + len(report.runs)
    named = [goal.input for goal in report.goals if goal.verdict == "covered"] + report.suite
    for one in named:
        if not isinstance(one, int) or not 1 <= one <= count:
            raise ValueError(f"it names input {one} and has {count} inputs")
    for name in BOUNDS if report.command == "generate" else ():
        if not isinstance(report.bounds.get(name), int):
            raise ValueError(f"it has no bound {name}")
    return report


def _texts(*values: object) -> None:
    """TypeError where a value is no text."""
    for value in values:
        if not isinstance(value, str):
            raise TypeError(f"{value} is no text")


def report_of_json(value: Any) -> Report:
    """The report that a JSON line of the program is; KeyError, TypeError or ValueError where it is none."""
    report = Report("generate" if "bounds" in value else "measure")
    report.bounds, report.ends = dict(value.get("bounds", {})), value.get("ends", "returned")
    for count, goal in enumerate(value["goals"], 1):
        _texts(goal["answer"], goal["text"])
        report.goals.append(Goal(count, goal["answer"], goal.get("input"), goal["text"]))
    for count, one in enumerate(value["inputs"], 1):
        if "args" in one:
            report.inputs.append(Input(tuple(map(number, one["args"])), tuple(map(number, one["answers"]))))
        else:
            _texts(one["end"])
            report.runs.append(Run(count, one["end"], one.get("value")))
    report.suite = list(value["suite"])
    if report.ends not in ENDS or any(goal.verdict not in VERDICTS for goal in report.goals):
        raise ValueError("it has ends or an answer that isn't known")
    return _whole(report)
