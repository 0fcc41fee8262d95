"""--compare: the original and what was written, built by each compiler that is there at each level, run on the same inputs.

A run has a meaning up to where a sanitizer of any build of the original ends it, or to the end of a function that should give
something; up to there all builds must agree: what each call gives, all variables of the file behind it, and how the run ends.
"""

import tempfile
from collections import Counter
from collections.abc import Iterator, Sequence
from dataclasses import dataclass

from fshell_tools.adapt.command.compare_builds import PATIENT, TIME_IS_UP, Build, Run, all_built
from fshell_tools.adapt.command.compare_inputs import Given, Inputs
from fshell_tools.adapt.command.compare_texts import DEEP, FELL_OFF, Texts, parts
from fshell_tools.adapt.common.c_types import Int
from fshell_tools.adapt.write.writer import Writer

ENDED, FAILED = 0, -6  # a run to its end, and one whose assert failed
# why a run has no meaning from some call on, by its status
OUTSIDE, TRAPPED, FELL = "outside of an object", "a sanitizer's trap", "the end of a function without a value"
STATUSES = {70: OUTSIDE, -11: OUTSIDE, -7: OUTSIDE, FELL_OFF: FELL}


@dataclass
class Trial:
    """An input with the calls that have a meaning in all builds so far, and why there are no more."""

    number: int
    given: Given
    calls: int
    why: str = ""
    is_cut: bool = False
    told: str = ""

    @property
    def line(self) -> str:
        """The words of these calls."""
        return self.given.line(self.calls)

    def cut(self, run: Run, why: str) -> None:
        """The run has no meaning, or isn't known, behind the calls that came back."""
        self.calls, self.is_cut = min(self.calls, run.whole), True
        self.why = self.why or why

    def seen(self, run: Run) -> tuple[int, list[str]]:
        """What is compared of a run."""
        return (ENDED, run.lines[: self.calls]) if self.is_cut else (run.status, run.lines[: run.whole])


class Comparison:
    """The builds of what was adapted, in a folder."""

    def __init__(self, writer: Writer, sources: list[str], made: dict[str, str], flags: list[str], folder: str) -> None:
        """Raises Stop where nothing can be compared, or a program can't be built."""
        texts = Texts(writer)
        self.folder = folder
        self.names = [one.name + text for one in texts.in_order() for text, *_ in parts(one.type)]
        self.entries, self.inputs = texts.entries, Inputs(texts)
        original, adapted = texts.original(sources), texts.adapted(made, folder)
        self.builds, self.missing = all_built(original, adapted, flags, folder)

    def compared(self, given: Sequence[Given]) -> list[Trial]:
        """What is found of each input."""
        trials = [Trial(number, one, len(one.calls)) for number, one in enumerate(given, 1)]
        theirs = [self.originals(build, trials) for build in self.builds]
        ours = [self.written(build, trials) for build in self.builds]
        for trial in trials:
            trial.told = next(self.differences(trial, theirs, ours), "")
        return trials

    def originals(self, build: Build, trials: list[Trial]) -> list[Run]:
        """The runs of the original by a build; each trial is cut where one has no meaning."""
        runs = build.ran("original", [trial.line for trial in trials])
        for trial, run in zip(trials, runs):
            if run.status in TIME_IS_UP:
                trial.cut(run, "")
            elif run.status not in (ENDED, FAILED):
                trial.cut(run, STATUSES.get(run.status, TRAPPED))
        return runs

    def written(self, build: Build, trials: list[Trial]) -> list[Run]:
        """The same of what was written. A run that is slower than the original's is tried again, with more time."""
        runs = build.ran("adapted", [trial.line for trial in trials])
        late = [at for at, run in enumerate(runs) if run.status in TIME_IS_UP]
        if late:
            again = build.ran("adapted", [trials[at].line for at in late[:3]], PATIENT)
            for at, run in zip(late, again):
                runs[at] = run
        for at, (trial, run) in enumerate(zip(trials, runs)):
            if run.status in (FELL_OFF, DEEP) or (run.status in TIME_IS_UP and at in late[3:]):
                trial.cut(run, FELL if run.status == FELL_OFF else "")
        return runs

    def differences(self, trial: Trial, theirs: list[list[Run]], ours: list[list[Run]]) -> Iterator[str]:
        """How the runs of an input differ: those of the original by its builds, and then those of what was written."""
        at = trial.number - 1
        due = trial.seen(theirs[0][at])
        for what, programs in (("the original", theirs), ("what was written", ours)):
            for build, runs in zip(self.builds, programs):
                if trial.seen(runs[at]) != due:
                    head = f"input {trial.number}, {what} by {build.name}: "
                    yield head + self.told(trial, trial.seen(runs[at]), due)

    def told(self, trial: Trial, seen: tuple[int, list[str]], due: tuple[int, list[str]]) -> str:
        """How what is seen of a run differs from what is due: by the first call that does, or by the ends."""
        base = f"by the original of {self.builds[0].name}"
        for call, line, wanted in zip(trial.given.calls, seen[1], due[1]):
            if line != wanted:
                words = zip(self.labels(call), line.split(), wanted.split())
                what, one, two = next(row for row in words if row[1] != row[2])
                return f"{self.inputs.shown(call)}: {what} is {one}, {base} {two}"
        ends = [f"status {status} behind {len(lines)} calls" for status, lines in (seen, due)]
        return f"it ends with {ends[0]}, {base} with {ends[1]}"

    def labels(self, call: list[int]) -> list[str]:
        """What each number of a call's line is."""
        result = ["the result"] if isinstance(self.entries[call[0]].result, Int) else []
        return [*result, *self.names, "the number of answers"]


@dataclass
class Outcome:
    """What --compare found."""

    builds: list[Build]
    missing: dict[str, str]
    trials: list[Trial]
    inputs: Inputs

    @property
    def differences(self) -> list[Trial]:
        """What is found of inputs on which builds don't agree."""
        return [one for one in self.trials if one.told]

    @property
    def without_meaning(self) -> Counter[str]:
        """How many runs have no meaning from some call on, by why."""
        return Counter(one.why for one in self.trials if one.why)

    def text(self, report: str) -> str:
        """The lines of the command, of which the last one has the numbers, where its report stands at a path."""
        lines = [one.told for one in self.differences]
        names = ", ".join(one.name for one in self.builds)
        lines.append(f"built by {names}; half of the inputs random, half boundaries")
        lines += [f"not built by {name}: {why}" for name, why in self.missing.items()]
        for build in self.builds:
            lacks = [one for one in ("address", "undefined", "pointer-compare") if one not in build.watches]
            if lacks:
                lines.append(f"{build.name} has no sanitizer {' and no '.join(lacks)}")
        count = sum(self.without_meaning.values())
        apart = f", of {count} C gives the end no meaning" if count else ""
        lines += [f"wrote {report}", f"compared {len(self.trials)} runs, {len(self.differences)} differ{apart}"]
        return "\n".join(lines)


def compared(writer: Writer, sources: list[str], made: dict[str, str], flags: list[str], count: int) -> Outcome:
    """What is found on so many random inputs, and as many at boundaries."""
    with tempfile.TemporaryDirectory(prefix="adapt-") as folder:
        both = Comparison(writer, sources, made, flags, folder)
        trials = both.compared(both.inputs.all(count))
        return Outcome(both.builds, both.missing, trials, both.inputs)
