"""The report of --compare, which campaigns over what was written name: `compare.json` beside it (docs/FORMATS.md)."""

import json
import os
from collections.abc import Iterable

from fshell_tools.core import comparison_report as reports
from fshell_tools.core.source_map import sum_of

from fshell_tools.adapt.command.compare import Outcome, Trial
from fshell_tools.adapt.command.compare_builds import version_of
from fshell_tools.adapt.command.compare_inputs import BOUNDARY, RANDOM
from fshell_tools.adapt.common.refusals import Stop
from fshell_tools.adapt.common.unit import Unit


def bytes_of(path: str) -> bytes:
    """The bytes of a file. Raises Stop where it can't be read."""
    try:
        with open(path, "rb") as file:
            return file.read()
    except OSError as fault:
        raise Stop(f"{path} can't be read: {fault.strerror}") from None


def sums(paths: Iterable[str], folder: str) -> dict[str, str]:
    """The sum of each file, by its path from a folder."""
    return {os.path.relpath(path, folder): sum_of(bytes_of(path)) for path in paths}


def difference(outcome: Outcome, trial: Trial) -> dict[str, object]:
    """What the report has of an input on which runs differ."""
    calls = [outcome.inputs.shown(call) for call in trial.given.calls[: trial.calls]]
    return {
        "input": trial.number,
        "kind": trial.given.kind,
        "calls": calls,
        "answers": trial.given.answers,
        "text": trial.told,
    }


def text_of(outcome: Outcome, units: list[Unit], paths: list[str], flags: list[str], folder: str) -> str:
    """The report's text: what was compared, by what, on how many inputs, and what was found."""
    originals = dict.fromkeys(path for unit in units for path in unit.files)
    versions = {name: version_of(name) for name in dict.fromkeys(one.compiler for one in outcome.builds)}
    kinds = [trial.given.kind for trial in outcome.trials]
    value = {
        "form": reports.FORM,
        "originals": sums(originals, folder),
        "written": sums(paths, folder),
        "flags": flags,
        "builds": [
            {
                "compiler": one.compiler,
                "version": versions[one.compiler],
                "level": one.level,
                "original": list(one.original),
                "written": list(one.adapted),
            }
            for one in outcome.builds
        ],
        "missing": outcome.missing,
        "inputs": {kind: kinds.count(kind) for kind in (RANDOM, BOUNDARY)},
        "calls": sum(trial.calls for trial in outcome.trials),
        "without_meaning": dict(sorted(outcome.without_meaning.items())),
        "differences": [difference(outcome, trial) for trial in outcome.differences],
    }
    return json.dumps(value, indent=1) + "\n"
