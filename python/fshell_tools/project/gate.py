"""The gate: what must hold of a module, and why it doesn't."""

from collections.abc import Iterator

from fshell_tools.core.verdicts import Verdict, failures, percentage
from fshell_tools.project import criteria
from fshell_tools.project.records import NO_PAIR
from fshell_tools.project.results import GOOD, Results, state_of


def why(results: Results) -> list[str]:
    """Why the gate fails, a line for each reason; an empty list where it passes. A gate that asks for nothing fails."""
    gate = results.context.settings.gate
    if not gate.asks:
        return ["[gate] asks for nothing"]
    found = [f"no entry reaches the function {name}, so nothing of it is tested" for name in results.unreached]
    found += _covered(results)
    found += _mcdc(results)
    found += [f"a run of {one.entry} ends at {one.place}, {one.end}, by {one.input}" for one in results.forbidden_traps]
    found += _errors(results) if gate.no_run_time_errors else []
    found += _requirements(results) if gate.requirements else []
    return found


def _covered(results: Results) -> Iterator[str]:
    """Why too little is covered of a criterion."""
    least = results.context.settings.gate.at_least
    if least is None:
        return
    if not results.criteria:
        yield "no criterion is asked for, so nothing was tested"
    for name in results.criteria:
        made = sum(1 for test in results.all_tests)
        yield from (f"{name}: {one}" for one in failures(results.tally(name), least, made))


def _mcdc(results: Results) -> Iterator[str]:
    """Why too few conditions are shown."""
    least = results.context.settings.gate.mcdc
    if least is None:
        return
    shown, of_all = results.mcdc()
    if not of_all:
        told = "each condition is without a pair" if any(one.state == NO_PAIR for one in results.conditions) else ""
        yield f"{criteria.MCDC}: {told or 'there is no condition'}, so nothing was shown"
    elif 100 * shown < least * of_all:
        yield f"{criteria.MCDC}: {percentage(shown, of_all)} is less than {least:g}%: {shown} of {of_all}"


def _errors(results: Results) -> Iterator[str]:
    """What isn't known to be free of run-time errors."""
    for entry in results.entries:
        told = results.errors(entry.function)
        for word, verdict in (("undecided", Verdict.UNDECIDED), ("refuted within the bounds alone", Verdict.REFUTED)):
            count = sum(one is verdict for _, one, _ in told)
            if count:
                yield f"run-time errors of {entry.function}: {count} places are {word}"


def _requirements(results: Results) -> Iterator[str]:
    """The requirements that nothing shows."""
    if not results.requirements:
        yield "there are no requirements"
    for one in results.requirements:
        state, _, _ = state_of(one, results)
        if state not in GOOD:
            yield f"requirement {one.id}: {state}"


def lines(results: Results) -> list[str]:
    """What is known of a module, a line for each criterion, for MC/DC and for each requirement."""
    found = []
    for name in results.criteria:
        found.append(f"{name}: {results.tally(name).line()}")
    if results.conditions:
        shown, of_all = results.mcdc()
        found.append(f"mcdc: {shown} of {of_all} conditions that have a pair are shown")
    found += [f"requirement {one.id}: {state_of(one, results)[0]}" for one in results.requirements]
    found += [f"trap: {one.place}: {one.text}" for one in results.traps]
    return found


def verdict(results: Results) -> tuple[list[str], bool]:
    """The lines of the gate's judgement, and whether it passes."""
    told = why(results)
    return ([f"the gate fails: {one}" for one in told] or ["the gate passes"]), not told
