"""The cases of all commands."""

from tests.program.command_cases import (
    bounds,
    check_bounds,
    events,
    generate,
    goals,
    graph,
    least,
    measure_ends,
    measure_inputs,
    measure_limits,
    measure_queries,
    measure_sources,
    measure_splits,
    measure_words,
    prove,
    prove_bounds,
    replay,
    runs,
    sample,
    traces,
    trees,
)

MODULES = (measure_words, measure_inputs, measure_sources, measure_limits, measure_queries, measure_splits, measure_ends, goals, graph,
           runs, trees, events, generate, prove, sample, bounds, prove_bounds, check_bounds, least, traces, replay)  # fmt: skip
CASES = [case for module in MODULES for case in module.CASES]
