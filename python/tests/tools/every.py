"""The cases of each tool of bin/, those with long parts first, and of what all of them share."""

from tests.tools import (
    test_adapt,
    test_adapt_compare,
    test_adapt_sizes,
    test_adapt_stages,
    test_campaign,
    test_contract_sizes,
    test_drat,
    test_driver,
    test_explain,
    test_first_hour,
    test_harness,
    test_holds,
    test_hostile_texts,
    test_inputs,
    test_install,
    test_lcov,
    test_mcdc,
    test_order,
    test_page,
    test_pages,
    test_progress,
    test_project,
    test_recipes,
    test_rte,
    test_rte_overflow,
    test_schemas,
    test_snapshots,
    test_source_maps,
    test_streams,
    test_style,
    test_trusted_base,
    test_verdicts,
    test_where,
)

test_rte.TRIED += test_rte_overflow.TRIED
test_adapt.CASES += test_adapt_compare.CASES
test_adapt.TRIED += [*test_adapt_stages.TRIED, *test_adapt_compare.TRIED, *test_adapt_sizes.TRIED]

TOOLS = {module.__name__.split(".")[-1].removeprefix("test_"): module
         for module in (test_campaign, test_holds, test_hostile_texts, test_snapshots, test_project, test_verdicts, test_recipes, test_adapt, test_mcdc, test_page, test_source_maps, test_progress, test_order, test_rte, test_driver, test_install, test_lcov, test_first_hour, test_explain,
                       test_inputs, test_harness, test_schemas, test_drat, test_where, test_trusted_base, test_pages, test_streams, test_contract_sizes, test_style)}  # fmt: skip
