"""Coverage of reports and runs: explanations, lcov, MC/DC and pages."""
