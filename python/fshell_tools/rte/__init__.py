"""Run-time errors: a verdict for each operation that can fail."""
