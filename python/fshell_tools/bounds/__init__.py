"""Bounds of runs: whether they are sufficient, and how large the unwinding within them is."""
