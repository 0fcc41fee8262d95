"""Evaluation order: which expressions C leaves unsequenced, and whether that matters."""
