"""Which parameters stand for objects."""
