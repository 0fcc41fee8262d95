"""What the command does with what was written: comparisons, tests, the map, bounds."""
