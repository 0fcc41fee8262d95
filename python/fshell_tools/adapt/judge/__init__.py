"""That the program reads what would be written."""
