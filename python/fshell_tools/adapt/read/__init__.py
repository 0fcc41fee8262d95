"""The text of each source, by the machine's preprocessor and compiler, as a tree."""
