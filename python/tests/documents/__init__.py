"""Checks of documents, of crates.txt and of docstrings."""
