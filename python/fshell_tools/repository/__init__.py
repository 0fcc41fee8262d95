"""Tools for maintainers of this repository: search, trusted base and sizes of contracts."""
