"""fshell run: a module of many functions, tested, reported and judged as its fshell.toml says."""
