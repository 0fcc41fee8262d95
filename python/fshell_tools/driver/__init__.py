"""fshell driver: callers for functions that take arrays, structs, pointers or a state, and stubs for functions that aren't there."""
