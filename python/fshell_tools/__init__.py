"""Tools over the answers of FShell, none of which is part of what is proved. docs/TOOLS.md says what each does."""
