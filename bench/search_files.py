"""Formulas and their DIMACS files: what bench/search and bench/orders share. A formula is its number of variables, and its clauses."""

import gzip

Formula = tuple[int, list[list[int]]]


def read(path: str) -> Formula:
    """The formula of a DIMACS file, gzipped where its name ends so."""
    if path.endswith(".gz"):
        with gzip.open(path, "rt") as file:
            return formula_of(file.read())
    with open(path, encoding="ascii") as file:
        return formula_of(file.read())


def formula_of(words: str) -> Formula:
    """The formula of a DIMACS text."""
    variables, literals = 0, []
    for line in words.splitlines():
        if line.startswith("p"):
            variables = int(line.split()[2])
        elif not line.startswith(("c", "%")):
            literals += [int(word) for word in line.split()]
    clauses: list[list[int]] = []
    clause: list[int] = []
    for literal in literals:
        if literal == 0:
            clauses.append(clause)
            clause = []
        else:
            clause.append(literal)
    return variables, clauses


def text(formula: Formula) -> str:
    """The DIMACS text of a formula, the literals of each clause in order and each once."""
    variables, clauses = formula
    lines = [f"p cnf {variables} {len(clauses)}\n"]
    for clause in clauses:
        literals = sorted(set(clause), key=lambda x: (abs(x), x < 0))
        lines.append("".join(f"{literal} " for literal in literals) + "0\n")
    return "".join(lines)


def write(path: str, words: str) -> None:
    """Writes a text of ASCII to a file."""
    with open(path, "w", encoding="ascii") as file:
        file.write(words)
