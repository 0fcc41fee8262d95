"""fshell drat: writes the formula of a certificate in DIMACS form and its derivation in DRAT form, for checkers of others.

NAME.cnf and NAME.drat are written. Each line of a derivation becomes a clause that is added; the numbers of antecedents and the
pivots are left out, which a checker of DRAT (Wetzler, Heule, Hunt 2014) finds by unit propagation. Whether the derivation is right
is no matter of this script, which only looks at the form: of another text than a certificate (docs/CERTIFICATES.md) it says that
it is none, or it writes what no checker accepts.
"""

from fshell_tools.core import argument_parsers, program


def forms(text: str) -> tuple[str, str]:
    """The DIMACS text and the DRAT text of a certificate; ValueError or IndexError where it is none."""
    lines = text.split("\n")
    if lines[0] != "fshell certificate 1":
        raise ValueError(lines[0])
    count = int(lines[1].split(" ")[3])
    steps = lines[3 + count : -1]
    clauses = [step.split(" ")[: step.split(" ").index("0") + 1] for step in steps]
    return "\n".join(lines[1 : 2 + count]) + "\n", "".join(" ".join(clause) + "\n" for clause in clauses)


def parser_of_words() -> argument_parsers.Parser:
    """What reads the words of fshell drat; a wrong word ends the tool with status 2."""
    parser = argument_parsers.parser("drat", __doc__, "NAME.cnf and NAME.drat are written")
    parser.add_argument("certificate", metavar="CERTIFICATE", help="what prove or prove-bounds wrote")
    parser.add_argument("name", metavar="NAME", help="the path of what is written, without its ending")
    return parser


def main() -> int:
    """Writes both files, as the module says; the status is 0. Raises Failure where it is no certificate."""
    given = parser_of_words().parse_args()
    try:
        dimacs, drat = forms(program.read(given.certificate).decode("ascii"))
    except (ValueError, IndexError):
        raise program.Failure(f"{given.certificate}: it is no certificate") from None
    program.write_whole(given.name + ".cnf", dimacs)
    program.write_whole(given.name + ".drat", drat)
    return program.DONE
