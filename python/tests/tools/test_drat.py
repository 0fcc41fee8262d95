"""The cases of fshell drat, by hand from docs/CERTIFICATES.md; python/tests/program/test_certificates.py looks at what it writes of five goals."""


from tests.tools import Case, example

WORKED = example("certificates/worked.cert")
CNF = "p cnf 2 4\n1 2 0\n-1 2 0\n1 -2 0\n-1 -2 0\n"


def wrong(name: str, text: str) -> Case:
    """A case of a text that is no certificate."""
    return Case(
        f"drat: {name}", ["drat", "a.cert", "new"], {"a.cert": text}, 2, "", "drat: a.cert: it is no certificate\n"
    )


CASES = [
    Case("drat: the worked example", ["drat", "a.cert", "new"], {"a.cert": WORKED}, written={"new.cnf": CNF, "new.drat": "2 0\n-2 0\n0\n"}),
    Case("drat: a file that isn't there", ["drat", "a.cert", "new"], {}, 2, "", "drat: a.cert: No such file or directory\n"),
    Case("drat: a folder that isn't there", ["drat", "a.cert", "no/new"], {"a.cert": WORKED}, 2, "", "drat: no/new.cnf: No such file or directory\n"),
    wrong("an empty file", ""),
    wrong("another text", "int f(int x) { return x; }\n"),
    wrong("a head alone", "fshell certificate 1\n"),
    wrong("a byte that isn't ASCII", WORKED + "ü\n"),
]  # fmt: skip
