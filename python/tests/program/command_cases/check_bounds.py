"""The cases of `check-bounds`, but for certificates that it compares, which are in test_certificates.py."""

from tests.program.command_cases import NESTED, QUOTIENTS, A, Case, Files, Words, of_sources, refused, usages

# a certificate in its form, of a formula that is none of these sources'
CERTIFICATE = "fshell certificate 1\np cnf 1 2\n1 0\n-1 0\nderivation 1\n0 1 2 1 0\n"


def rejected(name: str, words: Words, files: Files, line: str, status: int = 10) -> Case:
    """A case of a certificate that isn't accepted."""
    return refused(name, ["check-bounds", *words], {"c.cert": CERTIFICATE} | files, line, status)


CASES = [
    *usages("check-bounds", {
        "an entry and a certificate alone are no command": ["f", "c.cert"],
        "it has no --budget": ["--budget", "5", "f", "c.cert", "a.c"],
        "it has no --ends": ["--ends", "any", "f", "c.cert", "a.c"],
        "it has no --json": ["f", "c.cert", "a.c", "--json"],
        "answers above their range": ["--answers", "257", "f", "c.cert", "a.c"],
        "an option given twice": ["--frames", "3", "--frames", "3", "f", "c.cert", "a.c"],
    }),
    *of_sources("check-bounds", ["c.cert"], {"c.cert": CERTIFICATE}),
    rejected("an entry that isn't defined goes before a certificate that isn't there", ["zz", "no.cert", "a.c"], {"a.c": A},
             "error 36 NoSuchEntry", 3),
    rejected("a certificate that isn't there", ["f", "no.cert", "a.c"], {"a.c": A}, "error 7 ReadFault no.cert", 7),
    rejected("a certificate that isn't there goes before too many pairs", ["--turns", "1000", "f", "no.cert", "g.c"], {"g.c": NESTED},
             "error 7 ReadFault no.cert", 7),
    rejected("a file that is empty", ["f", "e.cert", "a.c"], {"a.c": A, "e.cert": ""}, "error 90 CertificateForm line 1"),
    rejected("bytes that are no certificate", ["f", "a.c", "a.c"], {"a.c": A}, "error 90 CertificateForm line 1"),
    rejected("a clause over a variable that isn't there", ["f", "e.cert", "a.c"], {"a.c": A, "e.cert": CERTIFICATE.replace("\n-1 0", "\n-2 0")},
             "error 90 CertificateForm line 4"),
    rejected("bytes that are no certificate go before too many pairs", ["--turns", "1000", "f", "g.c", "g.c"], {"g.c": NESTED},
             "error 90 CertificateForm line 1"),
    rejected("too many pairs of node and context", ["--turns", "1000", "f", "c.cert", "g.c"], {"g.c": NESTED},
             "error 80 TooManyInstances limit 50000", 6),
    rejected("an unwinding that is too large", ["f", "c.cert", "k.c"], {"k.c": QUOTIENTS}, "error 81 UnwindingTooLarge limit 4194304", 6),
]  # fmt: skip
