"""The cases of `prove` and `check`; python/tests/program/test_certificates.py has more."""

from tests.program.command_cases import ALL, NEVER, SEVEN, A, case, refused

CASES = [
    case(
        "a goal that is covered",
        ["prove", "f", "cover @LINE(3)", "1", "d.c"],
        {"d.c": SEVEN},
        "goal 1 covered args 7\n",
    ),
    case(
        "a budget that is spent",
        ["prove", "--budget", "1", "f", "cover @LINE(3)", "1", "d.c"],
        {"d.c": SEVEN},
        "goal 1 undecided\n",
        status=1,
    ),
    refused(
        "a goal that isn't there",
        ["prove", "f", "cover EDGES(@CONDITIONEDGE)", "9", "c.c"],
        {"c.c": NEVER},
        "error 74 NoSuchGoal query",
        4,
    ),
    refused(
        "a goal that isn't there, before the certificate is read",
        ["check", "f", "cover EDGES(@CONDITIONEDGE)", "9", "no.cert", "c.c"],
        {"c.c": NEVER},
        "error 74 NoSuchGoal query",
        4,
    ),
    refused(
        "a certificate that isn't there",
        ["check", "f", "cover EDGES(@CONDITIONEDGE)", "3", "no.cert", "c.c"],
        {"c.c": NEVER},
        "error 7 ReadFault no.cert",
        7,
    ),
    refused(
        "bytes that are no certificate",
        ["check", "f", "cover EDGES(@CONDITIONEDGE)", "3", "c.c", "c.c"],
        {"c.c": NEVER},
        "error 90 CertificateForm line 1",
        10,
    ),
    refused("a goal's number above its range", ["prove", "f", ALL, "10001", "a.c"], {"a.c": A}, "error 2 Usage", 2),
]
