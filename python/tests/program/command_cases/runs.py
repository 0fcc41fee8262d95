"""The cases of `runs`."""

from tests.program.command_cases import FOREVER, A, case, refused

CASES = [
    case(
        "the end and the edges of each run",
        ["runs", "f", "in.txt", "a.c"],
        {"in.txt": "5\n11\n", "a.c": A},
        "input 1 returned 0 edges 1 3\ninput 2 returned 1 edges 0 2\n",
    ),
    refused(
        "inputs that aren't there go before none",
        ["runs", "f", "in.txt", "a.c"],
        {"a.c": A},
        "error 7 ReadFault in.txt",
        7,
    ),
    refused(
        "an option of another command",
        ["runs", "--json", "f", "in.txt", "a.c"],
        {"in.txt": "5\n", "a.c": A},
        "error 2 Usage",
        2,
    ),
    refused(
        "more than ten million edges to print",
        ["runs", "f", "in.txt", "k.c"],
        {"in.txt": {"repeat": "1\n", "times": 101}, "k.c": FOREVER},
        "error 54 RunsTooLong limit 10000000",
        6,
    ),
    case(
        "inputs from a pipe",
        ["runs", "f", "/dev/stdin", "a.c"],
        {"a.c": A},
        "input 1 returned 0 edges 1 3\ninput 2 returned 1 edges 0 2\n",
        stdin="5\n11\n",
    ),
    case(
        "a source that stands twice among the words",
        ["runs", "f", "in.txt", "d.c", "d.c", "a.c"],
        {"in.txt": "5\n11\n", "d.c": "int g(void);\n", "a.c": A},
        "input 1 returned 0 edges 1 3\ninput 2 returned 1 edges 0 2\n",
    ),
    case(
        "a file that is a source and the inputs, of which it has none",
        ["runs", "f", "blank.txt", "a.c", "blank.txt"],
        {"blank.txt": "\n", "a.c": A},
        "",
    ),
    case(
        "a pipe that stands twice among the words is read once, and defines its function twice",
        ["runs", "f", "in.txt", "/dev/stdin", "/dev/stdin"],
        {"in.txt": "5\n"},
        "",
        3,
        "error 31 Twice /dev/stdin:1\n",
        stdin=A,
    ),
    case(
        "a pipe with one byte above the limit of sources",
        ["runs", "f", "in.txt", "/dev/stdin"],
        {"in.txt": "5\n"},
        "",
        6,
        "error 16 FileTooLong /dev/stdin\n",
        stdin={"repeat": " ", "times": 4194305},
    ),
    refused(
        "a pipe of inputs isn't waited for where a source isn't there",
        ["runs", "f", "p", "no.c"],
        {"p": {"pipe": True}},
        "error 7 ReadFault no.c",
        7,
    ),
    refused("runs has no --ends", ["runs", "--ends", "any", "f", "in.txt", "a.c"], {}, "error 2 Usage", 2),
]
