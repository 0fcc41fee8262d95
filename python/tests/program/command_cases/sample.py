"""The cases of `sample`."""

from tests.program.command_cases import case, refused

CASES = [
    case("sample 1", ["sample", "1"], {}, "sample 1 edges 9 goals 2 covered 2 refuted 0 undecided 0\n"),
    case("sample 2", ["sample", "2"], {}, "sample 2 edges 16 goals 4 covered 4 refuted 0 undecided 0\n"),
    refused("a sample that is too large", ["sample", "201"], {}, "error 2 Usage", 2),
]
