"""The programs of bench/sources/users: what people write, each with its entry, the bounds that it needs, and a variable whose
definitions and uses are asked for."""

import os
from dataclasses import dataclass

HERE = os.path.dirname(os.path.abspath(__file__))
FOLDER = os.path.join(HERE, "sources", "users")


@dataclass(frozen=True)
class User:
    """A program: its file without .c, its entry, a variable, and the turns and answers of its bounds."""

    name: str
    entry: str
    variable: str
    turns: int = 8
    answers: int = 16

    @property
    def path(self) -> str:
        """Where its file stands on this machine."""
        return os.path.join(FOLDER, f"{self.name}.c")

    @property
    def bounds(self) -> list[str]:
        """The options of `generate` that bound its runs."""
        return ["--turns", str(self.turns), "--answers", str(self.answers)]


# parsers
USERS = [
    User("ipv4_text", "address", "part", 15),
    User("literal", "literal", "value", 11),
    User("json_number", "number", "state", 9),
    User("csv", "row", "length", 10),
    User("roman", "roman", "last", 9),
    User("clock_text", "clock", "seconds", 0),
    User("calculator", "calculate", "product", 5),
    User("nmea", "sentence", "kind", 5),
    User("base64", "group", "bits", 4),
    User("range_field", "field", "end", 3),
    # checksums
    User("adler", "load", "kind", 6),
    User("luhn", "card", "sum", 8),
    User("fletcher", "command", "high", 4),
    User("isbn", "isbn", "weight", 13),
    User("crc16", "frame", "own", 8),
    User("ean13", "sold", "sum", 13),
    User("internet_sum", "echo", "sum", 6),
    # machines with states
    User("tcp", "connection", "state", 7),
    User("elevator", "lift", "moved", 5),
    User("vending", "session", "credit", 8),
    User("slip", "receive", "escaped", 8),
    User("cobs", "unstuff", "left", 7),
    User("i2c", "listen", "bits", 24, 24),
    # encoders
    User("utf16", "character", "value", 0),
    User("leb128", "decode", "byte", 5),
    User("gray", "moved", "steps", 0),
    User("run_length", "unpack", "length", 8),
    User("manchester", "decode", "disturbed", 8),
    # numbers with fixed points, roots and tables
    User("q15", "step", "out", 0),
    User("pid", "control", "integral", 4),
    User("isqrt", "screen", "result", 8),
    User("thermistor", "temperature", "at", 6),
    # bits
    User("bits", "puzzle", "count", 0),
    User("half_float", "compare", "first", 0),
    User("hamming", "letter", "corrected", 7),
    # arrays in order
    User("median", "trusted", "kept", 0),
    User("insertion", "kept", "low", 6),
    User("heap", "schedule", "at", 5),
    # packets and protocols
    User("ipv4_header", "route", "sum", 10),
    User("dns_name", "name", "at", 12),
    User("modbus", "serve", "answer", 4, 15),
    User("mqtt", "packet", "length", 5),
    User("dhcp_options", "options", "at", 10),
    # dates and accounts
    User("weekday", "weekday", "shifted", 0),
    User("days_between", "notice", "days", 0),
    User("transfer", "day", "giro", 4),
    User("loan", "settle", "left", 4),
]
