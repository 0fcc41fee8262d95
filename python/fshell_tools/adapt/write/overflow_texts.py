"""The functions of overflow.h: each does one operation of signed integers, or one conversion, behind an assert that it has a
value there (C11 6.5p5, 6.5.7p4, 6.3.1.3p3). They have no `&&`, `||` and `?:`, so that a call is a step, the assert and the result;
the product of two `long` is the exception."""

from fshell_tools.adapt.common.c_types import Int

HEAD = """/* Written by fshell adapt: signed operations that can overflow, and conversions that may lose a value. Each is a call of one of
   these functions, which asserts that C gives it a value (C11 6.5p5), and then does what the profile does. */
"""
INT, LONG = "2147483647", "9223372036854775807"
WIDE = "(long) ((unsigned long) a {} b)"
# by operator and bits: the parameters and what is asserted; what is done is the operator itself
OPERATIONS = {
    ("+", 32): ("int a, int b", "(int) ((long) a + b) == (long) a + b"),
    ("-", 32): ("int a, int b", "(int) ((long) a - b) == (long) a - b"),
    ("*", 32): ("int a, int b", "(int) ((long) a * b) == (long) a * b"),
    ("neg", 32): ("int a", f"a >= -{INT}"),
    ("<<", 32): ("int a, long n", f"(n >= 0) & (n < 32) & (a >= 0) & (a <= {INT} >> (n & 31))"),
    ("+", 64): ("long a, long b", f"((a ^ {WIDE.format('+')}) & (b ^ {WIDE.format('+')})) >= 0"),
    ("-", 64): ("long a, long b", f"((a ^ b) & (a ^ {WIDE.format('-')})) >= 0"),
    ("*", 64): ("long a, long b", f"a == 0 || (a == -1 ? b >= -{LONG} : {WIDE.format('*')} / a == b)"),
    ("neg", 64): ("long a", f"a >= -{LONG}"),
    ("<<", 64): ("long a, long n", f"(n >= 0) & (n < 64) & (a >= 0) & (a <= {LONG} >> (n & 63))"),
}
STEMS = {"+": "add", "-": "subtract", "*": "multiply", "neg": "negate", "<<": "shift"}
RESULTS = {"neg": "-a", "<<": "a << n"}
WORDS = {32: "int", 64: "long"}


def stem(op: str, bits: int) -> str:
    """The name of the function of an operation, where it is free."""
    return f"checked_{STEMS[op]}_{WORDS[bits]}"


def operation(name: str, op: str, bits: int) -> str:
    """The C text of the helper that asserts that a result is in its range, then computes it in so many bits."""
    parameters, asserted = OPERATIONS[op, bits]
    result = RESULTS.get(op, f"a {op} b")
    return f"static {WORDS[bits]} {name}({parameters}) {{\n  assert({asserted});\n  return {result};\n}}\n"


def word(kind: Int) -> str:
    """A kind as a part of names."""
    if kind.width:
        return f"{'' if kind.below_zero else 'u'}int{kind.width}"
    return f"{'' if kind.signed else 'u'}int{kind.bits}"


def conversion_stem(source: Int, target: Int) -> str:
    """The name of the function of a conversion, where it is free."""
    return f"checked_{word(target)}" + ("" if source.signed or source.bits < 64 else "_from_uint64")


def conversion(name: str, source: Int, target: Int) -> str:
    """The function of a conversion to a kind that may not have the value: from `long`, which has those of all kinds but one."""
    of = target.text if target.width else word(target) + "_t"
    if target.width:
        half = 1 << (target.width - 1)
        low, high = (-half, half - 1) if target.below_zero else (0, 2 * half - 1)
        wide = not source.signed and source.bits == 64
        given, asserted = "unsigned long" if wide else "long", f"a <= {high}" + ("" if wide else f" & a >= {low}")
    elif source.signed or source.bits < 64:
        given, asserted = "long", "a >= 0" if target.bits == 64 else f"({of}) a == a"
    else:
        given, asserted = "unsigned long", f"a <= {(1 << (target.bits - target.signed)) - 1}"
    return f"static {of} {name}({given} a) {{\n  assert({asserted});\n  return ({of}) a;\n}}\n"
