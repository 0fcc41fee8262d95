"""sprintf and snprintf (7.21.6.6, 7.21.6.5): a model is written for each call whose format is a string of what is known here: text, %%,
%c, %s also with a precision, and %d %i %u %x %X with a width, a 0 before it and a length."""

import re
from typing import NamedTuple, Optional

from fshell_tools.adapt.common import tree
from fshell_tools.adapt.common.parsing import parsed

BEFORE = {"sprintf": 1, "snprintf": 2}  # how many arguments stand before the format
CONVERSION = re.compile(r"%(0?)([1-9]\d?)?(?:\.(\d{1,4}|\*))?(hh|h|ll|l|z|j|t)?([diuxXcs%])")
TEXT = re.compile(r"""(?:[^%\\"]|\\[abfnrtv\\'"?])*""")
KINDS = {"": "int", "h": "short", "hh": "char", "l": "long", "ll": "long", "z": "long", "j": "long", "t": "long"}
FEW = 2  # characters of a text that are put without a loop


class Format(NamedTuple):
    """What a format becomes: the parameters for its arguments, and the statements."""

    parameters: list[str]
    body: list[str]


def put(text: str, bounded: bool) -> str:
    """The statement that puts a character, where it has room."""
    return f"if (at + 1 < n) {{ to[at] = {text}; }} at++;" if bounded else f"to[at] = {text}; at++;"


def of_text(text: str, bounded: bool) -> list[str]:
    """The statements that put what stands between conversions, by its letters in the source."""
    letters = re.findall(r"\\?.", text)
    if len(letters) <= FEW:
        return [put("'\\''" if one == "'" else f"'{one}'", bounded) for one in letters]
    return [f'{{ const char *t = "{text}"; int i = 0; while (t[i] != 0) {{ {put("t[i]", bounded)} i++; }} }}']


def of_string(name: str, most: str, bounded: bool) -> str:
    """The statement that puts a string (7.21.6.1p8, s), or the first characters of it."""
    test = f"i < {most} && {name}[i] != 0" if most else f"{name}[i] != 0"
    return f"{{ int i = 0; while ({test}) {{ {put(f'{name}[i]', bounded)} i++; }} }}"


def of_number(name: str, found: "re.Match[str]", bounded: bool) -> str:
    """The statement that puts an integer (7.21.6.1p8, d i u x X): its digits from the last one on, then from the first."""
    zero, width, _, length, letter = found.groups(default="")
    wide, base = "unsigned long" if KINDS[length] == "long" else "unsigned int", 16 if letter in "xX" else 10
    minus = f"{name} < 0" if letter in "di" else "0"
    size = f"({wide}) {name}"
    digit = f"(q < 10 ? '0' + q : '{'a' if letter == 'x' else 'A'}' - 10 + q)" if base == 16 else "'0' + q"
    pad = f"while (k < {width}{' - minus' if letter in 'di' else ''}) {{ {put('pad', bounded)} k++; }}"
    pad = pad.replace("pad;", f"'{'0' if zero else ' '}';")
    sign = f"if (minus) {{ {put(chr(39) + '-' + chr(39), bounded)} }}" if letter in "di" else ""
    front = [sign, pad] if zero else [pad, sign]
    first = f"int minus = {minus}; {wide} v = minus ? 0 - {size} : {size};" if letter in "di" else f"{wide} v = {size};"
    return (
        f"{{ {first} char d[20]; int k = 0; do {{ int q = v % {base}; d[k] = {digit}; v = v / {base}; k++; }} while (v != 0); "
        f"int last = k; {' '.join(front if width else [sign])} while (last > 0) {{ last--; {put('d[last]', bounded)} }} }}"
    )


def understood(text: str, bounded: bool) -> Optional[Format]:
    """What a format becomes, by its letters in the source; nothing of one that has something else."""
    made, at = Format([], []), 0
    while at < len(text):
        plain = TEXT.match(text, at)
        assert plain is not None
        made.body.extend(of_text(plain.group(), bounded))
        at = plain.end()
        found = CONVERSION.match(text, at)
        if found is None:
            if at < len(text):
                return None
            break
        at = found.end()
        if not converted(made, found, bounded):
            return None
    return made


def converted(made: Format, found: "re.Match[str]", bounded: bool) -> bool:
    """Adds a conversion to what a format becomes; whether it is known here."""
    zero, width, most, length, letter = found.groups(default="")
    if letter in "cs%" and (zero or width or length) or (letter != "s" and most):
        return False
    name = f"a{len(made.parameters) + 1}"
    if letter == "%":
        made.body.append(put("'%'", bounded))
    elif letter == "c":
        made.parameters.append(f"int {name}")
        made.body.append(put(f"(char) {name}", bounded))
    elif letter == "s":
        if most == "*":
            made.parameters.append(f"int most{name}")
            # (a negative precision is none, 7.21.6.1p5)
            most = f"(unsigned int) most{name}"
        made.parameters.append(f"const char *{name}")
        made.body.append(of_string(name, most, bounded))
    else:
        sign = "signed" if letter in "di" else "unsigned"
        made.parameters.append(f"{sign} {KINDS[length]} {name}")
        made.body.append(of_number(name, found, bounded))
    return True


def written_for(call: tree.FuncCall, called: str, name: str) -> Optional[tree.FuncDef]:
    """The model of a call, by the name that it has; the call doesn't hand over the format any more. Nothing where the format isn't
    known."""
    before, given = BEFORE[called], call.given
    constant = given[before] if len(given) > before else None
    if not isinstance(constant, tree.Constant) or not re.fullmatch(r'".*"', constant.value, re.DOTALL):
        return None
    bounded = called == "snprintf"
    made = understood(constant.value[1:-1], bounded)
    if made is None or call.args is None or len(given) - before - 1 != len(made.parameters):
        return None
    call.args.exprs = [one for one in given if one is not constant]
    heads = ", ".join(["char *to", *(["unsigned long n"] if bounded else []), *made.parameters])
    end = "if (n > 0) { to[at < n ? at : n - 1] = 0; }" if bounded else "to[at] = 0;"
    unit = parsed(f"int {name}({heads}) {{ int at = 0; {' '.join(made.body)} {end} return at; }}")
    function = unit.ext[0]
    assert isinstance(function, tree.FuncDef)
    return function
