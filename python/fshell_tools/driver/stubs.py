"""Writes stubs for functions that are declared and defined nowhere: each gives a value by call, fills what its pointers lead to,
and notes its arguments in variables of the file, so that a query can ask for them."""

from typing import Any

from fshell_tools.driver.caller import Parameter, Text, parameters
from fshell_tools.driver.declarations import Read
from fshell_tools.driver.types import Int, Pointer, Struct, Types, Unfit, Void

OWN = ("assert", "assume")


def undefined(read: Read) -> list[str]:
    """The functions that want a stub, in the order of their declarations: declared and called, defined nowhere, and no
    input functions (which take nothing and give a value), nor assert and assume."""
    found = []
    for name, decl in read.declared.items():
        listed = decl.type.args.params if decl.type.args else []
        is_plain = all(type(one).__name__ == "Typename" and one.name is None for one in listed)
        takes_none = not listed or (len(listed) == 1 and is_plain and _is_void(listed[0].type))
        gives = not _is_void(decl.type.type)
        if name in read.called and name not in read.defined and name not in OWN and not (takes_none and gives):
            found.append(name)
    return found


def _is_void(node: Any) -> bool:
    return type(node).__name__ == "TypeDecl" and getattr(node.type, "names", None) == ["void"]


class Stub:
    """Writes the stub of one function: `variables` that note its calls and arguments, and the lines of its `body`.
    Raises Unfit where a parameter or the result is of a type that can't be filled."""

    def __init__(self, types: Types, name: str, decl: Any, text: Text) -> None:
        self.name, self.text = name, text
        self.parameters = parameters(types, decl)
        self.result = types.of(decl.type.type)
        self.variables = [f"unsigned int stub_{name}_calls;"]
        self.body = [f"stub_{name}_calls++;"]

    def argument(self, number: int, one: Parameter) -> str:
        """The declaration of the parameter at place `number`, from 0. An integer or a struct is noted in
        stub_NAME_argNUMBER, what a const pointer leads to likewise; what another pointer leads to is filled by input
        functions. Raises Unfit for anything else."""
        noted = f"stub_{self.name}_arg{number}"
        if isinstance(one.type, (Int, Struct)):
            self.variables.append(f"{one.type.text} {noted};")
            self.body.append(f"{noted} = {one.name};")
            return f"{one.type.text} {one.name}"
        if not isinstance(one.type, Pointer) or not isinstance(one.type.target, (Int, Struct)):
            raise Unfit(f"{one.name} is neither an integer, a struct nor a pointer to one")
        target, const = one.type.target, "const " if one.type.is_const else ""
        if one.type.is_const:
            self.variables.append(f"{target.text} {noted};")
            self.body.append(f"{noted} = *{one.name};")
        elif isinstance(target, Int):
            self.body.append(f"*{one.name} = {self.text.answer(f'in_{self.name}_{one.name}', target)};")
        else:
            self.body += self.text.fill(target, f"(*{one.name})", f"{self.name}_{one.name}")
        return f"{const}{target.text} *{one.name}"

    def lines(self) -> list[str]:
        """The lines of the stub: its variables and the function, whose result is an input function's answer, or a
        struct that is filled by such. Raises Unfit where the result is a pointer, or a parameter can't be noted."""
        listed = [self.argument(number, one) for number, one in enumerate(self.parameters)]
        head = f"{self.result.text if isinstance(self.result, (Int, Struct)) else 'void'} {self.name}({', '.join(listed) or 'void'})"
        if isinstance(self.result, Int):
            self.body.append(f"return {self.text.answer(f'in_{self.name}', self.result)};")
        elif isinstance(self.result, Struct):
            self.variables.append(f"static {self.result.text} stub_{self.name}_result;")
            self.body += self.text.fill(self.result, f"stub_{self.name}_result", self.name)
            self.body.append(f"return stub_{self.name}_result;")
        elif not isinstance(self.result, Void):
            raise Unfit("it gives a pointer")
        return ["", *self.variables, head, "{", *(f"  {line}" for line in self.body), "}"]


def lines_of(types: Types, read: Read, names: list[str]) -> list[str]:
    """The lines of the stubs of these functions, behind the declarations of the input functions that they call. Raises
    Unfit, with the function's name, where one of them can't be written."""
    text, found = Text(), []
    for name in names:
        try:
            found += Stub(types, name, read.declared[name], text).lines()
        except Unfit as unfit:
            raise Unfit(f"{name}: {unfit}") from None
    answers = [f"{kind} {name}(void);" for name, kind in text.answers.items()]
    return ["", *answers, *found] if answers else found
