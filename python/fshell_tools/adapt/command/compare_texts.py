"""The two programs that --compare runs, as C texts: the originals, and what was written, each beside the same driver.

A driver reads inputs, a line each, and runs each in a process of its own: what the calls give, and all variables of the file behind
each call, in a line a call; behind a run stands `=STATUS`.
"""

import os
from collections.abc import Iterator

from fshell_tools.adapt.bind.lvalues import MOST_CALLS
from fshell_tools.adapt.common import c_types
from fshell_tools.adapt.common.c_types import Array, Int, Path, Struct, Type
from fshell_tools.adapt.common.objects import Function, Variable
from fshell_tools.adapt.common.output import FELL, unmarked
from fshell_tools.adapt.common.parsing import printed
from fshell_tools.adapt.common.refusals import Stop
from fshell_tools.adapt.expand.library import OUTPUT, Spot
from fshell_tools.adapt.points_to.heap import heap_call
from fshell_tools.adapt.points_to.models import model_of
from fshell_tools.adapt.read.preprocessing import is_system
from fshell_tools.adapt.write.writer import Writer

FELL_OFF = 77  # the status of a run off the end of a function that gives something,
DEEP = 76  # and of one that has more frames than the program takes
DRIVER = """#include <stdio.h>
#include <stdlib.h>
#include <unistd.h>
#include <sys/time.h>
#include <sys/wait.h>
%s
void adapt_fell(void) { _exit(%d); }
void adapt_deep(void) { _exit(%d); }
static FILE *adapt_told; /* (what the sources print goes nowhere) */
void adapt_tell(long long value) { fprintf(adapt_told, " %%lld", value); }
static void adapt_give(long long value) { fprintf(adapt_told, "%%lld", value); }
static long long adapt_answers[64]; static int adapt_answer_count, adapt_answer_taken;
long long adapt_answer(void) { return adapt_answer_taken < adapt_answer_count ? adapt_answers[adapt_answer_taken++] : 0; }
static char adapt_line[1 << 18], *adapt_at;
static long long adapt_word(void) { return strtoll(adapt_at, &adapt_at, 10); }
static void adapt_run(void) {
  adapt_at = adapt_line;
  adapt_answer_count = (int) adapt_word();
  for (int adapt_i = 0; adapt_i < adapt_answer_count; adapt_i++) adapt_answers[adapt_i] = adapt_word();
  while (*adapt_at == ' ') {
    switch (adapt_word()) {
%s
    }
%s
    fprintf(adapt_told, " %%d\\n", adapt_answer_taken);
  }
}
int main(int adapt_argc, char **adapt_argv) {
  FILE *adapt_given = fopen(adapt_argv[1], "r");
  adapt_told = stdout; setvbuf(adapt_told, 0, _IOLBF, 0); stdout = fopen("/dev/null", "w");
  while (fgets(adapt_line, sizeof adapt_line, adapt_given)) {
    int adapt_status; pid_t adapt_child = fork();
    if (adapt_child == 0) {
      struct itimerval adapt_limit = {{0, 0}, {atoi(adapt_argv[2]), 0}};
      setitimer(ITIMER_PROF, &adapt_limit, 0); alarm(60); adapt_run(); fflush(adapt_told); _exit(0);
    }
    waitpid(adapt_child, &adapt_status, 0);
    fprintf(adapt_told, "\\n=%%d\\n", WIFEXITED(adapt_status) ? WEXITSTATUS(adapt_status) : -WTERMSIG(adapt_status));
  }
  return 0;
}
"""
# memory around the original's objects that may not be touched, where the address sanitizer is there
GUARDS = """void __asan_poison_memory_region(const volatile void *, unsigned long) __attribute__((weak));
char adapt_data_{0}_{1}[4096] = {{1}}, adapt_rest_{0}_{1}[4096]; const char adapt_const_{0}_{1}[4096] = {{1}};
__attribute__((constructor)) static void adapt_poison_{0}_{1}(void) {{
  if (__asan_poison_memory_region) {{
    __asan_poison_memory_region(adapt_data_{0}_{1}, 4096); __asan_poison_memory_region(adapt_rest_{0}_{1}, 4096);
    __asan_poison_memory_region(adapt_const_{0}_{1}, 4096);
  }}
}}
"""
TELLING = "long long adapt_answer(void);\nvoid adapt_tell(long long);\n"


def parts(
    of: Type, text: str = "", path: Path = (), index: tuple[int, ...] = ()
) -> Iterator[tuple[str, Path, tuple[int, ...], Int]]:
    """The integers of an object: how C reaches each, the members and indexes that lead to it, and its type."""
    if isinstance(of, Int):
        yield text, path, index, of
    elif isinstance(of, Array):
        for at in range(of.length or 0):
            yield from parts(of.of, f"{text}[{at}]", path, index + (at,))
    elif isinstance(of, Struct):
        for name, member in of.held if not of.is_parts() else []:
            own = text if name.startswith("?") else f"{text}.{name}"
            yield from parts(member, own, path + (name,), index)


def plain(function: Function) -> bool:
    """Whether a function takes integers alone and gives one or nothing."""
    return all(isinstance(one.type, Int) for one in function.parameters) and (
        isinstance(function.result, Int) or function.result == c_types.VOID
    )


def undefined(writer: Writer) -> list[Function]:
    """The functions that are called and that no source defines."""
    known = ("assert", "assume", "__assert_fail")
    found = [one for one in writer.names.functions if one.definition is None and one.calls and one.name not in known]
    found = [one for one in found if one.name not in OUTPUT or not is_in_library(one)]
    return [one for one in found if model_of(one) is None and not heap_call(one)]


def is_in_library(function: Function) -> bool:
    """Whether a header of the system declares a function, so that the original is linked with the library's."""
    return is_system(function.where.file)


def answering(writer: Writer, function: Function, answer: str) -> str:
    """The definition of an input function, as the original declares it."""
    node = function.declaration
    assert node is not None
    result = f"return ({c_types.c_words(function.result)}) {answer};" if isinstance(function.result, Int) else ""
    node.storage, node.funcspec = [], []
    return f"{printed(node)} {{ {result} }}\n"


def including(path: str) -> str:
    """The directives that include a source, whose main gets another name."""
    return f'#define main adapt_own_main\n#include "{os.path.abspath(path)}"\n#undef main\n'


class Texts:
    """The texts of both programs of what was adapted, whose entries are the functions that can be called."""

    def __init__(self, writer: Writer) -> None:
        """Raises Stop where nothing can be compared."""
        self.writer, self.front = writer, set(writer.raw.front())
        functions = [one for one in writer.names.functions if one.definition is not None and not one.static]
        functions = [one for one in functions if not isinstance(one.coord, Spot)]
        # (main is the comparison's own)
        self.entries = [one for one in functions if plain(one) and one.name != "main"]
        self.outer = undefined(writer)
        self.shared = [
            one
            for one in writer.names.variables
            if one.home == "file"
            and not isinstance(one.coord, Spot)
            and one.defined
            and not one.const
            and not c_types.fault_of(one.type)
        ]
        if writer.registers:
            raise Stop(
                f"{writer.registers[0].name} is an input of what was written, and an object of the original, so nothing can be compared"
            )
        if writer.outer_values:
            name = next(iter(writer.outer_values))[0].name
            raise Stop(f"what {name} writes is an input of what was written, so nothing can be compared")
        if not self.entries:
            raise Stop(
                "there is no function that isn't static, takes integers alone and gives one or nothing, so nothing can be compared"
            )

    def dump(self, variables: list[Variable], ours: bool) -> str:
        """Prints each integer of the variables."""
        lines = []
        for variable in variables:
            for text, path, index, kind in parts(variable.type):
                own = unmarked(self.writer.elements.leaf(self.writer.pointer_effects.placed(variable, path, index))[0])
                own = self.writer.large.rewritten(own)
                lines.append(
                    f"  adapt_tell((long long) {f'({c_types.c_words(kind)}) {own}' if ours else variable.name + text});"
                )
        return "\n".join(lines)

    def driver(self, dumps: int) -> str:
        """The file that calls each entry with the words of a line."""
        head = "".join(f"void adapt_dump_{number}(void);\n" for number in range(dumps))
        head += "#include <stdint.h>\n#include <stddef.h>\n" + "".join(
            self.declared(one) + "\n" for one in self.entries
        )
        told = "\n".join(f"    adapt_dump_{number}();" for number in range(dumps))
        return DRIVER % (head, FELL_OFF, DEEP, self.calls(), told)

    def calls(self) -> str:
        """The cases that call each entry with arguments of the line."""
        lines = []
        for number, one in enumerate(self.entries):
            words = "".join(f" long long adapt_{at} = adapt_word();" for at in range(len(one.parameters)))
            types = [p.type.text for p in one.parameters if isinstance(p.type, Int)]  # (of an entry all)
            given = ", ".join(f"({text}) adapt_{at}" for at, text in enumerate(types))
            call = f"{one.out}({given})"
            shown = f"adapt_give((long long) {call});" if isinstance(one.result, Int) else f"{call};"
            lines.append(f"    case {number}: {{{words} {shown} break; }}")
        return "\n".join(lines)

    def declared(self, function: Function) -> str:
        """A declaration of an entry, for the file that calls it."""
        types = [function.result, *(one.type for one in function.parameters)]
        words = ["void" if not isinstance(of, Int) else "_Bool" if of.boolean else of.text for of in types]
        return f"{words[0]} {function.out}({', '.join(words[1:]) or 'void'});"

    def original(self, sources: list[str]) -> list[str]:
        """The files of the original, with guards around its objects."""
        texts = []
        for number, path in enumerate(sources):
            own = [one for one in self.shared if home_of(one) == path]
            defined = "".join(answering(self.writer, one, "adapt_answer()") for one in self.outer if number == 0)
            around = GUARDS.format(number, "before"), GUARDS.format(number, "behind")
            dump = f"void adapt_dump_{number}(void) {{\n{self.dump(own, False)}\n}}\n"
            texts.append(f"{around[0]}{including(path)}{around[1]}{TELLING}{defined}{dump}")
        return [*texts, self.driver(len(sources))]

    def adapted(self, made: dict[str, str], folder: str) -> list[str]:
        """The files of what was written, of which copies go to the folder."""
        own = [
            one.out for one in self.writer.names.functions if isinstance(one.coord, Spot) and one.definition is not None
        ]
        apart, again = [
            "".join(line.format(one) for one in own) for line in ("#define {0} adapt_own_{0}\n", "#undef {0}\n")
        ]
        text = f"#include <stdint.h>\n#include <stddef.h>\n#include <assert.h>\n{apart}{copied(self.guarded(made), folder)}{again}{TELLING}"
        for one in self.outer:
            if isinstance(one.result, Int):
                text += f"{one.result.text} {one.out}(void) {{ return ({one.result.text}) adapt_answer(); }}\n"
        if self.writer.heap.asked:
            text += f"unsigned int {self.writer.heap.asked}(void) {{ return 0; }}\n"
        dump = self.dump(self.in_order(), True)
        reads = "".join(
            f"{one}\n" for one in self.writer.raw.front() if one not in self.front
        )  # (that nothing else needs)
        return [f"{text}{reads}void adapt_dump_0(void) {{\n{dump}\n}}\n", self.driver(1)]

    def guarded(self, made: dict[str, str]) -> list[str]:
        """What was written, where a run ends that has more calls of one function at once than have locals in columns."""
        texts = list(made.values())
        for name in self.writer.levels.names.values():
            end = f"{name}++; if ({name} >= {MOST_CALLS}) adapt_deep();"
            texts = [text.replace(f"{name}++;", end) for text in texts]
        return texts

    def in_order(self) -> list[Variable]:
        """The compared objects in the order of their sources."""
        units = list(dict.fromkeys(unit.path for unit, _ in self.writer.names.items))
        return sorted(self.shared, key=lambda one: units.index(home_of(one)))


def home_of(variable: Variable) -> str:
    """The source that declares a variable first."""
    return variable.unit.path if variable.unit is not None else ""


def copied(made: list[str], folder: str) -> str:
    """Directives that include copies of what was written, with a call where a function that gives something ends without a
    return."""
    whole = "void adapt_fell(void); void adapt_deep(void);\n"
    for number, text in enumerate(made):
        path = os.path.join(folder, f"made_{number}.c")
        with open(path, "w", encoding="utf-8", errors="surrogateescape") as file:
            file.write(text.replace(FELL, "adapt_fell();"))
        whole += including(path)
    return whole
