"""The builds of --compare: each compiler that is there, at each level, with the sanitizers that it has, and runs of a build."""

import os
import re
import shutil
import subprocess
from collections.abc import Iterator, Sequence
from dataclasses import dataclass
from typing import NamedTuple

from fshell_tools.adapt.common.refusals import Stop
from fshell_tools.core import processes

EVERY = (("gcc", "-O0"), ("gcc", "-O2"), ("clang", "-O0"), ("clang", "-O2"))
TIME_IS_UP = (-27, -14)  # (SIGPROF, and SIGALRM where a run waits)
SECONDS, PATIENT = 2, 20  # of a processor that a run may take, and one that is tried again
# what the profile gives a meaning that C leaves open: signed operations wrap, memory is read as its bytes, objects begin as 0
FLAGS = ("-std=gnu11", "-w", "-fwrapv", "-fno-strict-aliasing", "-fno-builtin-malloc", "-fno-builtin-realloc")
ZEROED = {
    "gcc": (("-ftrivial-auto-var-init=zero",), ()),
    "clang": (
        (
            "-ftrivial-auto-var-init=zero",
            "-enable-trivial-auto-var-init-zero-knowing-it-will-be-removed-from-clang",
        ),
        ("-ftrivial-auto-var-init=zero",),
        (),
    ),
}
# the sanitizers of the original, where C gives no meaning, and those of what was written, where the program traps
TRAPS = "-fsanitize-undefined-trap-on-error"
BOUNDS = "bounds,shift-exponent,integer-divide-by-zero"
POINTERS = "pointer-compare,pointer-subtract"  # of pointers that aren't into one object (6.5.8p5, 6.5.6p9)
# clang sees pointers that leave their memory (6.5.6p8) where nothing is said to wrap, which at -O0 wraps nonetheless
LEAVING, UNWATCHED = ("clang", "-O0"), ("-fno-sanitize=signed-integer-overflow,shift-base",)
WATCHED = (
    ((f"-fsanitize=address,undefined,{POINTERS}", TRAPS), (f"-fsanitize=address,{BOUNDS}", TRAPS)),
    (("-fsanitize=address,undefined", TRAPS), (f"-fsanitize=address,{BOUNDS}", TRAPS)),
    (("-fsanitize=undefined", TRAPS), (f"-fsanitize={BOUNDS}", TRAPS)),
    (("-fsanitize=address",), ("-fsanitize=address",)),
    ((), ()),
)
QUIET = (
    "max_malloc_fill_size=65536:malloc_fill_byte=0:detect_leaks=0:abort_on_error=0:exitcode=70:detect_stack_use_after_return=1:"
    "detect_invalid_pointer_pairs=2"
)
NOT_THERE = "it isn't there"
EMPTY = "int main(void) { return 0; }\n"


class Run(NamedTuple):
    """How a run ended, and its lines: one a call, and what was told of the call at which it ended."""

    status: int
    lines: list[str]

    @property
    def whole(self) -> int:
        """How many calls came back."""
        return len(self.lines) - 1


@dataclass(frozen=True)
class Build:
    """A compiler at a level, and the flags that it takes for the original and for what was written."""

    compiler: str
    level: str
    original: tuple[str, ...]
    adapted: tuple[str, ...]
    folder: str

    @property
    def name(self) -> str:
        """What lines call it: the compiler and the level."""
        return f"{self.compiler} {self.level}"

    @property
    def watches(self) -> list[str]:
        """The sanitizers of the original."""
        return [one for flag in self.original if flag.startswith("-fsanitize=") for one in flag[11:].split(",")]

    def at(self, program: str) -> str:
        """The path of a program."""
        return os.path.join(self.folder, f"{program}{self.level}-{self.compiler}")

    def ran(self, program: str, lines: Sequence[str], seconds: int = SECONDS) -> list[Run]:
        """The runs of a program on inputs, a line of words each. Raises Stop where the program itself ends otherwise."""
        given = os.path.join(self.folder, "given.txt")
        with open(given, "w", encoding="ascii") as file:
            file.write("".join(line + "\n" for line in lines))
        words = [self.at(program), given, str(seconds)]
        ended = processes.run(words, capture_output=True, check=False, env={**os.environ, "ASAN_OPTIONS": QUIET})
        parts = re.split(r"\n=(-?\d+)\n", ended.stdout.decode(errors="replace"))
        runs = [Run(int(status), text.split("\n")) for text, status in zip(parts[0::2], parts[1::2])]
        if len(runs) != len(lines):
            raise Stop(f"the {program} by {self.name} ends with status {ended.returncode}")
        return runs


def compiled(words: Sequence[str], out: str, texts: Sequence[str]) -> str:
    """Compiles texts to one program; what the compiler says, if it refuses them."""
    paths = []
    for number, text in enumerate(texts):
        paths.append(f"{out}_{number}.c")
        with open(paths[-1], "w", encoding="utf-8", errors="surrogateescape") as file:
            file.write(text)
    ended: subprocess.CompletedProcess[str] = processes.run(
        [*words, "-o", out, *paths], capture_output=True, text=True, errors="replace", check=False
    )
    if not ended.returncode:
        return ""
    told = [line for line in ended.stderr.splitlines() if "error:" in line or "undefined" in line]
    return (told or ended.stderr.splitlines() or ["?"])[0]


def candidates(compiler: str, level: str, folder: str) -> Iterator[Build]:
    """A compiler's builds with the flags that it may take, the best first."""
    for original, adapted in WATCHED:
        leaves = (compiler, level) == LEAVING and POINTERS in "".join(original)
        own = [one for one in FLAGS if not leaves or one != "-fwrapv"]
        last = UNWATCHED if leaves else ()
        for zeroed in ZEROED[compiler]:
            yield Build(compiler, level, (*own, *zeroed, *original, *last), (*FLAGS, *zeroed, *adapted), folder)


def is_taken(build: Build) -> bool:
    """Whether the compiler takes a build's flags."""
    words = [build.compiler, build.level, *build.original]
    return not compiled(words, build.at("empty"), [EMPTY])


def built(
    compiler: str, level: str, original: Sequence[str], adapted: Sequence[str], flags: Sequence[str], folder: str
) -> tuple[Build | None, str]:
    """A build of both programs, or why the compiler refuses the original. Raises Stop where it refuses what was written."""
    told = "?"
    for build in candidates(compiler, level, folder):
        words = [compiler, level]
        told = compiled([*words, *build.original, *flags], build.at("original"), original)
        if told and not is_taken(build):
            continue
        if told:
            return None, told
        told = compiled([*words, *build.adapted], build.at("adapted"), adapted)
        if told:
            raise Stop(f"the adapted can't be compiled: {told}")
        return build, ""
    return None, told


def all_built(
    original: Sequence[str], adapted: Sequence[str], flags: Sequence[str], folder: str
) -> tuple[list[Build], dict[str, str]]:
    """All builds of both programs, and why a compiler has none. Raises Stop where there is none at all."""
    builds: list[Build] = []
    missing: dict[str, str] = {}
    for compiler, level in EVERY:
        if compiler in missing:
            continue
        if not shutil.which(compiler):
            missing[compiler] = NOT_THERE
            continue
        build, told = built(compiler, level, original, adapted, flags, folder)
        if build is None:
            missing[compiler] = told
        else:
            builds.append(build)
    if not builds:
        told = next((why for why in missing.values() if why != NOT_THERE), "no compiler is there")
        raise Stop(f"the original can't be compiled: {told}")
    return builds, missing


def version_of(compiler: str) -> str:
    """The first line of what a compiler says of itself."""
    ended: subprocess.CompletedProcess[str] = processes.run(
        [compiler, "--version"], capture_output=True, text=True, errors="replace", check=False
    )
    return (ended.stdout.splitlines() or ["?"])[0]
