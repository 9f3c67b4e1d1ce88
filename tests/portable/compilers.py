"""The compilers of board.c, the systems that their programs run on, and what each of them makes."""
from __future__ import annotations

import subprocess
from dataclasses import dataclass, field
from pathlib import Path
from random import Random
from typing import TypeVar

import pytest
from tests.shared.commands import TOP, Words, printed
from tests.shared.sizes import seed

HERE = Path(__file__).resolve().parent
TESTS = HERE.parent
PORTABLE = TOP / "portable"
# In board.c a warning is an error. The programs that call it are checked by the tests that they come from.
STRICT = ["-Wall", "-Wextra", "-Werror", "-pedantic"]
OPTIMIZED = ["-O2"]
# Code that a sanitizer has changed takes long to optimize, and needs more stack.
CHANGED = ["-O0", "-g", "-fno-sanitize-recover=all", "-DSTACK_TIMES=64"]
SANITIZED, RACED = [*CHANGED, "-fsanitize=address,undefined"], [*CHANGED, "-fsanitize=thread"]
# One in this many inputs is tried under a sanitizer.
FEW = 20
T = TypeVar("T")
LEFT_OUT = pytest.mark.deep("the gate tries a few compilers: a fault that another one makes is found later")


@dataclass(frozen=True)
class Compiler:
    """A compiler of board.c, with the words of its language; and the compiler of the programs in C that call it."""

    name: str
    language: Words
    of_c: str
    flags: Words = field(default_factory=lambda: OPTIMIZED)
    linked: Words = field(default_factory=list)
    # The command that runs a program, if it isn't the program itself.
    runner: Words = field(default_factory=list)

    @property
    def is_windows(self) -> bool:
        return self.name == "windows"

    @property
    def is_slow(self) -> bool:
        return self.flags in (SANITIZED, RACED)


def c99(name: str, compiler: str, flags: Words = OPTIMIZED) -> Compiler:
    return Compiler(name, [compiler, "-std=c99"], compiler, flags)


def cross(name: str, compiler: str, *runner: str) -> Compiler:
    """The compiler for another system. Its programs need none of that system's files."""
    return Compiler(name, [compiler, "-std=c99"], compiler, linked=["-static"], runner=[*runner])


GCC, CLANG = c99("gcc", "gcc"), c99("clang", "clang")
CPLUSPLUS = Compiler("c++", ["g++", "-std=c++17", "-x", "c++"], "gcc")
UNOPTIMIZED = Compiler("gcc-O0", ["gcc", "-std=c11"], "gcc", ["-O0"])
MUSL = cross("musl", "musl-gcc")
I686 = cross("i686", "i686-linux-gnu-gcc")
AARCH64 = cross("aarch64", "aarch64-linux-gnu-gcc", "qemu-aarch64")
RISCV64 = cross("riscv64", "riscv64-linux-gnu-gcc", "qemu-riscv64")
WINDOWS = cross("windows", "x86_64-w64-mingw32-gcc")
# Those that take longest come first.
SYSTEMS = [RISCV64, UNOPTIMIZED, AARCH64, WINDOWS, I686, MUSL, GCC, CLANG, CPLUSPLUS]
SANITIZERS = [c99("clang-sanitized", "clang", SANITIZED), c99("gcc-sanitized", "gcc", SANITIZED)]
THREADED = c99("gcc-threads", "gcc", RACED)
# What the gate tries: the usual compiler, 32 bits, undefined behaviour, and two others, drawn by the commit.
EACH = [GCC, I686, SANITIZERS[0]]
DRAWN = Random(seed()).sample([it for it in [*SYSTEMS, *SANITIZERS, THREADED] if it not in EACH], 2)


def on(compilers: list[Compiler]) -> pytest.MarkDecorator:
    """A test of what each compiler makes. All tests of one compiler are run by one worker, which compiles once."""
    given = []
    for it in compilers:
        marks = [pytest.mark.xdist_group(it.name), *([] if it in EACH + DRAWN else [LEFT_OUT])]
        given.append(pytest.param(it, id=it.name, marks=marks))
    return pytest.mark.parametrize("built", given, indirect=True)


class Wine:
    """A system for Windows programs, in a folder. One program waits there to the end, so that others begin at once."""

    def __init__(self, folder: Path) -> None:
        named = {"WINEPREFIX": str(folder), "WINEDEBUG": "-all", "WINEDLLOVERRIDES": "mscoree,mshtml="}
        self.environment = ["env", *(f"{name}={value}" for name, value in named.items())]
        self.runner = [*self.environment, "/usr/lib/wine/wine64"]
        # What begins here keeps the streams that it is given, so it is given none that a test waits for.
        none = subprocess.DEVNULL
        subprocess.run([*self.runner, "wineboot", "--init"], stdin=none, stdout=none, stderr=none, check=True)
        self.waits = subprocess.Popen([*self.runner, "cmd"], stdin=subprocess.PIPE, stdout=none, stderr=none)

    def close(self) -> None:
        subprocess.run([*self.environment, "/usr/lib/wine/wineserver64", "--kill"])
        self.waits.communicate()


class Built:
    """What a compiler makes, in a folder. Each part is made when it is first asked for."""

    def __init__(self, compiler: Compiler, work: Path) -> None:
        self.compiler, self.work = compiler, work
        self.wine = Wine(work / "wine") if compiler.is_windows else None
        self.runner = self.wine.runner if self.wine else compiler.runner

    def close(self) -> None:
        if self.wine:
            self.wine.close()

    def some(self, every: list[T]) -> list[T]:
        """All of a list, or few of it where programs are slow."""
        return every[::FEW] if self.compiler.is_slow else every

    def object(self, *flags: str, source: Path = PORTABLE / "board.c") -> Path:
        """board.c, or a source that includes it, compiled without a warning."""
        made = self.work / "".join([source.stem, *flags, ".o"])
        if not made.exists():
            words = [*self.compiler.language, *self.compiler.flags, *STRICT, *flags, f"-I{PORTABLE}"]
            printed([*words, "-c", str(source), "-o", str(made)])
        return made

    def object_of_c(self, source: Path) -> Path:
        """A program in C that calls board.c, compiled."""
        made = self.work / f"{source.parent.name}-{source.stem}.o"
        if not made.exists():
            words = [self.compiler.of_c, "-std=gnu11", *self.compiler.flags, f"-I{PORTABLE}"]
            printed([*words, "-c", str(source), "-o", str(made)])
        return made

    def linked(self, objects: list[Path], *flags: str) -> Words:
        """The command of a program that is linked from objects. It has the name of the first."""
        made = objects[0].with_suffix(".exe")
        if not made.exists():
            words = [self.compiler.language[0], *self.compiler.flags, *map(str, objects), *flags]
            printed([*words, *self.compiler.linked, "-pthread", "-o", str(made)])
        return [*self.runner, str(made)]

    def program(self) -> Words:
        """The command of the program that board.c is."""
        return self.linked([self.object("-DBOARD_MAIN")])

    def including(self, source: Path) -> Words:
        """The command of a program that includes board.c."""
        return self.linked([self.object(source=source)])

    def calling(self, source: str, *flags: str) -> Words:
        """The command of a program in C of the other tests, over board.c."""
        objects = [self.object_of_c(TESTS / source), self.object()]
        objects += [self.object_of_c(HERE / "binary.c")] if self.compiler.is_windows else []
        return self.linked(objects, *flags)
