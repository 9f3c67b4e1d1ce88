"""Programs in C over the static library, for this machine and for others."""
from __future__ import annotations

import os
from pathlib import Path

from tests.shared.commands import TOP, Words, printed

HEADER = TOP / "crates" / "board_c"
STRICT = ["-std=c11", "-Wall", "-Wextra", "-Werror", "-pedantic", "-pthread", f"-I{HEADER}"]
# For programs that refuse memory.
REFUSING = ["-Wl,--wrap=malloc,--wrap=realloc,--wrap=free"]


def kit() -> Path:
    """The folder of the toolchain."""
    return Path(printed(["rt", "doc"]).decode().strip()).parent


C_FILE = TOP / "portable" / "board.c"
TEXTS = ['-DBOARD_VERSION="of tests"', str(HEADER / "texts.c")]


def native() -> Words:
    """The library for this machine, or, where the program under test is the one of board.c, this file."""
    if Path(os.environ["BOARD"]).resolve() == C_FILE.with_name("out") / "board":
        return [str(C_FILE)]
    return [f"{TOP}/out/libboard_c.a", f"{kit()}/c/liblibc_c.a"]


def over(libraries: Words, source: Path, made: Path, *flags: str, compiler: str = "cc") -> str:
    """A program in C over libraries, compiled without a warning."""
    names = [] if str(C_FILE) in libraries else TEXTS
    printed([compiler, *STRICT, *names, *flags, str(source), *libraries, "-o", str(made)])
    return str(made)


def over_libraries(source: Path, made: Path, *flags: str) -> str:
    """A program in C over the libraries for this machine."""
    return over(native(), source, made, "-O2", *flags)
