"""Builds the programs that are timed: those over the library by `make`, and plain ones into WORK."""
from __future__ import annotations

import pathlib
import shutil
import subprocess

HERE = pathlib.Path(__file__).resolve().parent
OUT = HERE.parent / "out"
WORK = OUT / "bench"


#: The crates that the programs over the library use, and those that some of them use.
CRATES = ["council_core", "majority_rule", "half_sums", "swing_walk", "power_index"]
MORE = {
    "timing": ["anyhow"],
    "reading": ["anyhow", "left_right", "board_audits", "two_copy_steps", "board_share"],
}


def kit() -> pathlib.Path:
    """The folder of the toolchain."""
    return pathlib.Path(subprocess.check_output(["rt", "doc"], text=True).strip()).parent


def make(goal: str) -> None:
    """Has `make` prove and build something, if necessary."""
    WORK.mkdir(parents=True, exist_ok=True)
    subprocess.run(["make", "--silent", "-C", OUT.parent, OUT / goal], check=True)


def build(program: str) -> list[str]:
    """Proves and builds a program over the library: timing or reading. Returns its command."""
    make("proved")
    folder, tools = WORK / program, kit()
    (folder / "src").mkdir(parents=True, exist_ok=True)
    shutil.copy(HERE / f"{program}.rt.txt", folder / "src" / "main.rt")
    words: list[str | pathlib.Path] = ["--crate-name", program, "src/main.rt", "--links", f"{program}="]
    for name in ["std", *CRATES, *MORE[program]]:
        own = OUT / f"{name}.rlib"
        words += ["--extern", f"{name}={own if own.exists() else tools / 'rlibs' / own.name}"]
    words += ["-L", f"dependency={OUT}", "-L", f"dependency={tools}/rlibs"]
    words += ["--antt-project", tools / "rattle/logic/antt-project.json", "--logic-built", tools / "logic_built"]
    chain: list[str | pathlib.Path] = ["--toolchain", tools / "toolchain"]
    words += [*chain, "--backend", "llvm", "-o", "it.o"]
    rattle: list[str | pathlib.Path] = [tools / "bin/rattle", "build", *words]
    subprocess.run(rattle, cwd=folder, check=True)
    objects: list[str | pathlib.Path] = ["it.o", tools / "c/libos_c.a", tools / "c/liblibc_c.a"]
    link: list[str | pathlib.Path] = [
        tools / "bin/rattle-link",
        "--target",
        "x86_64-unknown-linux-gnu",
        *chain,
        "-o",
        "it",
        *objects,
    ]
    subprocess.run(link, cwd=folder, check=True)
    return [str(folder / "it")]


def archives() -> list[pathlib.Path]:
    """The static library, and what it needs of the kit."""
    make("board_c.bc")
    return [OUT / "libboard_c.a", kit() / "c" / "liblibc_c.a"]


def compiled(source: str | pathlib.Path, name: str, *words: str | pathlib.Path, compiler: str = "cc") -> pathlib.Path:
    """Compiles a program in C of this folder into WORK by this name. It finds board.h."""
    program = WORK / name
    header = OUT.parent / "crates" / "board_c"
    subprocess.run([compiler, "-O2", f"-I{header}", HERE / source, *words, "-o", program], check=True)
    return program
