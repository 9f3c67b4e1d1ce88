"""Runs the commands of the package for Python from a clone or a release, without an installation.

As a program it prints the path of the library, which in a clone is compiled from portable/board.c.
"""
from __future__ import annotations

import os
import subprocess
import sys
from importlib import import_module
from pathlib import Path

TOP = Path(__file__).resolve().parents[3]
C_FILE = TOP / "portable" / "board.c"
SOURCES = TOP / "bindings" / "python" / "src"


def library() -> Path:
    """The library of the release; in a clone the one in portable/out, compiled again if the C file is newer."""
    if (TOP / "lib" / "libboard.so").exists():
        return TOP / "lib" / "libboard.so"
    made = TOP / "portable" / "out" / "libboard.so"
    if not made.exists() or made.stat().st_mtime < C_FILE.stat().st_mtime:
        made.parent.mkdir(exist_ok=True)
        beside = made.with_name(f"{made.name}.{os.getpid()}")
        flags = ["-O2", "-g0", "-fPIC", "-fstack-protector-strong", "-shared"]
        subprocess.run([os.environ.get("CC", "cc"), *flags, str(C_FILE), "-o", str(beside)], check=True)
        os.replace(beside, made)
    return made


def prepare() -> None:
    """Makes the package importable: in a clone its sources, and in a release its wheel."""
    wheels = sorted((TOP / "packages" / "python").glob("voting_board-*-manylinux_2_17_x86_64.whl"))
    sys.path.insert(0, str(SOURCES if SOURCES.exists() else wheels[-1]))
    os.environ.setdefault("BOARD_LIBRARY", str(library()))


def run(command: str) -> None:
    """Runs a command of the package."""
    try:
        prepare()
        module = import_module(f"voting_board.{command}_command")
    except (OSError, subprocess.CalledProcessError, ImportError) as why:
        sys.exit(f"board-{command}: the library can't be compiled or loaded: {why}")
    sys.exit(module.main())


if __name__ == "__main__":
    print(library())
