"""The WebAssembly modules, as commands of node."""
from __future__ import annotations

from pathlib import Path

from tests.shared.commands import TOP, Words, printed

MADE = TOP / "portable" / "wasm" / "out"
MODULE, WIDE = "board.wasm", "board64.wasm"


def calling(module: str, *what: str, script: str = "calls.mjs") -> Words:
    """The command that calls a module."""
    flags = ["--experimental-wasm-memory64"] * module.endswith("64.wasm")
    return ["node", "--expose-gc", *flags, str(Path(__file__).parent / script), str(MADE / module), *what]


def on_register(module: str, *what: str) -> Words:
    """The command that calls the registers of a module."""
    return calling(module, *what, script="registers.mjs")


def text_of(module: str) -> str:
    return printed(["wasm2wat", "--enable-memory64", str(MADE / module)]).decode()
