"""Coq: the laws are checked, and runs compared with what their definitions compute."""
from __future__ import annotations

import re
import shutil
from pathlib import Path

from tests.second.runs import Compared
from tests.shared.commands import ended

HERE = Path(__file__).resolve().parent
MODULES = ["Counts", "Register", "Replay"]
# How many runs a module compares.
AT_ONCE = 24
HEAD = "Require Import String List NArith {}.\nImport ListNotations.\nOpen Scope N_scope.\n"
# A sentence, and what it is about: a definition or a law.
ITEM = r"^(?:\(\*\*(?P<said>(?:(?!\*\)).)*)\*\)\n)?(?P<kind>Definition|Fixpoint|Inductive|Record|Theorem) (?P<name>\w+)"


def items() -> list[re.Match[str]]:
    """The definitions and the laws of all modules; `said` is the sentence above one."""
    texts = [(HERE / f"{module}.v").read_text() for module in MODULES]
    return [it for text in texts for it in re.finditer(ITEM, text, re.MULTILINE | re.DOTALL)]


def checked(folder: Path, module: str) -> str:
    """What Coq prints of a module in a folder, whose proofs it checks."""
    # Coq leaves a cache of proofs in the folder where it runs.
    done = ended(["env", "-C", str(folder), "coqc", "-q", "-Q", ".", "Second", f"{module}.v"])
    assert done.status == 0, f"{module}: {done.complaint.decode()[:4000]}"
    return done.output.decode()


def compiled(folder: Path) -> Path:
    """A folder with all modules, checked."""
    folder.mkdir()
    for module in MODULES:
        shutil.copy(HERE / f"{module}.v", folder)
        checked(folder, module)
    return folder


def evaluated(folder: Path, name: str, text: str) -> str:
    """What Coq prints of a text over the modules."""
    (folder / f"{name}.v").write_text(HEAD.format(" ".join(f"Second.{it}" for it in MODULES)) + text)
    return checked(folder, name)


def literal(text: bytes) -> str:
    """A text as Replay.v reads it: a byte that isn't plain is a backslash and two digits."""
    plain = {ord('"'): '""', ord("\n"): "\n"} | {it: chr(it) for it in range(32, 127) if chr(it) not in '\\"'}
    return '"' + "".join(plain.get(byte, f"\\{byte:02X}") for byte in text) + '"'


def differing(folder: Path, name: str, runs: list[Compared]) -> str:
    """Which runs have another text than Coq computes, and what it computes; nothing if there are none."""
    parts = (runs[at : at + AT_ONCE] for at in range(0, len(runs), AT_ONCE))
    return "".join(differing_in(folder, f"{name}_{at}", part) for at, part in enumerate(parts))


def differing_in(folder: Path, name: str, runs: list[Compared]) -> str:
    """The same for few runs, as one module."""
    rows = [
        f'Run "{it.call.name}" {it.call.readers} {it.call.journal} {literal(it.call.text)} {literal(it.text)}'
        for it in runs
    ]
    said = evaluated(folder, name, f"Eval vm_compute in differing [{';'.join(rows)}].\n")
    return "" if re.fullmatch(r"\s*= \[\]\s*: list \(string \* string\)\s*", said) else said
