"""Commands that tests run, and how they end."""
from __future__ import annotations

import os
import subprocess
import sys
from collections.abc import Callable
from dataclasses import dataclass
from importlib.machinery import SourceFileLoader
from importlib.util import module_from_spec, spec_from_loader
from pathlib import Path
from types import ModuleType

TOP = Path(__file__).resolve().parents[2]
SECONDS = 600
Words = list[str]
# What pytest's `record_property` is: a test says something that is printed at the end of the report.
Say = Callable[[str, object], None]


@dataclass(frozen=True)
class Ended:
    """How a command ended: its status, and what it wrote to standard output and to standard error."""

    status: int
    output: bytes
    complaint: bytes


def ended(words: Words, given: bytes = b"", seconds: int = SECONDS) -> Ended:
    done = subprocess.run(words, input=given, capture_output=True, timeout=seconds)
    return Ended(done.returncode, done.stdout, done.stderr)


def printed(words: Words, given: bytes = b"") -> bytes:
    """The output of a command; it fails if the command does."""
    done = subprocess.run(words, input=given, stdout=subprocess.PIPE, stderr=subprocess.PIPE)
    if done.returncode:
        why = done.stderr.decode(errors="replace")[-2000:]
        raise AssertionError(f"{' '.join(words)} ended with {done.returncode}: {why}")
    return done.stdout


def user_environment() -> dict[str, str]:
    """The environment without what `tests/run` sets for its own Python."""
    return {name: value for name, value in os.environ.items() if not name.startswith("PYTHON")}


def tool(name: str) -> ModuleType:
    """A program of `tools` as a module, with the modules next to it."""
    path = TOP / "tools" / name
    if str(path.parent) not in sys.path:
        sys.path.insert(0, str(path.parent))
    loader = SourceFileLoader(path.stem, str(path))
    spec = spec_from_loader(path.stem, loader)
    assert spec
    module = module_from_spec(spec)
    sys.modules[path.stem] = module
    loader.exec_module(module)
    return module


def ran_in(folder: Path, words: Words) -> str:
    """The output of a command in a folder; it fails if the command does."""
    return subprocess.run(words, cwd=folder, check=True, capture_output=True, text=True).stdout
