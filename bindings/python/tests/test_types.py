"""The types of the package and of lines that use it, by mypy."""
from __future__ import annotations

import re
import subprocess
import sys
from pathlib import Path

import pytest

import voting_board

HERE = Path(__file__).resolve().parent
NEWEST = ".".join(map(str, sys.version_info[:2]))
VERSIONS = ["3.9", pytest.param(NEWEST, marks=pytest.mark.deep("the gate checks what the oldest version takes"))]


def checked(version: str, *paths: Path) -> str:
    """What mypy says of files."""
    words = [sys.executable, "-m", "mypy", "--strict", "--python-version", version, "--cache-dir", "/dev/null"]
    done = subprocess.run([*words, *map(str, paths)], capture_output=True, text=True, cwd=HERE)
    return done.stdout + done.stderr


@pytest.mark.parametrize("version", VERSIONS)
def test_package(version: str) -> None:
    package = Path(voting_board.__file__).parent
    said = checked(version, package)
    assert said.startswith(f"Success: no issues found in {len([*package.rglob('*.py')])} source files"), said


@pytest.mark.parametrize("version", VERSIONS)
def test_uses(version: str) -> None:
    # Catches: a mistake of a user that no type shows, and a right use that a type refuses.
    uses = HERE / "uses.py"
    lines = uses.read_text().splitlines()
    wanted = [at for at, line in enumerate(lines, 1) if line.endswith("# wrong")]
    found = re.findall(r"uses\.py:(\d+): error", checked(version, uses))
    assert sorted(set(map(int, found))) == wanted
