"""tools/prove, with a stub for rt."""
from __future__ import annotations

import os
import shutil
import subprocess
from pathlib import Path

import pytest

from tests.shared.commands import TOP

RT = """#!/bin/sh
echo "rt $*"; sort crates.txt; ls; ls crates/low
mkdir -p crates/low/out/rlib/low.rlib crates/top/out
echo "$LOW" >crates/low/out/rlib/low.rlib/format; echo "$LOW" >crates/top/out/top
echo "== low"; echo "why"; echo "rt: low $LOW"; echo "rt: top is kept: an earlier run"
echo "rt: top: its tests are proved"
[ "$LOW" = proved ] && echo "2 passed, 0 failed" && exit
echo "1 passed, 1 failed"; exit 1
"""


@pytest.fixture
def top(tmp_path: Path) -> Path:
    """A repository of three crates, and rt."""
    for name in ("low/src", "low/must-fail", "low/out", "top/src", "other/src"):
        (tmp_path / "top" / "crates" / name).mkdir(parents=True)
    (tmp_path / "top" / "tools").mkdir()
    shutil.copy(TOP / "tools" / "prove", tmp_path / "top" / "tools")
    (tmp_path / "top" / "crates.txt").write_text("low:\ntop may_wait=1: low\nother: low\n")
    (tmp_path / "top" / "HANDLES").write_text("none\n")
    (tmp_path / "rt").write_text(RT)
    (tmp_path / "rt").chmod(0o755)
    return tmp_path / "top"


def proved(top: Path, *crates: str, **more: str) -> tuple[int, list[str]]:
    environment = {**os.environ, "PATH": f"{top.parent}:{os.environ['PATH']}", "DEEP": "", "LOW": "proved", **more}
    done = subprocess.run([top / "tools" / "prove", *crates], env=environment, capture_output=True, text=True)
    return done.returncode, (done.stdout + done.stderr).splitlines()


def test_what_is_proved(top: Path) -> None:
    # Catches: a crate that isn't proved, mutations that are, and what is built and isn't kept.
    status, said = proved(top, "low", "top")
    assert status == 0
    assert said[:3] == ["low proved, 1 of 2", "top proved, 2 of 2", "top: its tests are proved"]
    assert said[3].endswith(" processor minutes") and said[4:] == ["2 passed, 0 failed"]
    log = (top / "out" / "prove.log").read_text().splitlines()
    asked, *copied = log[: log.index("== low")]
    assert asked == "rt ci" and copied == ["low:", "top may_wait=1: low", "HANDLES", "crates", "crates.txt", "src"]
    assert (top / "out" / "low.rlib" / "format").read_text() == (top / "out" / "top").read_text() == "proved\n"


def test_all_crates_are_proved_with_all_files(top: Path) -> None:
    # Catches: a source that no crate has, and that rt doesn't see.
    assert proved(top, "low", "top", "other")[0] == 0
    assert "tools" in (top / "out" / "prove.log").read_text().splitlines()


def test_the_deep_gate_proves_all_from_scratch(top: Path) -> None:
    # Catches: a proof that the deep gate takes from an earlier run.
    assert proved(top, "low", "top", DEEP="1")[0] == 0
    assert (top / "out" / "prove.log").read_text().startswith("rt ci --anew\n")


def test_what_is_not_proved_is_shown(top: Path) -> None:
    # Catches: a failed proof whose reason nobody sees, or that passes.
    status, said = proved(top, "low", "top", LOW="NOT PROVED")
    assert status == 1 and said[-1] == "1 passed, 1 failed"
    assert said[said.index("== low") :][:3] == ["== low", "why", "rt: low NOT PROVED"]
