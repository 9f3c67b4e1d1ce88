"""The committed manual."""
from __future__ import annotations

from pathlib import Path

from tests.shared.commands import TOP, printed


def test_manual(program: Path, tmp_path: Path) -> None:
    # Catches: a manual page that isn't made from what the program prints with --help.
    printed([str(TOP / "tools" / "release" / "manual"), str(program), str(tmp_path)])
    folders = tmp_path, TOP / "docs" / "man"
    made, committed = ({it.name: it.read_text() for it in folder.iterdir()} for folder in folders)
    assert made == committed, "make board && tools/release/manual out/board docs/man"
