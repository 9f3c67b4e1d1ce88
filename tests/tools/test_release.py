"""What of a release needs no proof: its documents, and archives with the same bytes each time."""
from __future__ import annotations

import os
import shutil
from pathlib import Path

from tests.release.links import dead_links
from tests.shared.commands import TOP, printed

# What a release has besides, and to which its README links.
BUILT = ["include", "lib", "packages", "wasm"]


def test_repack(tmp_path: Path) -> None:
    # Catches: bytes of a source package that depend on when, or in which order, its files were written.
    made = []
    for number, names in enumerate([("one", "two"), ("two", "one")]):
        folder = tmp_path / str(number)
        (folder / "it").mkdir(parents=True)
        (folder / "it" / "DESCRIPTION").write_text(f"Packaged: 2026-01-0{number + 1} 00:00:00 UTC; someone\n")
        for at, name in enumerate(names):
            (folder / "it" / name).write_text(name)
            os.utime(folder / "it" / name, (at, number))
        made.append(folder / "it.tar.gz")
        printed(["tar", "czf", str(made[-1]), "-C", str(folder), "it"])
        printed([str(TOP / "tools" / "release" / "repack"), str(made[-1])])
    assert made[0].read_bytes() == made[1].read_bytes()


def test_links(tmp_path: Path) -> None:
    # Catches: a link from a document of a release to one that only the repository has.
    folder = tmp_path / "release"
    words = [str(TOP / "tools" / "release" / "documents"), str(folder), str(TOP / "board.html")]
    printed([*words, "bindings/python/commands"])
    shutil.copy(TOP / "tools" / "release" / "README.md", folder)
    for name in BUILT:
        (folder / name).mkdir()
    dead = list(dead_links(folder))
    assert not dead, "\n".join(dead)
