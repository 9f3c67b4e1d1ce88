"""What `make install` puts into a folder: the program, the library for C, which test_c.py tests too, and the manual."""
from __future__ import annotations

from pathlib import Path

import pytest

from tests.release.conftest import make
from tests.release.outside import ran

pytestmark = pytest.mark.xdist_group("c")
PAGES = ["board", "board-replay", "board-serve", "board-trace"]
SAME = {"bin/board": "board"} | {it: it for it in ("include/board.h", "lib/libboard.a", "lib/libboard.so")}


@pytest.mark.parametrize("name", SAME)
def test_files(room: Path, installed: Path, name: str) -> None:
    # Catches: a program or a library that isn't the release's.
    assert (installed / name).read_bytes() == (room / SAME[name]).read_bytes()


@pytest.mark.parametrize("page", PAGES)
def test_manual(room: Path, installed: Path, page: str) -> None:
    # Catches: a manual page that is read with a warning, that man doesn't find by its name, or that lacks a word of the
    # command's help.
    path = installed / "share" / "man" / "man1" / f"{page}.1"
    assert ran(["groff", "-man", "-Tutf8", "-ww", "-z", str(path)], room) == ""
    assert f'"{page} - ' in ran(["lexgrog", str(path)], room)
    shown = ran(["man", "--warnings", "--local-file", str(path)], room, MANWIDTH="200")
    told = ran(["./board", *page.split("-")[1:], "--help"], room)
    missing = {it for it in told.split() if it not in shown} - {"Usage:", "Options:"}
    assert not missing, f"{page}: {missing}"


def test_removal(tmp_path: Path) -> None:
    # Catches: a file that was installed and that `make uninstall` leaves there.
    folder = make("install", tmp_path)
    assert any(it.is_file() for it in folder.rglob("*"))
    make("uninstall", tmp_path)
    left = {str(it.relative_to(folder)) for it in folder.rglob("*") if not it.is_dir()}
    assert not left, left
