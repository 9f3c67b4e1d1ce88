"""board.c and board.h themselves: what makes them, and what refuses them."""
from __future__ import annotations

import shutil
import subprocess
from pathlib import Path

import pytest
from tests.portable.compilers import PORTABLE
from tests.shared.commands import TOP, printed

FILES = ["board.c", "board.h"]


@pytest.mark.parametrize("name", FILES)
def test_is_made_of_what_is_proved(name: str) -> None:
    # Catches: code that was proved and didn't reach the committed file, and a file that was edited by hand.
    if (PORTABLE / name).read_bytes() != (PORTABLE / "out" / name).read_bytes():
        other = subprocess.run([TOP / "tools" / "made-with", "--compare"], stdout=subprocess.PIPE, text=True).stdout
        pytest.fail(f"{name} isn't what is proved. Other tools than those that made it:\n{other or 'none'}")


@pytest.mark.deep("the gate compares the file with the committed one, which was made elsewhere")
def test_another_folder(tmp_path: Path) -> None:
    # Catches: bytes that depend on the folder, or on the moment, of a build.
    copied = shutil.ignore_patterns(".git", "out", "must-fail", "proofs")
    for part in ["crates", "portable", "tools"]:
        shutil.copytree(TOP / part, tmp_path / part, ignore=copied)
    (tmp_path / "out").symlink_to(TOP / "out")
    printed([str(tmp_path / "portable" / "build"), str(tmp_path / "made")])
    for name in FILES:
        assert (tmp_path / "made" / name).read_bytes() == (PORTABLE / "out" / name).read_bytes(), f"another {name}"


@pytest.mark.parametrize("compiler", ["gcc", "clang"])
def test_big_endian(compiler: str) -> None:
    # Catches: wrong numbers on a system that has the bytes of a number in the other order.
    order = ["-U__BYTE_ORDER__", "-D__BYTE_ORDER__=__ORDER_BIG_ENDIAN__"]
    words = [compiler, *order, "-fsyntax-only", str(PORTABLE / "board.c")]
    done = subprocess.run(words, capture_output=True, text=True)
    assert done.returncode != 0 and "board.c needs a little-endian processor" in done.stderr
