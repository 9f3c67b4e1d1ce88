"""The WebAssembly module as a file, and the heaps of the module and of board.c."""
from __future__ import annotations

import base64
import re
import shutil
from pathlib import Path

import pytest

from tests.shared.commands import TOP, printed
from tests.targets.modules import MADE, MODULE, WIDE, text_of
from tests.targets.texts import beyond_lowering, deepest_stack

HERE = Path(__file__).parent
BUILD = "portable/wasm"
SOURCES = [f"{BUILD}/build", f"{BUILD}/heap.c", "tools/retarget", "out/board_c.bc"]
IN_PAGE = re.compile(r'<script type="text/plain" id="module">(.*?)</script>')
STRICT = ["-std=c11", "-Wall", "-Wextra", "-Werror"]
HEAP_CALLS = 10_000


@pytest.mark.deep("the gate compares the module with that of the committed page, which was made elsewhere")
def test_another_folder(tmp_path: Path) -> None:
    # Catches: bytes that depend on the folder, or on the moment, of a build.
    for source in SOURCES:
        (tmp_path / source).parent.mkdir(parents=True, exist_ok=True)
        shutil.copy(TOP / source, tmp_path / source)
    printed([str(tmp_path / BUILD / "build")])
    made = list((tmp_path / BUILD / "out").iterdir())
    differ = [it.name for it in made if it.read_bytes() != (TOP / BUILD / "out" / it.name).read_bytes()]
    assert made and not differ


def test_is_in_the_page() -> None:
    # Catches: a module that was proved and didn't reach the committed page.
    found = IN_PAGE.findall((TOP / "board.html").read_text())
    is_same = [*map(base64.b64decode, found)] == [(MADE / MODULE).read_bytes()]
    assert is_same, "board.html has another module: CONTRIBUTING says how to make it again"


def test_lowering() -> None:
    # Catches: code of the module that isn't, with shorter addresses, that of the module with a 64-bit memory.
    beyond = beyond_lowering(text_of(WIDE), text_of(MODULE))
    assert not beyond, beyond


def test_exports() -> None:
    # Catches: a call of board.h, or of the heap, that the module doesn't export, and an export that is none.
    proved = (TOP / "crates" / "board_c" / "board.h").read_text().partition("/* Names and texts.")[0]
    declared = re.findall(r"^(?:uint8_t|uint32_t|size_t|void) (board_\w+)\(", proved, re.MULTILINE)
    exported = re.findall(r'^  \(export "(\w+)"', text_of(MODULE), re.MULTILINE)
    assert sorted(exported) == sorted([*declared, "board_reserve", "board_release", "memory"])


def test_stack() -> None:
    # Catches: something that the module imports, and a stack without room for the deepest chain of calls.
    text = text_of(WIDE)
    stack = re.search(r"\(global \(;0;\) \(mut i64\) \(i64.const (\d+)\)\)", text)
    assert "(import " not in text
    assert stack and deepest_stack(text) <= int(stack[1])


@pytest.mark.parametrize("seed", [1, 2, 3])
def test_heap(tmp_path: Path, seed: int) -> None:
    # Catches: blocks of the module's heap that overlap, or that are lost, under sanitizers.
    made = str(tmp_path / "heap")
    checks = ["-fsanitize=address,undefined", "-fno-sanitize-recover=all"]
    printed(["cc", *STRICT, "-O1", "-g", *checks, "-o", made, str(HERE / "heap.c")])
    printed([made, str(seed), str(HEAP_CALLS)])


def test_other_heap(tmp_path: Path) -> None:
    # Catches: a heap of board.c that gives other memory than was asked for.
    made = str(tmp_path / "other_heap")
    flags = ["-static", "-Wno-unused-parameter"]
    printed(["cc", *STRICT, *flags, "-o", made, str(HERE / "other_heap.c")])
    printed([made])
