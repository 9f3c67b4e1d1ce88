"""The library: how it is found and checked, and what happens where memory or the machine fails."""
from __future__ import annotations

import os
import shutil
import subprocess
import sys
import textwrap
from ctypes import sizeof
from pathlib import Path
from typing import Any

import pytest

from voting_board import Register, __version__, library, scripts
from voting_board.names import REFUSALS, VERSION

PATH = Path(library.path_of())
EXAMPLE = "from voting_board import indices; print(indices([50, 49, 1], 'half').swings)"


def run(code: str, **more: str) -> subprocess.CompletedProcess[str]:
    """Runs lines in another process, with more in its environment."""
    words = [sys.executable, "-W", "error", "-c", textwrap.dedent(code)]
    return subprocess.run(words, env=os.environ | more, capture_output=True, text=True)


def import_error(found: subprocess.CompletedProcess[str]) -> str:
    """The message of the ImportError that ended a process."""
    assert found.returncode == 1, found
    kind, _, message = found.stderr.splitlines()[-1].partition(": ")
    assert kind == "ImportError", found.stderr
    return message


def test_versions() -> None:
    assert __version__ == VERSION == library.short.board_version().decode()


def test_structs() -> None:
    header = {library.CommandWords: 24, library.Entry: 16, library.MemberRow: 24, library.Item: 48}
    assert {it: sizeof(it) for it in header} == header
    assert library.Item.number.offset == 4 * scripts.RECORD and library.Item.command.offset == scripts.KIND


def test_names_of_refusals() -> None:
    call: Any = library.short.board_refusal_name
    call.restype, call.argtypes = library.ctypes.c_char_p, [library.c_uint32]
    names = {number: call(number).decode() for number in range(300) if call(number)}
    assert {number: name for number, name in names.items() if number in REFUSALS} == {
        number: name for number, (name, _) in REFUSALS.items()
    }


def test_another_library(tmp_path: Path) -> None:
    copied = tmp_path / "other.so"
    shutil.copy(PATH, copied)
    assert run(EXAMPLE, BOARD_LIBRARY=str(copied)).stdout == "(3, 1, 1)\n"


def test_a_library_of_another_version(tmp_path: Path) -> None:
    # Catches: BOARD_LIBRARY of another version that is accepted.
    other = tmp_path / "other.so"
    version = f"{VERSION[:-1]}x"
    other.write_bytes(PATH.read_bytes().replace(f"{VERSION}\0".encode(), f"{version}\0".encode()))
    message = import_error(run(EXAMPLE, BOARD_LIBRARY=str(other)))
    assert message == f"voting_board {VERSION} needs a library of this version, and {other} is {version}"


def test_a_library_that_is_cut(tmp_path: Path) -> None:
    # Catches: SIGBUS at import.
    whole = PATH.read_bytes()
    for size in (0, 10, 63, 64, 1000, len(whole) // 2, len(whole) - 1):
        cut = tmp_path / f"{size}.so"
        cut.write_bytes(whole[:size])
        message = import_error(run(EXAMPLE, BOARD_LIBRARY=str(cut)))
        assert f"{cut} is cut off: install the package again" in message or f"{cut} can't be loaded" in message


def test_no_library(tmp_path: Path) -> None:
    leave = shutil.ignore_patterns("libboard.*", "board.dll")
    shutil.copytree(Path(library.__file__).parent, tmp_path / "voting_board", ignore=leave)
    message = import_error(run(f"import sys; sys.path.insert(0, {str(tmp_path)!r}); {EXAMPLE}"))
    assert message.startswith(f"voting_board: no library in {tmp_path}/voting_board: install the package")
    message = import_error(run(EXAMPLE, BOARD_LIBRARY=str(tmp_path / "none.so")))
    assert "none.so can't be loaded" in message
    assert "can't be loaded" in import_error(run(EXAMPLE, BOARD_LIBRARY="libc.so.6"))


def test_without_numpy() -> None:
    # Catches: a module that imports what its user may not have. Only a recount needs numpy.
    hidden = "import sys; sys.modules.update(numpy=None, pandas=None, matplotlib=None)"
    names = [it.stem for it in Path(library.__file__).parent.glob("*.py") if not it.stem.startswith("recount")]
    modules = ", ".join(f"voting_board.{it}" for it in names)
    assert run(f"{hidden}; import {modules}; {EXAMPLE}").stdout == "(3, 1, 1)\n"


V2 = "flags\t\t: fpu cx16 lahf_lm popcnt pni sse4_1 sse4_2 ssse3 avx\n"


def test_processors() -> None:
    assert not library.lacks_level(V2 * 4) and not library.lacks_level("")
    for part in library.LEVEL_FLAGS:
        assert library.lacks_level(V2 + V2.replace(f" {part} ", " "))


def test_a_processor_below_the_level(tmp_path: Path) -> None:
    # Catches: SIGILL without a word. The mark says that the library is the native one.
    copied = tmp_path / "voting_board"
    shutil.copytree(Path(library.__file__).parent, copied)
    (copied / "x86-64-v2").touch()
    found = run(
        f"""
        import sys, pathlib
        sys.path.insert(0, {str(tmp_path)!r})
        pathlib.Path.read_text = lambda self: {V2.replace("popcnt", "")!r}
        import voting_board
    """
    )
    sentence = "this processor lacks x86-64-v2 (SSE4.2, POPCNT): use a package built from board.c"
    assert import_error(found) == f"voting_board: {sentence}"


def test_trapped(monkeypatch: pytest.MonkeyPatch) -> None:
    # Catches: a register that is used after the library has come to what its proof rules out.
    register = Register({"AAA": 1})

    class Trapping:
        def __getattr__(self, name: str) -> Any:
            return lambda *_: 255 if name == "board_register_apply" else getattr(library.short, name)(*_)

    monkeypatch.setattr(scripts, "short", Trapping())
    for _ in range(2):
        with pytest.raises(RuntimeError, match="its proof rules out"):
            register.open(1)
    with pytest.raises(RuntimeError, match="its proof rules out"):
        register.members
    monkeypatch.undo()
    with pytest.raises(RuntimeError, match="can't be used any more"):
        register.accepted


def test_out_of_memory() -> None:
    # Catches: another exception than MemoryError, and a register that is left in between.
    found = run(
        """
        import resource
        from pathlib import Path
        from voting_board import Register, indices, replay, replay_text
        def limit(more):
            size = int(Path("/proc/self/statm").read_text().split()[0]) * resource.getpagesize()
            most = resource.RLIM_INFINITY if more is None else size + more
            resource.setrlimit(resource.RLIMIT_AS, (most, resource.RLIM_INFINITY))
        def fails(call):
            try:
                call()
            except MemoryError:
                return True
            return False
        register = Register({"AAA": 1})
        register.submit("open,1\\nclose,1\\n" * 250_000)
        script = register.script()
        run = replay(script)
        limit(1 << 20)
        print(fails(register.copy), register.undo(499_999))
        print(fails(lambda: register.submit("open,2\\nclose,2\\n" * 20_000)))
        print(fails(lambda: replay_text(script)), fails(lambda: replay(script)), fails(lambda: run.register()))
        limit(None)
        print(register.accepted, register.open(2), indices([50, 49, 1], "half").swings)
    """
    )
    assert (found.stderr, found.stdout) == ("", "True 499999\nTrue\nTrue True True\n499999 500000 (3, 1, 1)\n")


def test_registers_are_freed() -> None:
    # Catches: handles that are never given back.
    found = run(
        """
        import gc
        from pathlib import Path
        from voting_board import Register
        register = Register({"AAA": 1})
        register.submit("open,1\\nclose,1\\n" * 20_000)
        size = lambda: int(Path("/proc/self/statm").read_text().split()[1])
        for at in range(300):
            register.copy().undo(30_000)
            if at == 50:
                gc.collect()
                before = size()
        print((size() - before) * 4096 < 20_000_000)
    """
    )
    assert (found.stderr, found.stdout) == ("", "True\n")
