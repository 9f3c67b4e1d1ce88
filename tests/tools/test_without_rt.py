"""What anybody can do in a clone where rt isn't on the PATH; and ./board, which never starts a proof, where it is."""
from __future__ import annotations

import os
import shutil
import subprocess
from collections.abc import Callable
from concurrent.futures import ThreadPoolExecutor
from pathlib import Path

import pytest

from tests.shared.commands import TOP, Ended, ran_in

PATH = "/usr/bin:/bin"
EXAMPLE = (TOP / "examples" / "three-chairs.csv").read_bytes()
OF_BOARD = [
    "board",
    "crates.txt",
    "portable/",
    "crates/board/src/",
    "crates/half_sums/specs/",
    "crates/half_sums/proofs/",
]
CHECKS = [f"bindings/{it}/check" for it in ("javascript", "python", "r", "rust")]
Run = Callable[..., Ended]


def copied(top: Path, *starts: str) -> Path:
    """A copy of the repository's files whose names start in one of these ways."""
    for name in ran_in(TOP, ["git", "ls-files", "-z"]).rstrip("\0").split("\0"):
        if name.startswith(starts):
            (top / name).parent.mkdir(parents=True, exist_ok=True)
            shutil.copy(TOP / name, top / name)
    return top


def ran(top: Path, *words: str, given: bytes = b"", **more: str) -> Ended:
    """How a command ends in a folder."""
    environment = {**os.environ, "PATH": PATH, **more}
    done = subprocess.run(words, cwd=top, input=given, env=environment, capture_output=True)
    return Ended(done.returncode, done.stdout, done.stderr)


def script(file: Path, text: str) -> str:
    """Writes a program of shell, and returns its name."""
    file.parent.mkdir(exist_ok=True)
    file.write_text(f"#!/bin/sh\n{text}\n")
    file.chmod(0o755)
    return str(file)


@pytest.fixture(scope="module")
def clone(tmp_path_factory: pytest.TempPathFactory) -> Path:
    assert not shutil.which("rt", path=PATH), "rt is among the system's programs"
    return copied(tmp_path_factory.mktemp("clone"), "")


@pytest.mark.parametrize(
    "goals", ["help", "--dry-run docs lint clean portable cases page-units install python r rust javascript", "lint"]
)
def test_make(clone: Path, goals: str) -> None:
    # Catches: a goal without a proof that needs rt.
    done = ran(clone, "make", *goals.split())
    assert done.status == 0, done.complaint


def test_make_board(clone: Path) -> None:
    # Catches: a failure that doesn't name what is missing.
    assert b"rt, which proves the crates, is not on the PATH" in ran(clone, "make", "board").complaint


def goals(top: Path) -> list[str]:
    """All goals that `make help` lists."""
    return [it.split()[1] for it in ran(top, "make", "help").output.decode().splitlines()]


@pytest.mark.parametrize("words, status", [("--dry-run", 0), ("--question --keep-going", 1), ("--touch", 2)])
def test_make_that_only_asks(clone: Path, tmp_path: Path, words: str, status: int) -> None:
    # Catches: a goal that installs, removes, makes or marks as made anything when make is asked what it would do.
    script(tmp_path / "bin" / "dpkg-query", ":")
    script(tmp_path / "bin" / "apt-get", f'echo "$@" >"{tmp_path}/installed"')
    (clone / "out" / "results").mkdir(parents=True, exist_ok=True)
    (clone / "out" / "results" / "docs").write_text("1 passed, 0 failed\n")
    before = {it: it.stat().st_mtime_ns for top in (clone, tmp_path) for it in top.rglob("*")}
    for goal in goals(clone):
        done = ran(clone, "make", *words.split(), goal, PATH=f"{tmp_path / 'bin'}:{PATH}")
        assert done.status == status or (status == 1 and goal == "portable"), (goal, done)
    assert {it: it.stat().st_mtime_ns for top in (clone, tmp_path) for it in top.rglob("*")} == before


def test_what_is_tested(tmp_path: Path) -> None:
    # Catches: a runner of tests that looks for what only the toolchain makes, or takes another program than its own.
    chosen = f'top={tmp_path}; . "{TOP}/tools/built"; echo "$BOARD $MODULE"'
    found = []
    for name in ("", "portable/out/board", "page/out/board.wasm", "out/board", "portable/wasm/out/board.wasm"):
        (tmp_path / name).parent.mkdir(parents=True, exist_ok=True)
        (tmp_path / name).touch()
        said = ran(tmp_path, "bash", "-c", chosen, BOARD="", MODULE="").output.decode()
        found.append(said.replace(f"{tmp_path}/", "").split())
    of_c, proved = ["portable/out/board", "page/out/board.wasm"], ["out/board", "portable/wasm/out/board.wasm"]
    assert found == [of_c, of_c, of_c, ["out/board", "page/out/board.wasm"], proved]
    given = ran(tmp_path, "bash", "-c", chosen, BOARD="mine", MODULE="too").output
    assert given == b"mine too\n"


@pytest.mark.parametrize("runner", ["tests/run", "page/units/run", "page/tests/run", *CHECKS])
def test_runners_choose_alike(runner: str) -> None:
    # Catches: a runner with a choice of its own.
    text = (TOP / runner).read_text()
    assert '\n. "$top/tools/built"' in text and "BOARD:-" not in text and "MODULE:-" not in text


def test_install(clone: Path, tmp_path: Path) -> None:
    # Catches: an installation without the toolchain over which no program is compiled, words for the compiler that are
    # left out, and a file that is left behind.
    place, lib = tmp_path / "opt" / "board", tmp_path / "opt" / "board" / "lib" / "here"
    cc = script(tmp_path / "bin" / "cc", f'echo "$@" >>"{tmp_path}/words"\nexec cc "$@"')
    to = [f"DESTDIR={tmp_path}", "PREFIX=/opt/board", "LIBDIR=/opt/board/lib/here", f"CC={cc}"]
    to += ["CPPFLAGS=-DTRIED=1 -DAGAIN", "CFLAGS=-O1", "LDFLAGS=-Wl,-O1"]
    assert (done := ran(clone, "make", "install", *to)).status == 0, done.complaint
    assert ran(place, "bin/board", "replay", given=EXAMPLE).output.endswith(b"\nchair,3,1,1,1/4,1/5,1/3,1/5\n")
    program, library, shared = ({*it.split()} for it in (tmp_path / "words").read_text().splitlines())
    assert all("-O1" in it for it in (program, library, shared))
    assert all({"-DTRIED=1", "-DAGAIN"} <= it for it in (program, library))
    assert all("-Wl,-O1" in it for it in (program, shared))
    words = ["--cflags", "--libs", "board"]
    flags = ran(place, "pkg-config", *words, PKG_CONFIG_PATH=f"{lib}/pkgconfig").output.decode().split()
    example = str(TOP / "examples" / "embed" / "three_chairs.c")
    made = ran(place, "cc", example, *flags, f"-Wl,-rpath,{lib}", "-o", str(tmp_path / "three"))
    assert ran(tmp_path, "./three").output.startswith(b"51 votes win, 3 of 8 coalitions\n"), made.complaint
    pages = {it.name for it in (place / "share" / "man" / "man1").iterdir()}
    assert pages == {"board.1", "board-replay.1", "board-trace.1"}
    ran(clone, "make", "uninstall", *to)
    assert not [it for it in place.rglob("*") if not it.is_dir()]


def test_install_where_others_are(clone: Path, tmp_path: Path) -> None:
    # Catches: an upgrade that a program which runs breaks off, one that writes through a link, a file of another that
    # is removed, and a part of an installation where something is missing.
    to = [f"PREFIX={tmp_path / 'it'}", "CFLAGS=-O0"]
    others = [tmp_path / "it" / name for name in ("lib/libboard.py", "share/man/man1/board-game.1", "bin/other")]
    for other in others:
        other.parent.mkdir(parents=True)
        other.write_text("mine")
    program = tmp_path / "it" / "bin" / "board"
    program.symlink_to("other")
    broken = ran(clone, "make", "install", *to, "CFLAGS=-DBOARD_MAIN -include absent.h")
    assert broken.status and program.is_symlink() and not (tmp_path / "it" / "include").exists()
    assert (done := ran(clone, "make", "install", *to)).status == 0, done.complaint
    with subprocess.Popen([program, "replay"], stdin=subprocess.PIPE, stdout=subprocess.PIPE) as running:
        again = ran(clone, "make", "install", *to)
        output, _ = running.communicate(EXAMPLE)
    assert again.status == 0 and output.endswith(b"\nchair,3,1,1,1/4,1/5,1/3,1/5\n"), again.complaint
    ran(clone, "make", "uninstall", *to)
    left = [it for it in (tmp_path / "it").rglob("*") if not it.is_dir()]
    assert sorted(left) == sorted(others) and {it.read_text() for it in left} == {"mine"}


@pytest.fixture
def board(tmp_path: Path) -> Run:
    """./board in a folder with a space in its name, where rt and make are stubs that must not be called."""
    top = copied(tmp_path / "it's a clone", *OF_BOARD)
    for name in ("rt", "make"):
        script(tmp_path / "bin" / name, f"touch '{tmp_path}/called'")
    path = f"{tmp_path / 'bin'}:{PATH}"

    def run(*words: str, **more: str) -> Ended:
        done = ran(tmp_path, str(top / "board"), *(words or ["replay"]), given=EXAMPLE, **{"PATH": path, **more})
        assert not (tmp_path / "called").exists()
        return done

    return run


def test_board(board: Run, tmp_path: Path) -> None:
    # Catches: a program that can't be had, is half of one, is compiled again, or doesn't say that it isn't proved.
    with ThreadPoolExecutor() as pool:
        first = [*pool.map(lambda _: board(CC="gcc -O1"), range(2))]
    for it in first:
        assert (it.status, len(it.output.splitlines())) == (0, 11)
        assert it.complaint.startswith(b"board: compiling portable/board.c") and it.complaint.count(b"\n") == 1
    (tmp_path / "link").symlink_to(tmp_path / "it's a clone" / "board")
    linked = ran(tmp_path, "./link", "replay", given=EXAMPLE)
    assert [board(), linked] == 2 * [Ended(0, first[0].output, b"")]
    assert [it.name for it in (tmp_path / "it's a clone" / "portable" / "out").iterdir()] == ["board"]


@pytest.mark.parametrize("compiler", ["false", "absent", 'printf half >"$6"; kill -9 $$'])
def test_board_without_a_compiler(board: Run, tmp_path: Path, compiler: str) -> None:
    # Catches: a program that is run though it wasn't compiled to its end.
    name = compiler if " " not in compiler else script(tmp_path / "bin" / "killed", compiler)
    for _ in range(2):
        done = board(CC=name)
        assert (done.status, done.output, done.complaint[:6]) == (1, b"", b"board:")


def test_board_of_a_source_that_changes(board: Run, tmp_path: Path) -> None:
    # Catches: a program that is believed to be of a source which changed while it was compiled.
    source = tmp_path / "it's a clone" / "portable" / "board.c"
    cc = script(tmp_path / "bin" / "slow", f'sleep 0.05; touch "{source}"; sleep 0.05; cp /bin/true "$6"')
    assert [board(CC=cc).complaint.count(b"compiling") for _ in range(2)] == [1, 1]


def test_board_that_is_proved(board: Run, tmp_path: Path) -> None:
    # Catches: a proved program that isn't taken, or is older than its sources.
    top = tmp_path / "it's a clone"
    assert board("serve").complaint == b"board: serve needs the proved program: `make board` builds it\n"
    (top / "out").mkdir()
    (top / "out" / "kit").touch()
    proved = Path(script(top / "out" / "board", 'echo "proved $*"'))
    for name in ("crates.txt", "out/kit", "crates/board/src/main.rt", "crates/half_sums/specs"):
        proved.touch()
        assert board("serve", "--readers", "2").output == b"proved serve --readers 2\n"
        ran(top, "sh", "-c", f"sleep 0.05; touch {name}")
        assert board("serve").status == 1
    for begins in (b"board: compiling portable/board.c, since out/board is older", b"board: out/board is older than"):
        passed_over = board()
        assert passed_over.output.startswith(b"accepted,1\n")
        assert passed_over.complaint.startswith(begins) and passed_over.complaint.count(b"\n") == 1
