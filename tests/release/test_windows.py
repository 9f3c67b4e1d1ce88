"""The archive for Windows: its files and their sums, and its program, which Debian's wine64 runs, against the program
for Linux."""
from __future__ import annotations

import os
import re
import subprocess
from collections.abc import Callable, Iterator
from pathlib import Path
from zipfile import ZipFile

import pytest

from tests.cases.case_files import all_cases, readme_cases
from tests.release.conftest import Release
from tests.release.links import dead_links
from tests.release.outside import SECONDS, ran
from tests.shared.commands import TOP, Say

pytestmark = pytest.mark.xdist_group("windows")
WINE = "/usr/lib/wine"
# The files of the archive alone, and those that it shares with the one for Linux.
OWN = {"README.txt", "board.exe", "LICENCES-mingw-w64.txt"}
SHARED = re.compile(
    r"(CHANGELOG|SECURITY)\.md|CITATION\.cff|LICENCES\.txt|VERSION|board\.html"
    r"|(bindings(?!/python/commands)|docs|examples|portable|tests)/.*"
)
COMMAND = "board.exe replay < examples\\three-chairs.csv"
# The status of a program, its standard output and its standard error.
Ended = tuple[int, bytes, bytes]
Run = Callable[[list[str], bytes], Ended]


@pytest.fixture(scope="session")
def folder(release: Release, room: Path) -> Path:
    """The folder of the archive for Windows, unpacked next to that for Linux."""
    with ZipFile(release.windows) as packed:
        packed.extractall(room.parent)
    return room.parent / release.windows.stem


def sums_of(folder: Path) -> dict[str, str]:
    """The sum that SHA256SUMS gives each file, by the file's name."""
    lines = (folder / "SHA256SUMS").read_text().splitlines()
    return {name: found for found, _, name in (line.partition("  ") for line in lines)}


def test_files(release: Release, folder: Path, room: Path) -> None:
    # Catches: a file unlike that in the release for Linux, one too many or too few, a wrong sum, another order or time.
    ran(["sha256sum", "--quiet", "-c", "SHA256SUMS"], folder)
    own = {name: it for name, it in sums_of(folder).items() if name not in OWN}
    shared = {name: it for name, it in sums_of(room).items() if SHARED.fullmatch(name)}
    assert own == shared, f"other files than in the release for Linux: {own.items() ^ shared.items()}"
    with ZipFile(release.windows) as packed:
        entries = packed.infolist()
    names = [it.filename for it in entries]
    assert names == sorted(f"{folder.name}/{it}" for it in {*shared, *OWN, "SHA256SUMS"}), names
    assert len({it.date_time for it in entries}) == 1, "its files have several times"


def test_links(folder: Path) -> None:
    # Catches: a link of its documents that leads nowhere in it.
    dead = list(dead_links(folder))
    assert not dead, "\n".join(dead)


def ended(words: list[str], given: bytes, where: Path, environment: dict[str, str]) -> Ended:
    done = subprocess.run(words, input=given, cwd=where, env=environment, capture_output=True, timeout=SECONDS)
    return done.returncode, done.stdout, done.stderr


def wine_environment(prefix: Path) -> dict[str, str]:
    """The environment in which Wine writes into this folder alone, and complains of nothing."""
    more = {"WINEPREFIX": str(prefix), "HOME": str(prefix), "WINEDEBUG": "-all"}
    return os.environ | more | {"WINEDLLOVERRIDES": "mscoree,mshtml,winemenubuilder.exe="}


@pytest.fixture(scope="session")
def run(folder: Path) -> Iterator[Run]:
    """Runs programs under Wine in the archive's folder. What Wine starts next to a program, and what would be waited
    for with it, is started first, with a cmd that waits for input."""
    assert Path(WINE, "wine64").exists(), "wine64 isn't here: Debian's wine64 has it"
    prefix = folder.parent / "wine"
    prefix.mkdir()
    environment, pipe = wine_environment(prefix), subprocess.PIPE
    words = [f"{WINE}/wine64", "cmd"]
    with subprocess.Popen(words, env=environment, stdin=pipe, stdout=pipe, stderr=subprocess.DEVNULL) as waiting:
        try:
            assert waiting.stdout and waiting.stdout.readline(), "wine64 doesn't start"
            yield lambda words, given: ended([f"{WINE}/wine64", *words], given, folder, environment)
        finally:
            subprocess.run([f"{WINE}/wineserver", "-k"], env=environment)


def test_version(run: Run, room: Path) -> None:
    # Catches: a program of another version than the release.
    version = (room / "VERSION").read_text().split()[1]
    assert (got := run(["board.exe", "--version"], b""))[1].startswith(f"board {version} ".encode()), got


def test_hardened(folder: Path) -> None:
    # Catches: a program that is loaded at one place, data that can be executed, a written-over stack that goes unseen.
    said = ran(["x86_64-w64-mingw32-objdump", "-p", "board.exe"], folder)
    assert all(it in said for it in ("HIGH_ENTROPY_VA", "DYNAMIC_BASE", "NX_COMPAT")), said
    assert b"stack smashing detected" in (folder / "board.exe").read_bytes()


@pytest.mark.parametrize("command", ["replay", "trace"])
def test_examples(run: Run, room: Path, command: str) -> None:
    # Catches: bytes, on either stream, or a status that isn't the program's.
    for example in sorted((room / "examples").glob("*.csv")):
        wanted = ended([f"{room}/board", command], example.read_bytes(), room, dict(os.environ))
        assert run(["board.exe", command], example.read_bytes()) == wanted, example.name


def test_worked_cases(run: Run, record_property: Say) -> None:
    # Catches: a worked case of replay or trace that fails, except those of the help, which it has in other words.
    every = [it for it in [*all_cases(), *readme_cases(TOP)] if it.words[:1] in (["replay"], ["trace"])]
    worked = [it for it in every if "--help" not in it.words]
    record_property("cases", len(worked))
    faults = [(it.name, it.fault(*run(["board.exe", *it.words], it.given))) for it in worked]
    wrong = [f"{name}: {fault}" for name, fault in faults if fault]
    assert len(faults) > 100 and not wrong


def test_readme(run: Run, folder: Path, room: Path) -> None:
    # Catches: a command of README.txt that doesn't run in Windows' cmd, or that prints something else than it says.
    text = (folder / "README.txt").read_text()
    wanted = ran(["sh", "-c", "./board replay < examples/three-chairs.csv"], room)
    assert "".join(f"    {line}\n" for line in wanted.splitlines()) in text, "README.txt prints other lines"
    commands = [it.strip() for it in text.splitlines() if COMMAND in it]
    assert commands == [COMMAND, f"{COMMAND} > answers.csv", f'cmd /c "{COMMAND} > answers.csv"'], commands
    assert run(["cmd", "/c", COMMAND], b"") == (0, wanted.encode(), b"")
    assert run(["cmd", "/c", f"{COMMAND} > answers.csv"], b"") == (0, b"", b"")
    assert (folder / "answers.csv").read_text() == wanted, "answers.csv has other lines"
