"""A release, made again, unpacked elsewhere and run there without the toolchain: its files, and what its documents say.

The blocks of README.md are run, those of docs/EMBEDDING.md, which call the library from each language, and the recipes
of docs/STUDIES.md."""
from __future__ import annotations

import re
from pathlib import Path

import pytest

from tests.release.conftest import Release, sum_of
from tests.release.links import dead_links
from tests.release.outside import path_without, ran
from tests.shared.commands import TOP

LINES = r"((?:(?!```).*\n)*)```\n"
BLOCK = re.compile(rf"^```sh\n{LINES}(?:\n```text\n{LINES})?", re.MULTILINE)
# The documents of a release, with their sources.
DOCUMENTS = {
    "README.md": "tools/release/README.md",
    "docs/EMBEDDING.md": "docs/EMBEDDING.md",
    "docs/STUDIES.md": "docs/STUDIES.md",
}


def blocks() -> list[object]:
    """The document, the code and the output of each block. One may use what a block above it wrote."""
    return [
        pytest.param(name, code, wanted, id=f"{name}: {code.splitlines()[0]}", marks=pytest.mark.xdist_group(name))
        for name, source in DOCUMENTS.items()
        for code, wanted in BLOCK.findall((TOP / source).read_text())
    ]


def test_two_releases(release: Release) -> None:
    # Catches: bytes of an archive that depend on the moment, or on what was there before.
    changed = [it.name for it in (release.linux, release.windows) if release.before.get(it) != sum_of(it)]
    assert not changed, f"{' and '.join(changed)}: made again, it has other bytes, or it wasn't there"


@pytest.mark.xdist_group("files")
def test_version(room: Path) -> None:
    # Catches: a program of another version, or of another toolchain except its letter, than VERSION says.
    about = dict(line.split(" ", 1) for line in (room / "VERSION").read_text().splitlines())
    kit = re.sub(r"^(rattle-kit-\d+)[a-z]", r"\1", about["kit"])
    assert ran(["./board", "--version"], room) == f"board {about['version']} ({kit})\n"


@pytest.mark.xdist_group("files")
def test_sums(room: Path) -> None:
    # Catches: a file that was changed after its sum was written.
    ran(["sha256sum", "--quiet", "-c", "SHA256SUMS"], room)


@pytest.mark.xdist_group("files")
def test_worked_cases(room: Path) -> None:
    # Catches: a program that isn't the one that is tested, and a script of a release that needs more than Python.
    ran([str(TOP / "tests" / "cases" / "run"), f"{room}/board"], room)
    assert ran(["tests/cases/run"], room).endswith("\n3 passed, 0 failed\n")


@pytest.mark.xdist_group("files")
def test_links(room: Path) -> None:
    # Catches: a link, a picture or an anchor of its documents and pages that leads nowhere in it.
    dead = list(dead_links(room))
    assert not dead, "\n".join(dead)


@pytest.mark.xdist_group("module")
def test_module(room: Path) -> None:
    # Catches: an example in JavaScript, or a package, by which a board is counted or replayed in another way.
    install = "npm install --silent --offline packages/javascript/*.tgz"
    output = ran(["sh", "-c", f"{install} && node examples/embed/three_chairs.mjs"], room)
    replayed = ran(["sh", "-c", "./board replay < examples/three-chairs.csv"], room)
    assert output.startswith("51 votes win, 3 of 8 coalitions\n") and output.endswith(replayed)


@pytest.mark.parametrize("name, code, wanted", blocks())
def test_block(room: Path, name: str, code: str, wanted: str) -> None:
    # Catches: a block that fails, that prints another text than the one below it, or that needs the toolchain.
    assert code in (room / name).read_text()
    # Debian's libraries are those of the system's Python. What a document has pip install goes to that of the PATH.
    first = "/usr/bin:" if name == "docs/STUDIES.md" else ""
    assert ran(["bash", "-eu", "-o", "pipefail", "-c", code], room, PATH=first + path_without("rt")) == wanted
