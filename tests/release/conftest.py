"""The release, made again and unpacked elsewhere, and what `make install` makes of it."""
from __future__ import annotations

import hashlib
import os
import subprocess
import tarfile
from dataclasses import dataclass
from pathlib import Path

import pytest

from tests.shared.commands import TOP, printed
from tests.shared.kept import Kept


@dataclass(frozen=True)
class Release:
    """The archives of a new release, for Linux and for Windows, and the sums of those that were there before."""

    linux: Path
    windows: Path
    before: dict[Path, str]


def sum_of(archive: Path) -> str:
    return hashlib.sha256(archive.read_bytes()).hexdigest()


def released() -> Release:
    before = {it: sum_of(it) for it in (TOP / "out").glob("board-*-x86_64-*")}
    linux, windows, _ = printed([str(TOP / "tools" / "release" / "build")]).decode().split()
    return Release(TOP / linux, TOP / windows, before)


@pytest.fixture(scope="session")
def release(kept: Kept) -> Release:
    return kept("release", released)


@pytest.fixture(scope="session")
def room(release: Release, tmp_path_factory: pytest.TempPathFactory) -> Path:
    """The folder of the release for Linux, which each worker unpacks for itself."""
    folder = tmp_path_factory.mktemp("release")
    with tarfile.open(release.linux) as packed:
        packed.extractall(folder)
    return folder / release.linux.name.removesuffix(".tar.gz")


def make(goal: str, root: Path) -> Path:
    """Makes a goal for the root of a file system, and returns the folder of the installation there."""
    words = ["make", "--silent", goal, f"DESTDIR={root}", "PREFIX=/opt/board"]
    environment = {name: it for name, it in os.environ.items() if name not in ("MAKEFLAGS", "MFLAGS", "MAKELEVEL")}
    subprocess.run(words, cwd=TOP, env=environment, check=True)
    return root / "opt" / "board"


@pytest.fixture(scope="session")
def installed(room: Path, tmp_path_factory: pytest.TempPathFactory) -> Path:
    """The folder of an installation, with what the tests of a release also use."""
    folder = make("install", tmp_path_factory.mktemp("root"))
    (folder / "board").symlink_to("bin/board")
    for name in ("VERSION", "examples"):
        (folder / name).symlink_to(room / name)
    return folder


@pytest.fixture
def place(request: pytest.FixtureRequest) -> Path:
    """The unpacked release, or the installation."""
    found: Path = request.getfixturevalue(request.param)
    return found
