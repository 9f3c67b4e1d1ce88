"""Installs the packages of an unpacked release, and runs a program of this folder over them."""
from __future__ import annotations

import os
import shutil
import subprocess
from collections.abc import Iterable
from pathlib import Path

HERE = Path(__file__).resolve().parent


def run(*words: object, **more: str) -> None:
    subprocess.run(list(map(str, words)), check=True, stdout=subprocess.DEVNULL, env=os.environ | more)


def only(folder: Path, pattern: str) -> Path:
    """The one file of a pattern."""
    (found,) = folder.glob(pattern)
    return found


class Packages:
    """The packages of a release for some languages, installed into a folder, and a program in each, by its name without
    an ending. In C it is over the library, or over the C file."""

    def __init__(self, release: Path, work: Path, languages: Iterable[str], program: str, c_file: Path) -> None:
        self.release, self.work, self.program = release, work, program
        self.packages = release / "packages"
        self.library = {"BOARD_LIBRARY_DIR": str(release / "lib")}
        install = {
            "c": lambda: self.compile("c", release / "lib" / "libboard.a"),
            "c file": lambda: self.compile("c file", c_file),
            "javascript": self.javascript,
            "python": self.python,
            "r": self.r,
            "rust": self.rust,
        }
        for language in languages:
            install[language]()

    def printed(self, language: str, *words: object) -> list[list[str]]:
        """Runs the program in a language, and returns the words of each line that it prints."""
        commands: dict[str, list[object]] = {
            "c": [self.work / "c"],
            "c file": [self.work / "c file"],
            "javascript": ["node", self.work / f"{self.program}.mjs"],
            "python": [self.work / "python" / "bin" / "python", HERE / f"{self.program}.py"],
            "r": ["Rscript", HERE / f"{self.program}.R"],
            "rust": [self.work / "rust" / "target" / "release" / self.program],
        }
        command, more = [str(it) for it in [*commands[language], *words]], {"R_LIBS": f"{self.work}/r"}
        done = subprocess.run(command, stdout=subprocess.PIPE, text=True, check=True, env=os.environ | more)
        return [line.split() for line in done.stdout.splitlines()]

    def compile(self, name: str, library: Path) -> None:
        words = ["cc", "-O2", f"-I{self.release}/include", HERE / f"{self.program}.c", library]
        run(*words, "-o", self.work / name)

    def python(self) -> None:
        run("/usr/bin/python3", "-m", "venv", "--system-site-packages", self.work / "python")
        wheel = only(self.packages, "python/*-manylinux_2_17_x86_64.whl")
        install = ["install", "--quiet", "--no-index", "--no-deps", "--disable-pip-version-check", wheel]
        run(self.work / "python" / "bin" / "python", "-m", "pip", *install)

    def javascript(self) -> None:
        run("npm", "install", "--silent", "--offline", "--prefix", self.work, only(self.packages, "javascript/*.tgz"))
        shutil.copy(HERE / f"{self.program}.mjs", self.work)

    def r(self) -> None:
        (self.work / "r").mkdir()
        package = only(self.packages, "r/*.tar.gz")
        run("R", "CMD", "INSTALL", f"--library={self.work}/r", package, **self.library)

    def rust(self) -> None:
        """A crate with the program, over the crates of the release."""
        crate = self.work / "rust"
        (crate / "src" / "bin").mkdir(parents=True)
        for archive in (self.packages / "rust").glob("*.crate"):
            run("tar", "xzf", archive, "-C", crate)
        safe, sys_ = only(crate, "voting-board-[0-9]*"), only(crate, "voting-board-sys-*")
        lines = ["[package]", 'name = "bench"', 'version = "0.0.0"', 'edition = "2021"', "[dependencies]"]
        lines += [f'voting-board = {{ path = "{safe}" }}', "[patch.crates-io]"]
        lines += [f'voting-board-sys = {{ path = "{sys_}" }}', ""]
        (crate / "Cargo.toml").write_text("\n".join(lines))
        shutil.copy(HERE / f"{self.program}.rs", crate / "src" / "bin")
        config = HERE.parent / "bindings" / "rust" / "debian.toml"
        words = ["cargo", "build", "--quiet", "--release", "--config", config, "--manifest-path", crate / "Cargo.toml"]
        run(*words, **self.library)
