"""The recipes of docs/EMBEDDING.md, STUDIES.md and VALIDATION.md, compared with the output below them; the records of
docs/FORMATS.md, "Why was my record refused?", and those of records.txt, with what they say; README.md's commands for a
clone, and its numbers.

The recipes of a document run one after another in a copy of what they use, with the program as ./board and a python3
that has pandas and matplotlib."""
from __future__ import annotations

import os
import re
import shutil
import subprocess
from dataclasses import dataclass
from pathlib import Path

import pytest

from tests.release.outside import path_without
from tests.shared.commands import TOP, ended, printed, user_environment

BLOCK = re.compile(r"^```sh\n(.*?)^```\n(?:\n```text\n(.*?)^```$)?", re.MULTILINE | re.DOTALL)
SECTION = re.compile(r"^### ([^\n]*)\n(.*?)(?=^##|\Z)", re.MULTILINE | re.DOTALL)
USED = ["bindings/python/commands", "bindings/python/src", "board.html", "docs", "examples", "portable", "tests/cases"]
SECONDS = 300
# The C file takes some ten seconds to compile, so this compiler takes the library that the commands have made of it.
COMPILER = """#!/bin/sh -eu
for word; do
  shift
  [ "$word" != portable/board.c ] || word=$(python3 bindings/python/commands/place.py)
  set -- "$@" "$word"
done
exec {compiler} "$@"
"""
# The input before a record of each table of docs/FORMATS.md, and after it.
AROUND = {
    "The first record": ("", "\nAAA,10\nscript\nopen,1\n"),
    "A member's record": ("member,votes\nAAA,10\n", "\nscript\nopen,1\n"),
    "A record of the script": ("member,votes\nAAA,10\nscript\nopen,1\n", "\npublish\n"),
    "A refused command": ("member,votes\nAAA,10\nscript\n", "\n"),
}


@dataclass(frozen=True)
class Recipe:
    """A block that can be pasted: where it stands, its code, and what it must print."""

    name: str
    code: str
    wanted: str

    def __str__(self) -> str:
        return self.name


def recipes() -> list[Recipe]:
    found = []
    for name in ("EMBEDDING.md", "STUDIES.md", "VALIDATION.md"):
        text = (TOP / "docs" / name).read_text()
        for block in BLOCK.finditer(text):
            line = text.count("\n", 0, block.start()) + 1
            found.append(Recipe(f"{name} line {line}", block[1], block[2] or ""))
    return found


def records() -> list[tuple[str, str, str]]:
    """The records of docs/FORMATS.md, "Why was my record refused?", and more: the heading, the record, and what it
    gives."""
    texts = [TOP / "docs" / "FORMATS.md", Path(__file__).with_name("records.txt")]
    sections = [it for path in texts for it in SECTION.findall(path.read_text()) if it[0] in AROUND]
    return [(heading, *it) for heading, text in sections for it in [*said(text), *rows(text)]]


def said(text: str) -> list[tuple[str, str]]:
    """Each record of a sentence '`RECORD` and `RECORD` give `RESULT`', alone."""
    found = re.findall(r"((?:`[^`]+`(?: and)?\s)+)gives?\s`([^`]+)`", text)
    return [(record, comes) for words, comes in found for record in re.findall("`[^`]+`", words)]


def rows(text: str) -> list[tuple[str, str]]:
    """The rows of a table: the records of one input and its result; or, where the sentence above has the result, each
    record alone."""
    found = []
    for row in re.findall("^[|] (`.*)[|]$", text, re.MULTILINE):
        words, *others = (cell.strip() for cell in row.split(" |"))
        if len(others) > 1:
            found.append((words, others[0].strip("`")))
        else:
            [comes] = re.findall("`([^`]+)`:\n", text)
            found += [(record, comes) for record in re.findall("`[^`]+`", words)]
    return found


@dataclass(frozen=True)
class Room:
    """A folder like the top of the repository, and its environment."""

    folder: Path
    environment: dict[str, str]


@pytest.fixture(scope="module")
def room(program: Path, tmp_path_factory: pytest.TempPathFactory) -> Room:
    folder = tmp_path_factory.mktemp("room")
    for name in USED:
        (folder / name).parent.mkdir(parents=True, exist_ok=True)
        if (TOP / name).is_dir():
            shutil.copytree(TOP / name, folder / name)
        else:
            shutil.copy(TOP / name, folder / name)
    (folder / "board").symlink_to(program)
    (folder / "bin").mkdir()
    (folder / "bin" / "python3").symlink_to("/usr/bin/python3")
    (folder / "bin" / "cc").write_text(COMPILER.format(compiler=shutil.which("cc")))
    (folder / "bin" / "cc").chmod(0o755)
    more = {"PATH": f"{folder / 'bin'}:{os.environ['PATH']}", "MPLCONFIGDIR": str(folder / "bin")}
    return Room(folder, user_environment() | more)


# A recipe may use what one above it wrote.
@pytest.mark.xdist_group("recipes")
@pytest.mark.parametrize("recipe", recipes(), ids=str)
def test_recipe(room: Room, recipe: Recipe) -> None:
    # Catches: a command of a document that fails, or that prints something else than the document says.
    words = ["bash", "-eu", "-o", "pipefail", "-c", recipe.code]
    done = subprocess.run(
        words,
        cwd=room.folder,
        env=room.environment,
        stdout=subprocess.PIPE,
        stderr=subprocess.STDOUT,
        text=True,
        timeout=SECONDS,
    )
    assert (done.returncode, done.stdout) == (0, recipe.wanted)


@pytest.mark.xdist_group("records")
@pytest.mark.parametrize("heading, row, wanted", records())
def test_record(program: Path, heading: str, row: str, wanted: str) -> None:
    # Catches: a record that is refused for another reason than FORMATS.md says, or that isn't refused.
    text = "\n".join(re.findall("`([^`]*)`", row)).encode().decode("unicode_escape").encode("latin-1")
    before, after = (it.encode() for it in AROUND[heading])
    done = ended([str(program), "replay"], before + text + after)
    assert done.output.decode().splitlines()[-1] == wanted


def test_numbers_of_the_example(program: Path) -> None:
    # Catches: a sentence of README.md below its example that gives chair 1 another fraction than the program does.
    [sentence] = re.findall(r"^This reading is .*?\n\n", (TOP / "README.md").read_text(), re.MULTILINE | re.DOTALL)
    lines = printed([str(program), "replay"], (TOP / "examples" / "three-chairs.csv").read_bytes()).decode()
    [chair] = re.findall("^chair,1,.*$", lines, re.MULTILINE)
    assert re.findall(r"\d+/\d+", sentence) == re.findall(r"\d+/\d+", chair)


def test_clone(program: Path, tmp_path: Path) -> None:
    # Catches: README.md's commands for a clone, without the toolchain, print something else than the program.
    [code] = re.findall("^    (git clone ADDRESS .*\n    .*)$", (TOP / "README.md").read_text(), re.MULTILINE)
    inside = ["env", "-C", str(tmp_path), f"PATH={path_without('rt')}"]
    words = [*inside, "bash", "-eu", "-c", code.replace("ADDRESS", str(TOP))]
    example = (TOP / "examples" / "three-chairs.csv").read_bytes()
    assert printed(words) == printed([str(program), "replay"], example)
