"""What tests/promises has for this package: a program with what it prints, saved studies, and strict tables."""
from __future__ import annotations

import subprocess
import sys
from collections.abc import Iterator
from pathlib import Path

import pytest

from voting_board.amounts import BadStudy
from voting_board.saved_studies import Saved, read_saved
from voting_board.scenarios import sweep_of
from voting_board.strict import read_table
from voting_board.studies import base_of, study

PROMISES = Path(__file__).resolve().parents[3] / "tests" / "promises"
STUDIES = sorted((PROMISES / "studies").glob("*.study.json"))
TABLES = sorted((PROMISES / "tables").glob("strict-*.csv"))
SWEEP = "sweep AAA 10..40 by 15 % of the changed board"


def same(promised: Path, found: bytes) -> None:
    """What was found is what is promised, byte for byte."""
    words = [sys.executable, str(PROMISES / "compare.py"), str(promised)]
    done = subprocess.run(words, input=found, capture_output=True)
    assert done.returncode == 0, done.stdout.decode()


def lines_of(saved: Saved) -> Iterator[str]:
    """A saved study as the text next to it has it."""
    base, results = saved.base, study(saved.base, at="half", scenarios=saved.scenarios).results
    yield f"study {saved.name}"
    yield from (f"member {code} {name}" for code, name in base.members.items())
    yield from (f"chair {chair} {name}" for chair, name in base.register.chair_names.items())
    yield from ["base", *base.register.script().splitlines()]
    for label in (it.label for it in saved.scenarios):
        yield from [f"scenario {label}", *map(str, results[label].commands)]
    assert saved.sweeps in ((), (sweep_of("from changed: AAA 10..40 by 15 %"),))
    yield from [SWEEP] * len(saved.sweeps)


def test_program() -> None:
    # Catches: a program of a user that no longer runs, or prints something else.
    done = subprocess.run([sys.executable, str(PROMISES / "packages" / "promises.py")], stdout=subprocess.PIPE)
    assert done.returncode == 0
    same(PROMISES / "packages" / "printed.txt", done.stdout)


@pytest.mark.parametrize("file", STUDIES, ids=[it.name for it in STUDIES])
def test_study(file: Path) -> None:
    # Catches: a study of an earlier version that board-study no longer reads, or takes for another one.
    if b'"board study 1"' in file.read_bytes():
        with pytest.raises(BadStudy, match="open it in board.html and save it again"):
            read_saved(file.read_bytes())
    else:
        text = "\n".join([*lines_of(read_saved(file.read_bytes())), ""])
        same(file.with_name(file.name.replace(".study.json", ".txt")), text.encode())


@pytest.mark.parametrize("file", TABLES, ids=[it.name for it in TABLES])
def test_table(file: Path) -> None:
    # Catches: a strict table of an earlier version that is no longer read, or read as another register.
    base = base_of(read_table(file.read_bytes()))
    names = [*(f"member {code} {name}" for code, name in base.members.items() if name)]
    names += [f"chair {chair} {name}" for chair, name in base.register.chair_names.items()]
    same(file.with_suffix(".txt"), "\n".join([*names, base.register.script()]).encode())


def test_study_table(tmp_path: Path) -> None:
    # Catches: a column that the scripts of users read and that has another name, place or form.
    command = [sys.executable, "-m", "voting_board.study_command", str(TABLES[0]), str(tmp_path / "it"), "--at", "half"]
    more = ["--scenario", "More votes: move,EEE,3; votes,AAA,50; votes,BBB,+20%"]
    assert subprocess.run([*command, *more], capture_output=True).returncode == 0
    lines = (tmp_path / "it.csv").read_bytes().splitlines(keepends=True)
    same(PROMISES / "tables" / "board-study-0.11.0.csv", b"".join(it for it in lines if not it.startswith(b"# ")))


def test_all_are_found() -> None:
    # Catches: a folder of promises that is empty here.
    assert STUDIES and TABLES
