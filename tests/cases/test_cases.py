"""The worked examples, and the examples of README.md, on the program; and `run`, which users of a release run."""
from __future__ import annotations

import signal
import subprocess
from pathlib import Path

import pytest

from tests.cases.case_files import Case, all_cases, readme_cases
from tests.shared.commands import TOP, ended

README = readme_cases(TOP)
CASES = [*all_cases(), *README]
SECONDS = 600


@pytest.mark.parametrize("case", CASES, ids=[it.name for it in CASES])
def test_case(case: Case, program: Path) -> None:
    # Catches: a line, a complaint or a status that isn't the one of a worked example.
    found = ended([str(program), *case.words], case.given, SECONDS)
    fault = case.fault(found.status, found.output, found.complaint)
    assert not fault, fault


def test_readme() -> None:
    # Catches: an example of README.md that isn't found, and so isn't tested.
    assert [bool(it.given and it.printed) for it in README] == [True, True]


def test_run_can_fail() -> None:
    # Catches: a script that passes whatever the program prints, or that leaves out cases.
    found = ended([str(TOP / "tests" / "cases" / "run"), "/bin/true"])
    silent = sum(not it.printed and not it.complained and not it.status for it in CASES)
    assert 0 < silent < len(CASES)
    assert found.output.endswith(b"\n%d passed, %d failed\n" % (silent, len(CASES) - silent)) and found.status == 1


@pytest.mark.parametrize("limit, status", [("-s 256", 0), ("-s 64", -signal.SIGSEGV), ("-f 0", -signal.SIGXFSZ)])
def test_system_limits(limit: str, status: int, program: Path, tmp_path: Path) -> None:
    # Catches: another end than docs/FORMATS.md says, where the system limits the stack or the size of files.
    run = f'ulimit {limit}; exec "$0" replay <"$1" >"$2"'
    words = ["env", "-i", "/bin/bash", "-c", run, str(program)]
    found = ended([*words, str(TOP / "examples" / "three-chairs.csv"), str(tmp_path / "lines")], seconds=SECONDS)
    assert found.status == status


@pytest.mark.parametrize("word", ["--help", "--version"])
def test_help_unwritten(word: str, program: Path) -> None:
    # Catches: another status than docs/FORMATS.md says for a help that can't be written.
    with open("/dev/full", "wb") as full:
        assert subprocess.run([program, word], stdout=full, timeout=SECONDS).returncode == 0
