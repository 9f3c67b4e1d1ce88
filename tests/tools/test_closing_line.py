"""The line that the gate adds up, of runs of tests/run on small files."""
from __future__ import annotations

from pathlib import Path

import pytest

from tests.shared.commands import TOP, ended

HEAD = "import pytest\n\n"
PASSES = "def test_one() -> None:\n    pass\n\n\n"
FAULTY = {
    "a test that fails": "def test_two() -> None:\n    assert False\n",
    "a test that is skipped": "@pytest.mark.skip\ndef test_two() -> None:\n    pass\n",
    "a test that skips itself": "def test_two() -> None:\n    pytest.skip()\n",
    "a test without parameters": "@pytest.mark.parametrize('it', [])\ndef test_two(it: int) -> None:\n    pass\n",
    "an expected failure": "@pytest.mark.xfail\ndef test_two() -> None:\n    assert False\n",
    "an unexpected success": "@pytest.mark.xfail\ndef test_two() -> None:\n    pass\n",
    "a fixture that isn't there": "def test_two(absent: int) -> None:\n    pass\n",
}


def last_line(folder: Path, text: str, *words: str) -> tuple[int, bytes]:
    """The status of a run of a file of tests, and its last line."""
    (folder / "test_file.py").write_text(HEAD + text)
    done = ended([str(TOP / "tests" / "run"), str(folder), *words])
    return done.status, done.output.splitlines()[-1]


@pytest.mark.parametrize("words", [[], ["-n", "2"]], ids=["one process", "two"])
def test_passes(tmp_path: Path, words: list[str]) -> None:
    # Catches: a run that passes and doesn't say so.
    assert last_line(tmp_path, PASSES, *words) == (0, b"1 passed, 0 failed")


@pytest.mark.parametrize("fault", FAULTY)
def test_fails(tmp_path: Path, fault: str) -> None:
    # Catches: a test that doesn't test, and counts as passed or not at all.
    assert last_line(tmp_path, PASSES + FAULTY[fault]) == (1, b"1 passed, 1 failed")


@pytest.mark.parametrize("text", ["", "import absent\n"], ids=["no test", "a file that can't be read"])
def test_no_test(tmp_path: Path, text: str) -> None:
    # Catches: a run without tests that passes.
    status, line = last_line(tmp_path, text)
    assert status and line == b"0 passed, 1 failed"
