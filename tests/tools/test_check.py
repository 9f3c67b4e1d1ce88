"""tools/check over a copy of the repository in which documents have faults."""
from __future__ import annotations

import subprocess
from pathlib import Path

import pytest

from tests.shared.commands import TOP, Ended, ended, printed

# No file of the repository has this name: here it stands in two parts.
NOWHERE = "nothing_" + "has_this"
# A fault, the document that it is planted in, what it replaces there, or nothing for the end of the text, by what, and
# what the check says.
PLANTED = [
    ("a dead link", "CHANGELOG.md", "", "\n[Gone](docs/GONE.md)\n", "no file docs/GONE.md"),
    ("a dead link by its name", "docs/PAGE.md", "", "\n[gone]: pictures/gone.png\n", "no file pictures/gone.png"),
    ("a dead heading", "portable/README.md", "", "\n[Gone](../docs/PROOF.md#gone)\n", "no heading gone"),
    ("a link that a release lacks", "tools/release/README.md", "", "\n[Gone](../../docs/PAGE.md)\n", "no file ../.."),
    ("a wrong name", "page/README.md", "", f"\nThe element `{NOWHERE}`.\n", f"named `{NOWHERE}`"),
    ("a wrong name", "SECURITY.md", "", f"\nThe call `{NOWHERE}`.\n", f"named `{NOWHERE}`"),
    ("a wrong name in the newest changes", "CHANGELOG.md", "\n### ", f"\n`{NOWHERE}`\n\n### ", f"named `{NOWHERE}`"),
    ("a wrong goal in a sentence", "docs/CONTRIBUTING.md", "page-tests", "page-test", "no goal page-test"),
    ("a wrong goal in a block", "bindings/r/README.md", "    make KIT= r\n", "    make KIT= arr\n", "no goal arr"),
    ("a wrong clause", "docs/PROOF.md", "`exact`, `same`", "`exact`, `never`", "a clause `never`"),
    ("a clause that is gone", "tools/clauses.txt", "evaluate: exact", "evaluate: gone", "has no clause gone"),
    ("a function that is gone", "tools/clauses.txt", "_law:", "_law_that_is_gone:", "no function"),
    ("a wrong limit", "docs/FORMATS.md", "chairs are 1 to 32", "chairs are 1 to 33", "the limit of chairs is 32"),
    ("a wrong limit of the page", "docs/PAGE.md", "(at most 60)", "(at most 80)", "docs/PAGE.md: 80"),
    ("a made part changed by hand", "docs/FORMATS.md", "At most 32 chairs", "At most 31 chairs", "tools/made makes"),
]


@pytest.fixture(scope="module")
def copied(tmp_path_factory: pytest.TempPathFactory) -> Path:
    """What git has, as a repository of its own."""
    folder = tmp_path_factory.mktemp("check")
    listed = printed(["git", "-C", str(TOP), "ls-files", "-coz", "--exclude-standard"])
    packed = printed(["tar", "-C", str(TOP), "--null", "--files-from", "-", "--ignore-failed-read", "-c"], listed)
    printed(["tar", "-C", str(folder), "-x"], packed)
    subprocess.run(["git", "init", "--quiet", str(folder)], check=True)
    return folder


@pytest.fixture(scope="module")
def checked(copied: Path) -> tuple[Ended, Ended]:
    """How the check ends before the faults are planted, and with all of them."""
    before = ended([str(copied / "tools/check")])
    for _, name, old, new, _ in PLANTED:
        text = (copied / name).read_text()
        assert old in text, f"{name} has no {old}"
        (copied / name).write_text(text.replace(old, new, 1) if old else text + new)
    return before, ended([str(copied / "tools/check")])


def test_repository(checked: tuple[Ended, Ended]) -> None:
    # Catches: a check that no repository passes.
    assert checked[0].status == 0, checked[0].output.decode()


@pytest.mark.parametrize("fault, name, wanted", [(it[0], it[1], it[4]) for it in PLANTED])
def test_planted(checked: tuple[Ended, Ended], fault: str, name: str, wanted: str) -> None:
    # Catches: a fault of a document that nobody looks for, or not in this document.
    said = checked[1].output.decode()
    assert checked[1].status == 1 and any(name in line and wanted in line for line in said.splitlines()), said
