"""What `make` proves after a change, in a copy of the repository in which all is proved."""
from __future__ import annotations

import re
import shutil
from pathlib import Path

import pytest

from tests.shared.commands import TOP, ran_in

CRATES = {line.split()[0].rstrip(":") for line in (TOP / "crates.txt").read_text().splitlines()}
MODULES = ["board_c", "board", "memory_tests"]


class Copy:
    """A copy of the repository in which all is proved."""

    def __init__(self, top: Path) -> None:
        self.top = top
        for name in ("Makefile", "crates.txt", "HANDLES"):
            shutil.copy(TOP / name, top)
        for name in ("tools", "portable"):
            shutil.copytree(TOP / name, top / name, ignore=shutil.ignore_patterns("out"))
        shutil.copytree(TOP / "crates", top / "crates", ignore=shutil.ignore_patterns("out"))
        self.goals = ["board", "prove", *(str(top / "out" / f"{it}.bc") for it in MODULES)]
        (top / "out").mkdir()
        for name in ("kit", "board", "proved", *(f"{it}.bc" for it in MODULES)):
            (top / "out" / name).touch()

    def make(self, *words: str) -> str:
        return ran_in(self.top, ["make", *words])

    def proved(self, *changed: str) -> tuple[list[int], set[str]]:
        """How many crates rt would prove, in each run, if some files changed, and the modules that would be made."""
        said = self.make("--dry-run", *(f"--what-if={it}" for it in changed), *self.goals)
        runs = sorted(len(it.split()) for it in re.findall(r"^tools/prove ([a-z0-9_ ]+)", said, re.MULTILINE))
        return runs, set(re.findall(r"rattle (?:check|build) --crate-name (\w+)", said))


@pytest.fixture(scope="module")
def copy(tmp_path_factory: pytest.TempPathFactory) -> Copy:
    return Copy(tmp_path_factory.mktemp("copy"))


def test_nothing_is_proved_twice(copy: Copy) -> None:
    # Catches: a target that is never up to date.
    assert copy.proved() == ([], set())


def test_no_goal_proves_nothing(copy: Copy) -> None:
    # Catches: a stranger's first command that begins an hour of proofs because rt is there.
    said = copy.make("--dry-run")
    assert "-DBOARD_MAIN portable/board.c" in said and "tools/prove" not in said


def test_documents_and_edits_prove_nothing(copy: Copy) -> None:
    # Catches: a proof that waits for what it doesn't read.
    edit = next((TOP / "crates" / "council_core" / "must-fail").glob("*.edit")).relative_to(TOP)
    assert copy.proved("crates/council_core/README.md", str(edit)) == ([], set())


def test_a_source_is_proved_with_what_stands_on_it(copy: Copy) -> None:
    # Catches: a program or a module that stays though its own source, or that of a crate below it, has changed.
    of_board = copy.proved("crates/board/src/main.rt")[0][0]
    assert copy.proved("crates/board_runs/src/lib.rt") == ([of_board, len(CRATES)], {"board", "board_c"})
    assert copy.proved("crates/c_values/specs/Counts.antt") == ([len(CRATES)], {"board_c"})
    assert copy.proved("crates/council_core/proofs") == ([of_board, len(CRATES)], set(MODULES))


def test_what_a_program_prints_is_compared_again(copy: Copy) -> None:
    # Catches: a program that isn't run again after a change of what it must print.
    assert len(copy.proved("crates/board/stdout")[0]) == 2


def test_one_crate_is_drawn(copy: Copy) -> None:
    # Catches: a recipe of which the shell makes something else, so that no mutation is tried.
    tries = re.compile(r"edits\.py --draw \w+ crates/(\w+) none \S+/rattle check --crate-name (\w+) ")
    [(crate, checked)] = tries.findall(copy.make("--dry-run", "drawn"))
    assert crate == checked and (TOP / "crates" / crate / "must-fail").is_dir()


def test_the_deep_gate_tries_all_mutations(copy: Copy) -> None:
    # Catches: a crate whose mutations the deep gate leaves out.
    said = copy.make("--dry-run", "edits", "DEEP=1")
    edited = {it.parent.name for it in TOP.glob("crates/*/must-fail")}
    assert {*re.findall(r"tools/edits\.py crates/(\w+) ", said)} == edited


def test_a_check_from_text_is_made_of_each_crate(copy: Copy) -> None:
    # Catches: a crate that `make from-text` leaves out, or checks over what was checked before; a verdict cut short.
    commands = copy.make("--dry-run", "from-text")
    assert set(re.findall(r"rattle (?:build -o \S+|check) --crate-name (\w+)", commands)) == CRATES
    assert commands.count("/out/deep/cache ") == len(CRATES)
    assert "--logic-built" not in commands
    assert commands.endswith(f" '{len(CRATES)} passed, 0 failed'\n")
