"""When a mutation counts as rejected (tools/edits.py), on a small crate and on output of the prover."""
from __future__ import annotations

from pathlib import Path
from typing import Any

import pytest

from tests.shared.commands import tool

edits = tool("edits.py")

CODE = """\
const MOST: usize = 4;

pub fn first(at: usize) -> usize
    requires small {
        at < MOST
    }
{
    at + 1
}

impl Pair {
    pub(crate) fn second(&self) -> usize {
        self.at + 1
    }
}
"""
CALLS = "fn low::parts::second: no proof: it calls `low::parts::first`, which is not proved"
SEARCHED = "fn low::parts::first: no proof: `search` did not prove `returns`"
REASON = "`search` did not prove `returns`"


@pytest.fixture
def crate(tmp_path: Path) -> Path:
    folder = tmp_path / "low"
    for part in ("src", "must-fail"):
        (folder / part).mkdir(parents=True)
    (folder / "src" / "parts.rt").write_text(CODE)
    return folder


def put(crate: Path, name: str, old: str, new: str) -> None:
    """Puts a mutation into the crate."""
    (crate / "must-fail" / f"{name}.edit").write_text(f"file: src/parts.rt\nold: {old}\nnew: {new}\n")


@pytest.fixture
def two(crate: Path) -> list[Any]:
    """A mutation of each function of the crate."""
    put(crate, "first-wrong", "    at + 1", "    at + 2")
    put(crate, "second-wrong", "self.at + 1", "self.at")
    found: list[Any] = edits.read(crate)
    return found


def failed(*lines: str, status: int = 1) -> tuple[int, str]:
    """The status and the output of a check that fails."""
    return status, "\n".join([*lines, "logic=not-proved", "rt: rt check --start low::parts::first writes files"])


def test_an_edit_stands_in_the_function_round_it(two: list[Any]) -> None:
    # Catches: a mutation that is looked for in another function.
    assert [it.functions for it in two] == [{("src/parts.rt", "first")}, {("src/parts.rt", "second")}]


def test_an_edit_of_a_constant_stands_in_no_function(crate: Path) -> None:
    # Catches: a mutation of a constant that is tried with others.
    put(crate, "five", "MOST: usize = 4", "MOST: usize = 5")
    assert edits.read(crate)[0].functions is None


@pytest.mark.parametrize("old", ["at", "nowhere"])
def test_an_old_text_stands_once(crate: Path, old: str) -> None:
    # Catches: a mutation that changes nothing, or more than one place.
    put(crate, "vague", old, "on")
    with pytest.raises(edits.BadEdit):
        edits.read(crate)


def test_edits_of_different_functions_are_tried_together(crate: Path, two: list[Any]) -> None:
    # Catches: two mutations of one function in one check, and one that isn't applied.
    put(crate, "third-wrong", "    at + 1", "    at")
    tried = [[it.name for it in some] for some in edits.together(edits.read(crate))]
    assert tried == [["first-wrong", "second-wrong"], ["third-wrong"]]
    edits.apply(two, crate)
    changed = CODE.replace("    at + 1", "    at + 2").replace("self.at + 1", "self.at")
    assert (crate / "src" / "parts.rt").read_text() == changed


def test_each_is_refused_in_its_own_function(two: list[Any]) -> None:
    # Catches: a mutation that counts as rejected by the failure of another one.
    line = "./proofs/parts/first/Answers.antt:3:5: error: `returns`: the two types differ"
    second = f"fn low::parts::Pair::second: no proof: expected answers; {REASON}; it calls `low::parts::first`"
    found = edits.reasons(two, *failed(line, "fn low::parts::first: not proved", second))
    assert found == {"first-wrong": line, "second-wrong": REASON}


def test_one_that_only_calls_is_not_refused(two: list[Any]) -> None:
    # Catches: a mutation that counts as rejected since its function calls one that isn't proved.
    assert edits.reasons(two, *failed(SEARCHED, CALLS)) == {"first-wrong": REASON}


def test_a_lacking_name_refuses_nothing(two: list[Any]) -> None:
    # Catches: a mutation that counts as rejected since it removed a name that a proof cites.
    answers = "./proofs/parts/first/Answers.antt"
    lacks = f"{answers}:3:5: error: `returns`: record `After` has no field `len`"
    rest = "1 declaration that depends on `returns`, which was rejected, was not checked: next"
    follows = f"{answers}:9:5: error: {rest}"
    assert edits.reasons(two, *failed(lacks, follows, "fn low::parts::first: not proved")) == {}
    assert edits.reason_alone(*failed(lacks, follows)) is None


def test_nothing_is_settled_where_another_function_fails(two: list[Any]) -> None:
    # Catches: a mutation that counts as rejected though what fails is a function that none changes.
    other = "fn low::other::third: no proof: `search` did not prove `returns`"
    assert edits.reasons(two, *failed(SEARCHED, other)) == {}


def test_a_limit_of_the_prover_refuses_nothing(two: list[Any]) -> None:
    # Catches: a mutation that counts as rejected since the prover gave up, or since the code doesn't compile.
    assert edits.reasons(two, *failed(SEARCHED, status=3)) == {}
    assert edits.reason_alone(*failed(SEARCHED, status=3)) is None
    assert edits.reason_alone(1, "src/parts.rt:3:5: error[E0425]: cannot find value") is None


def test_what_one_check_leaves_open_is_tried_alone(two: list[Any]) -> None:
    # Catches: a mutation whose verdict is that of a check that didn't decide it.
    gives = {("first-wrong", "second-wrong"): failed(SEARCHED, CALLS), ("second-wrong",): (0, "logic=proved")}
    found = edits.tried(two, lambda some: gives[tuple(it.name for it in some)])
    assert [(it.name, why) for it, why in found] == [("first-wrong", REASON), ("second-wrong", None)]


def stub(crate: Path, says: str, status: int) -> list[str]:
    """The words of a run of tools/edits.py, with a stub for the prover of a kit."""
    program = crate.parent / "kit" / "bin" / "rattle"
    program.parent.mkdir(parents=True, exist_ok=True)
    program.write_text(f"#!/bin/sh\necho '{says}'\necho logic=not-proved\nexit {status}\n")
    program.chmod(0o755)
    (crate.parent / "kit" / "KIT-ID").write_text("rattle-kit-1x logic 0f\n")
    (crate.parent / "kept").mkdir(exist_ok=True)
    return [str(crate), str(crate.parent / "kept"), str(program)]


def test_a_record_is_written_if_all_are_refused(crate: Path, two: list[Any]) -> None:
    # Catches: a record of mutations that weren't tried, or not refused.
    kept = crate / "must-fail" / "tried.md"
    assert (edits.main(*stub(crate, "nothing", 0)), kept.exists()) == (1, False)
    assert (edits.main(*stub(crate, SEARCHED, 1), draw=1), kept.exists()) == (0, False)
    assert edits.main(*stub(crate, SEARCHED, 1)) == 0
    assert kept.read_text() == edits.record(crate, "rattle-kit-1 logic 0f")
    assert kept.read_text().endswith("\n2 mutations are refused by rattle-kit-1 logic 0f\n")


@pytest.mark.parametrize(
    "name", ["src/parts.rt", "specs/Low.antt", "proofs/parts/first/Answers.antt", "must-fail/a.edit"]
)
def test_a_change_makes_a_record_old(crate: Path, two: list[Any], name: str) -> None:
    # Catches: a mutation that isn't tried again though what it changes, or the prover, is another.
    before = edits.record(crate, "rattle-kit-1 logic 0f")
    (crate / "README.md").write_text("Read me.")
    assert before == edits.record(crate, "rattle-kit-1b logic 0f") != edits.record(crate, "rattle-kit-1 logic 0e")
    (crate / name).parent.mkdir(parents=True, exist_ok=True)
    (crate / name).write_text(f"{CODE}\nanother line\n")
    assert edits.record(crate, "rattle-kit-1 logic 0f") != before


def test_an_import_and_a_comment_make_no_record_old(crate: Path, two: list[Any]) -> None:
    # Catches: all mutations tried again where proofs only import names from elsewhere, or a comment has another word.
    proof = crate / "proofs" / "parts" / "first" / "Answers.antt"
    proof.parent.mkdir(parents=True, exist_ok=True)
    proof.write_text("use A.B.{c}\n\nreturns = c\n")
    before = edits.record(crate, "rattle-kit-1 logic 0f")
    (crate / "proofs" / "Face.antt").write_text("-- What others cite.\npub use A.B.{c}\n")
    proof.write_text("-- It returns.\nuse A.Face.{c, d}\nreturns = c\n")
    (crate / "src" / "parts.rt").write_text(f"//! Parts.\n\n{(crate / 'src' / 'parts.rt').read_text()}")
    assert edits.record(crate, "rattle-kit-1 logic 0f") == before
    proof.write_text("use A.Face.{c, d}\nreturns = d\n")
    assert edits.record(crate, "rattle-kit-1 logic 0f") != before
