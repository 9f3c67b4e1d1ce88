"""The definitions in a second prover, Coq, written from docs/DEFINITIONS.md and docs/FORMATS.md alone:

    tests/run tests/second

Counts.v and Register.v have the definitions and laws of counting and of the register, Replay.v the lines. Coq checks
the laws, and computes what `board replay` prints for the worked cases and for inputs that the commit draws."""
from __future__ import annotations

import re
from pathlib import Path

import pytest

from tests.second.coq import compiled, differing, evaluated, items
from tests.second.runs import FILES, KINDS, TOO_LARGE, Compared, of_file, of_kind
from tests.shared.commands import TOP, Say, ended
from tests.shared.kept import Kept


@pytest.fixture(scope="session")
def laws(kept: Kept) -> Path:
    """The folder with the checked modules."""
    missing = ended([str(TOP / "tools" / "install"), "--check", "second"])
    assert missing.status == 0, missing.output.decode()
    return kept("laws", lambda: compiled(kept.folder / "laws"))


def numbers_of(runs: list[Compared]) -> str:
    """How many numbers are compared."""
    return f"{sum(len(re.findall(rb'[0-9]+', it.text)) for it in runs)} numbers of {len(runs)} runs"


def test_no_axioms(laws: Path) -> None:
    # Catches: a law that rests on an axiom or isn't proved.
    theorems = [it["name"] for it in items() if it["kind"] == "Theorem"]
    said = evaluated(laws, "Axioms", "".join(f"Print Assumptions {it}.\n" for it in theorems))
    assert len(theorems) > 40
    assert said.splitlines() == ["Closed under the global context"] * len(theorems)


def test_each_item_has_a_sentence() -> None:
    # Catches: a definition or a law of which nobody says in words what it is.
    assert [it["name"] for it in items() if not (it["said"] or "").strip().endswith(".")] == []


@pytest.mark.parametrize("file", FILES)
def test_cases(file: str, laws: Path, record_property: Say) -> None:
    # Catches: a definition by which a worked case has another text.
    runs = [it for it in of_file(file) if it.call.name != TOO_LARGE]
    record_property("compared", numbers_of(runs))
    assert runs and not (wrong := differing(laws, f"Cases_{file}", runs)), wrong


@pytest.mark.parametrize("kind", KINDS)
def test_draws(kind: str, program: Path, laws: Path, record_property: Say) -> None:
    # Catches: a line of the program that isn't what the definitions say.
    runs = of_kind(kind, program)
    record_property("compared", numbers_of(runs))
    assert not (wrong := differing(laws, f"Draws_{kind}", runs)), wrong


def test_a_difference_is_named(laws: Path) -> None:
    # Catches: a comparison that passes whatever it is given.
    first, second = [it for it in of_file("boards") if it.call.name.startswith("boards/three-chairs-")][:2]
    wrong = differing(laws, "Wrong", [first, Compared(second.call, second.text[:-2] + b"9\n")])
    assert second.call.name in wrong and first.call.name not in wrong
