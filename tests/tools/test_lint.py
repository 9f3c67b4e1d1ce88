"""tools/lint over copies of the sources in which one thing is changed."""
from __future__ import annotations

import shutil
from pathlib import Path

import pytest

from tests.shared.commands import TOP, ended

ANOTHER = "impl Play for Other {\n    ghost then = { λ step. IsStepOn };\n}\n"
REAL = "ghost then = { λ step. IsStepOn };"
# A fault, the file that it is planted in, what it replaces there, or nothing for the end of the file, and by what.
PLANTED = [
    ("an effect in another crate", "board_runs/src/lib.rt", "", ANOTHER),
    ("an effect behind a comment", "board_share/src/lib.rt", "", ANOTHER.replace("ghost then", "ghost /* */ then")),
    (
        "the real effect in a comment",
        "board_share/src/rule.rt",
        REAL,
        f"ghost then = {{ λ step. Nothing }};\n// {REAL}",
    ),
    ("unsafe code behind a text", "board_text/src/lib.rt", "", 'fn f() { let _ = "//"; unsafe { g() } }\n'),
    ("a definition by its type", "power_index/specs/Indices.antt", "", "omega_of : ℕ\nomega_of = 0\n"),
    (
        "definitions exchanged by an import",
        "power_index/specs/Indices.antt",
        "",
        "use Rattle.council_core.specs.Coalitions.{omega_of as eta_of, eta_of as omega_of}\n",
    ),
    ("a lemma behind a crate's Face", "board_runs/proofs/Lib.antt", "", "use Rattle.half_sums.proofs.SetSums.{a}\n"),
]


@pytest.fixture(scope="module")
def copied(tmp_path_factory: pytest.TempPathFactory) -> Path:
    """The sources, definitions and proofs of all crates, and the tools."""
    folder = tmp_path_factory.mktemp("lint")
    shutil.copytree(TOP / "tools", folder / "tools")
    shutil.copy(TOP / "crates.txt", folder)
    for crate in (TOP / "crates").iterdir():
        for part in ("src", "specs", "proofs"):
            if (crate / part).exists():
                shutil.copytree(crate / part, folder / "crates" / crate.name / part)
    return folder


def test_sources(copied: Path) -> None:
    # Catches: a check that no sources pass.
    assert ended([str(copied / "tools/lint")]).status == 0


@pytest.mark.parametrize("fault, name, old, new", PLANTED, ids=[it[0] for it in PLANTED])
def test_planted(copied: Path, fault: str, name: str, old: str, new: str) -> None:
    # Catches: a fault that is hidden from the check by where it stands or how it is written.
    path = copied / "crates" / name
    text = path.read_text()
    assert old in text
    path.write_text(text.replace(old, new) if old else text + new)
    try:
        found = ended([str(copied / "tools/lint")])
    finally:
        path.write_text(text)
    crate = name.partition("/")[0]
    assert found.status == 1 and crate in found.output.decode(), f"{fault}: {found.output.decode()}"
