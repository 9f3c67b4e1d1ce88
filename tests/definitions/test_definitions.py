"""Definitions that contracts cite, computed by the prover on drawn inputs and compared with the independent reader of
tests/independent, which was written from docs/FORMATS.md and docs/DEFINITIONS.md alone.

So what is tested is the statement that is proved of the program, without its code: a proof can't see that its own
definition means something else than the documents. Each input makes a lemma that the prover checks by computing."""
from __future__ import annotations

from collections.abc import Callable, Iterator
from dataclasses import dataclass
from pathlib import Path
from random import Random

import pytest

from tests.definitions import lemmas
from tests.definitions.lemmas import Lemma
from tests.shared.commands import TOP, Ended, Say, ended
from tests.shared.libraries import kit
from tests.shared.sizes import IS_DEEP, drawn, seed

# How many lemmas a module has at most, and how many modules a crate.
TAKEN, MODULES = 100, 20
CRATES = ["board_runs", "board_text", "council_core", "majority_rule", "power_index", "two_copy_steps", "recording_io"]
CRATES += ["board_serve", "board_share", "board_audits", "c_values"]
KIT_CRATES = ["std", "csv"]
SOURCE = """//! Compares definitions with an independent reader, by computation.
#![tactic(auto)]
ghost use Rattle.std.specs.Prelude.{◌≡◌};

/// One.
pub fn one() -> u8
    ensures { result ≡ 1 }
{
    1
}
"""
READING = """-- Inputs, and what an independent reader says of them.
use Rattle.std.proofs.Common.{◌≡◌, ◌++◌, ℕ, List, [], ◌∷◌, Result, Ok, Err, Some, None, refl}
use Rattle.std.specs.Prelude.{codes}
use Rattle.std.specs.Fmt.{digits}
use Rattle.csv.specs.Machine.{next_record}
use Rattle.csv.specs.Reading.{records_from, strip_bom}
use Rattle.board_text.specs.Scripts.{script_course}
use Rattle.board_text.specs.Text.{started_of, preamble_after_header, output, run_limits}
"""
SERVING = """use Rattle.board_text.specs.Lines.{audit_line}
use Rattle.board_text.specs.Text.{stopped_run, text_of}
use Rattle.board_text.specs.declared.faults.Fault.{Fault}
use Rattle.board_serve.specs.Plans.{Planned, plan_of}
use Rattle.board_serve.specs.Serving.{work_lines}

abbrev serve_text : Result Planned Fault → List ℕ
serve_text (Ok p) = text_of (work_lines p ++ audit_line ∷ [])
serve_text (Err f) = output (stopped_run f)
"""
COMMANDS = """-- Values, and what the documents say of them.
use Rattle.std.proofs.Common.{◌≡◌, ℕ, List, [], ◌∷◌, Result, Ok, Err, Some, None, refl}
use Rattle.council_core.specs.declared.commands.Command.TheVariants.{Open, Close, Move, SetVotes, Suspend, Restore}
use Rattle.council_core.specs.declared.commands.Command.TheVariants.{Admit, Withdraw}
"""
GIVEN = """use Rattle.council_core.specs.declared.refusals.Refusal.TheVariants.{BadChair, BadMember, BadRecord}
use Rattle.council_core.specs.declared.refusals.Refusal.TheVariants.{VotesTooLarge}
use Rattle.c_values.specs.Given.{command_as, fields_with, given_command}
"""
AUDITING = """use Rattle.council_core.specs.declared.refusals.Refusal.TheVariants.{DuplicateMember}
use Rattle.board_audits.specs.Audits.{audit_of}
use Rattle.board_audits.specs.declared.audits.AuditFault.TheVariants.{Start, BadJournal, BadCuts, Mismatch}
"""
ITEMS = """use Rattle.board_c.specs.Contents.{items_from, items_of}
use Rattle.board_c.specs.Items.{item_with}
use Rattle.c_values.specs.Given.{fields_with}
"""
UNFOLDED = "unfolding started_of preamble_after_header script_course records_from strip_bom next_record digits"


@dataclass(frozen=True)
class Kind:
    """A kind of lemma: how one is drawn, how many of them there are, what a module of them begins with, and what the
    prover unfolds."""

    draw: Callable[[Random], Lemma | None]
    inputs: int
    head: str
    unfolded: str = ""

    def drawn(self, name: str) -> Iterator[Lemma]:
        """The lemmas of this kind, from the seed."""
        chance = Random(f"{name}/{seed()}")
        while True:
            if made := self.draw(chance):
                yield made


KINDS = {
    "Replays": Kind(
        lemmas.replayed, drawn(500, 12_000), READING + "use Rattle.board_runs.specs.Replays.{run_of}\n", UNFOLDED
    ),
    "Traces": Kind(
        lemmas.traced, drawn(150, 3_000), READING + "use Rattle.board_runs.specs.Traces.{trace_of}\n", UNFOLDED
    ),
    "Serves": Kind(lemmas.served, drawn(150, 2_000), READING + SERVING, UNFOLDED),
    "Given": Kind(lemmas.given, drawn(100, 1_500), COMMANDS + GIVEN),
    "Written": Kind(lemmas.written, drawn(50, 500), COMMANDS + GIVEN),
    "Audits": Kind(lemmas.audited, drawn(50, 1_000), COMMANDS + AUDITING),
}
# The library for C is proved once more as a library over which another crate can be checked, which takes minutes.
if IS_DEEP:
    KINDS["Items"] = Kind(lemmas.itemised, 1_000, READING + ITEMS, f"{UNFOLDED} items_from")
    CRATES.append("board_c")


def checked(folder: Path, modules: dict[str, str]) -> Ended:
    """The prover's run over a crate with these modules of lemmas, over the crates that were proved."""
    tools = kit()
    for part in ("src", "specs", "proofs"):
        (folder / part).mkdir(parents=True)
    (folder / "src" / "lib.rt").write_text(SOURCE)
    (folder / "proofs" / "Lib.antt").write_text("".join(f"mod {name}\n" for name in modules))
    for name, text in modules.items():
        (folder / "proofs" / f"{name}.antt").write_text(text)
    words = [str(tools / "bin" / "rattle"), "check", "--crate-name", "definitions", str(folder / "src" / "lib.rt")]
    words += [it for name in KIT_CRATES for it in ("--extern", f"{name}={tools}/rlibs/{name}.rlib")]
    words += [it for name in CRATES for it in ("--extern", f"{name}={TOP}/out/{name}.rlib")]
    words += ["-L", f"dependency={TOP}/out", "-L", f"dependency={tools}/rlibs", "--links", "definitions="]
    words += ["--antt-project", f"{tools}/rattle/logic/antt-project.json", "--logic-built", f"{tools}/logic_built"]
    return ended([*words, "--jobs", "1"])


def is_proved(run: Ended) -> bool:
    return run.status == 0 and b"\nlogic=proved functions=1 " in run.complaint


def module(kind: Kind, made: list[Lemma]) -> str:
    """A module of lemmas."""
    unfolded = kind.unfolded and f"{kind.unfolded}\n"
    return kind.head + "".join(it.text(f"lemma{at}", unfolded) for at, it in enumerate(made))


@pytest.fixture(scope="module")
def drawn_lemmas() -> dict[str, list[Lemma]]:
    return {name: [it for it, _ in zip(kind.drawn(name), range(kind.inputs))] for name, kind in KINDS.items()}


def test_agree(tmp_path: Path, drawn_lemmas: dict[str, list[Lemma]], record_property: Say) -> None:
    # Catches: a definition of a text, of its counts, refusals or faults, of a struct or of an audit that isn't that of
    # the documents.
    modules = [
        (f"{name}{at}", module(KINDS[name], made[at : at + TAKEN]))
        for name, made in drawn_lemmas.items()
        for at in range(0, len(made), TAKEN)
    ]
    for name, made in drawn_lemmas.items():
        record_property(name, len(made))
    for at in range(0, len(modules), MODULES):
        run = checked(tmp_path / f"crate{at}", dict(modules[at : at + MODULES]))
        assert is_proved(run), run.complaint.decode()[:4_000]


@pytest.mark.deep("that the prover refuses a wrong lemma doesn't depend on the commit")
@pytest.mark.parametrize("name", KINDS)
def test_another_value(tmp_path: Path, drawn_lemmas: dict[str, list[Lemma]], name: str) -> None:
    # Catches: lemmas that the prover takes whatever they say.
    made = drawn_lemmas[name]
    other = next(it for it in made if it.wanted != made[0].wanted)
    run = checked(tmp_path / "crate", {name: module(KINDS[name], [Lemma(made[0].asked, other.wanted)])})
    assert not is_proved(run) and b"`lemma0`" in run.complaint, run
