"""Compares `board` with an independent reader of docs/FORMATS.md and docs/DEFINITIONS.md, on inputs from a seed:

    tests/run tests/independent [--inputs N] [--seed N] [--keep FOLDER] [--c]

docs/FORMATS.md and docs/DEFINITIONS.md are all that the reader was written from. --keep writes each input that program
and reader disagree about to a file of FOLDER. Inputs that hypothesis makes don't serve here: a board of 256 members is
more than it draws, and of those that it draws many are the same."""
from __future__ import annotations

import os
import re
import subprocess
from collections import Counter
from concurrent.futures import ProcessPoolExecutor
from dataclasses import dataclass
from functools import partial
from pathlib import Path
from random import Random

import pytest

from tests.independent.counts import TooLarge
from tests.independent.inputs import KINDS, Input
from tests.independent.register import FAULTS, REFUSALS
from tests.independent.runs import Answer, answer
from tests.shared.commands import TOP, Say

SECONDS = 600
SHOWN = 600
# How many inputs a process takes at a time, and how many times as many there are until all has occurred.
TAKEN, TIMES = 50, 10
EVERY = sorted({f"refused {it}" for it in REFUSALS.values()} | {f"fault {it}" for it in FAULTS} | {"refused words"})
# An input that can't be read, and two outputs that can't be written.
FOLDER, FULL = os.open(TOP, os.O_RDONLY), os.open("/dev/full", os.O_WRONLY)
BEHIND, ENDED = os.pipe()
os.close(BEHIND)
PLACES = [kind for kind, (_, share) in KINDS.items() for _ in range(share)]


@dataclass(frozen=True)
class Found:
    """The result of an input: its kind, how many before it couldn't be counted, whether the program's run succeeded,
    the refusals and faults of that run, and the text to print if the program and the reader disagree.
    """

    kind: str
    left_out: int
    well: bool
    occurred: set[str]
    disagreement: str


def ran_by(program: Path, made: Input) -> Answer:
    """The program's answer to an input."""
    ran = subprocess.run(
        [str(program), *made.words],
        input=made.given,
        stdin=FOLDER if made.given is None else None,
        stdout={"taken": subprocess.PIPE, "full": FULL, "ended": ENDED}[made.output],
        stderr=subprocess.PIPE,
        timeout=SECONDS,
    )
    return Answer(ran.stdout or b"", ran.stderr, ran.returncode)


def agree(said: Answer, ran: Answer) -> bool:
    """Whether reader and program agree; if FORMATS doesn't give a reason's words, any text but the empty one agrees."""
    reasons = bool(ran.reason) if said.reason is None else said.reason == ran.reason
    return reasons and (said.printed, said.status) == (ran.printed, ran.status)


def occurred_in(ran: Answer) -> set[str]:
    """The refusals and the fault of a run."""
    refused = {f"refused {name.decode()}" for name in re.findall(rb"^refused,\d+,(\w+)$", ran.printed, re.M)}
    faults = {f"fault {name.decode()}" for name in re.findall(rb"^board: (\w+)$", ran.reason or b"", re.M)}
    return refused | faults | ({"refused words"} if ran.status == 2 else set())


def shortened(value: object) -> str:
    """A value as Python writes it, with the middle left out if it is long."""
    shown = repr(value)
    return shown if len(shown) <= SHOWN else f"{shown[:SHOWN // 2]} ... {shown[-SHOWN // 2:]}"


def report(name: str, made: Input, said: Answer, ran: Answer, keep: Path | None) -> str:
    """The lines of a disagreement; the whole input is written to the folder if one is given."""
    lines = [f"disagreement, {name}", f"  input:   {shortened(made)}"]
    if keep is not None and made.given is not None:
        keep.mkdir(parents=True, exist_ok=True)
        path = keep / f"{re.sub('[^a-z0-9]+', '-', name)}.csv"
        path.write_bytes(made.given)
        lines.append(f"  written: {path}")
    return "\n".join([*lines, f"  program: {shortened(ran)}", f"  reader:  {shortened(said)}"])


def compared(program: Path, serves: bool, seed: int, keep: Path | None, place: int) -> Found:
    """The result of the input at a place. If the reader can't count a board, or the program has no serve, the next draw
    replaces it."""
    kind = PLACES[place * 37 % len(PLACES)]
    if kind == "threads" and not serves:
        kind = "scripts"
    for draw in range(100):
        made = KINDS[kind][0](Random(f"{seed}/{place}/{draw}"))
        if not serves and made.words[:1] == ("serve",):
            continue
        try:
            said = answer(made.words, made.given, made.output == "taken")
        except TooLarge:
            continue
        ran = ran_by(program, made)
        name = f"{kind}, seed {seed}, place {place}, draw {draw}"
        wrong = "" if agree(said, ran) else report(name, made, said, ran, keep)
        return Found(kind, draw, ran.status == 0, occurred_in(ran), wrong)
    raise AssertionError(f"no input of kind {kind} can be counted, seed {seed}, place {place}")


def summary(found: list[Found]) -> str:
    """How many inputs there are of a kind, and what occurred in them."""
    occurred = Counter(name for it in found for name in it.occurred)
    replaced = f", {it} too large to count replaced" if (it := sum(it.left_out for it in found)) else ""
    ended = f"{len(found)}{replaced}, {sum(it.well for it in found)} ended well"
    return "; ".join([ended, *(f"{name} {many}" for name, many in sorted(occurred.items()))])


@pytest.fixture(scope="session")
def every(program: Path, pytestconfig: pytest.Config) -> list[Found]:
    """The results of all inputs. There are as many again as long as something hasn't occurred, at most TIMES."""
    serves = not pytestconfig.getoption("--c")
    one = partial(compared, program, serves, pytestconfig.getoption("--seed"), pytestconfig.getoption("--keep"))
    many, found = pytestconfig.getoption("--inputs"), list[Found]()
    with ProcessPoolExecutor() as pool:
        while len(found) < TIMES * many and not {*EVERY} <= {name for it in found for name in it.occurred}:
            found += pool.map(one, range(len(found), len(found) + many), chunksize=TAKEN)
    return found


def test_agree(kind: str, every: list[Found], record_property: Say) -> None:
    # Catches: a line, a reason or a status of the program that isn't what the documents say of an input.
    found = [it for it in every if it.kind == kind]
    record_property("inputs", summary(found))
    wrong = [it.disagreement for it in found if it.disagreement]
    assert found and not wrong, f"{len(wrong)} of {len(found)} inputs\n" + "\n".join(wrong)


@pytest.mark.parametrize("name", EVERY)
def test_occurs(name: str, every: list[Found]) -> None:
    # Catches: inputs among which a refusal or a fault never occurs.
    assert any(name in it.occurred for it in every)
