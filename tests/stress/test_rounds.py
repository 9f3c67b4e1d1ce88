"""The running board and `serve` in real threads: tests/run tests/stress [--seconds N] [--seed N]

A round is a run of the built program board_stress with a seed, one seed after another. The threads' schedule isn't
drawn from the seed: the same seed may pass when it is run again."""
from __future__ import annotations

import time
from itertools import count

import pytest

from tests.shared.commands import TOP, Say, ended

PROGRAM = TOP / "out" / "board_stress"
SECONDS = 600


def fault_of(seed: int) -> str:
    """What is wrong with a round: it must print its line and end in status 0."""
    done = ended(["timeout", str(SECONDS), str(PROGRAM), str(seed)])
    said = (done.output + done.complaint).decode(errors="replace").rstrip("\n")
    is_well = done.status == 0 and said.startswith(f"seed {seed}: ") and said.endswith(", audited")
    return "" if is_well else f"seed {seed}: status {done.status}: {said or 'nothing was printed'}"


def test_rounds(pytestconfig: pytest.Config, record_property: Say) -> None:
    # Catches: a reading that is of no publication, that is older than the one before, or that waits.
    first, end = pytestconfig.getoption("--seed"), time.monotonic() + pytestconfig.getoption("--seconds")
    faults, rounds = [], 0
    for seed in count(first):
        if time.monotonic() >= end:
            break
        faults += [fault] if (fault := fault_of(seed)) else []
        rounds += 1
    record_property("rounds", f"{rounds}, from seed {first} on")
    assert rounds and not faults, f"{len(faults)} of {rounds} rounds\n" + "\n".join(faults)
