"""Any operations one after the other: the page, the program and the package for Python have the same numbers."""
from __future__ import annotations

import json
import random

import pytest
from chromium import EVERY, Page
from operations import Walk, drawn
from oracle import MAJORITIES, Oracle
from test_operations import check, state
from tests.shared import sizes
from tests.shared.commands import Say
from voting_board.saved_studies import command_of
from voting_board.study_files import page_data

BROWSERS = EVERY
WALKS, ACTS, EACH = sizes.drawn(1, 10), 40, 4
LEAST_COMPARED = 15_000


def check_in_python(page: Page, oracle: Oracle, commands: list[str]) -> int:
    """The study that the page saves has the same changes in Python, which count what the program prints for their
    commands: how many numbers were compared."""
    data = json.loads(page.act("exported", "export-beside"))
    accepted = [it["what"] for it, is_so in zip(data["study"]["changes"], state(page)) if is_so == "accepted"]
    texts = [command_of(it) for it in accepted]
    found = oracle.studied({"changed": texts} if texts else {}, MAJORITIES)
    written = page_data(found, "it", [])
    assert json.loads(written)["study"]["scenarios"] == [
        {"name": "changed", "changes": [{"id": at, "on": True, "what": it} for at, it in enumerate(accepted, 1)]}
    ] * bool(texts)
    output, many = oracle.output(commands, MAJORITIES), 0
    for reading, it in zip(output.readings, found.results["changed" if texts else "base"].indices.values()):
        assert [chair.chair for chair in reading.chairs] == list(it.numbers)
        assert [chair.weight for chair in reading.chairs] == list(it.weights)
        assert [chair.swings for chair in reading.chairs] == list(it.swings)
        assert (reading.quota, reading.cast, reading.winning) == (it.quota, it.cast, it.omega)
        many += 3 * len(reading.chairs) + 3
    return many


@pytest.mark.parametrize("part", range(WALKS))
def test_a_random_walk(page: Page, oracle: Oracle, part: int, record_property: Say) -> None:
    # Catches: any sequence of operations and changes after which the page shows other numbers than its script gives.
    some, walk, compared, taken = random.Random(sizes.seed() + part), Walk(), 0, 0
    page.click("#tab-table")
    while taken < ACTS:
        act = drawn(some, walk, oracle)
        if not page.act(*act):
            continue
        walk.take(act)
        taken += 1
        if taken % EACH == 0:
            commands = walk.expanded(oracle)[0]
            compared += check(page, oracle, commands) + check_in_python(page, oracle, commands)
    record_property("time", f"operations: {compared} numbers of a walk of {ACTS} acts were compared with the program")
    assert compared >= LEAST_COMPARED
