"""The page's operations in the package for Python: after drawn ones its numbers are those that the program prints for
commands that are worked out apart from the package. No browser is needed."""
from __future__ import annotations

from random import Random

import pytest
from member_tables import register_of
from operations import commands_of, drawn_operation
from oracle import MAJORITIES, Oracle
from replay_output import Chair, Ratio, Reading
from rounding import exact
from tests.shared.sizes import drawn, seed
from voting_board import Indices, Register
from voting_board.amounts import BadStudy
from voting_board.studies import Moved

LISTS, OPERATIONS = drawn(1, 6), drawn(4, 12)
# The fewest numbers that are compared of one list: 30,000 of all lists in the deep gate.
FEWEST = drawn(2_000, 5_000)


def text_of(operation: str) -> str:
    """An operation as board-study spells it."""
    word, first, second, *others = operation.split(",")
    if word == "split":
        return f"split,{second},{'' if first == 'lowest' else first}"
    if word == "scale":
        return f"scale,{'chair ' * first.isdigit()}{first},{second}"
    if word == "share":
        return f"share,{first},{second}{' points' if second[0] in '+-' else '%'},{others[0]}"
    return operation


def is_accepted(oracle: Oracle, done: list[str], commands: list[str]) -> bool:
    """Whether the program accepts all commands after others."""
    answers = oracle.answers([*done, *commands])[len(done) :]
    return bool(commands) and all(it.startswith("accepted,") for it in answers)


def compared(found: Indices, wanted: Reading) -> int:
    """Checks counts against the program's: how many numbers were compared."""
    counts = found.quota, found.cast, found.total, found.omega, found.coalitions, len(found.chairs)
    assert counts == (wanted.quota, wanted.cast, wanted.total, wanted.winning, wanted.coalitions, wanted.open_chairs)
    many = len(counts)
    for own, chair in zip(found.chairs, wanted.chairs, strict=True):
        assert (own.chair, own.weight, own.swings) == (chair.chair, chair.weight, chair.swings)
        own_fractions = own.banzhaf, own.share, own.prevent, own.initiate
        fractions = ratios_of(chair)
        assert own_fractions == tuple(it and exact(it) for it in fractions)
        many += 3 + 2 * sum(it is not None for it in fractions)
    return many


def ratios_of(chair: Chair) -> tuple[Ratio | None, ...]:
    return chair.banzhaf, chair.share, chair.prevent, chair.initiate


def taken(register: Register, operation: str) -> Register | None:
    """The register after an operation of the package; None if the package refuses it."""
    try:
        return Moved(register).after([text_of(operation)]).register
    except BadStudy:
        return None


@pytest.mark.parametrize("place", range(LISTS))
def test_the_numbers_after_drawn_operations(oracle: Oracle, place: int) -> None:
    # Catches: an operation of the package whose votes, chairs or members are others than it stands for, one that is
    # carried out in part, and one that is refused though the program accepts its commands.
    some, many, kinds = Random(f"operations {seed()} {place}"), 0, set[str]()
    register, commands, done = register_of(oracle.table), list[str](), 0
    while done < OPERATIONS:
        operation = ",".join(drawn_operation(some, register))
        own, after = commands_of(register, operation), taken(register, operation)
        if not is_accepted(oracle, commands, own):
            assert after is None or after.members == register.members, operation
            continue
        assert after is not None, operation
        register, commands, done = after, [*commands, *own], done + 1
        kinds.add(operation.partition(",")[0])
        for wanted in oracle.output(commands, MAJORITIES).readings:
            many += compared(register.indices(wanted.majority), wanted)  # type: ignore[arg-type]
    assert many >= FEWEST and len(kinds) > 1, (many, kinds)
