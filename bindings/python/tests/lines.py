"""Counts and outcomes as the lines that `board replay` prints."""
from __future__ import annotations

from collections.abc import Iterable, Iterator
from fractions import Fraction
from typing import Optional

from voting_board import Accepted, Chair, Fault, Indices, Outcome, Published, Reading, Refusal


def fraction(swings: int, divisor: int, exact: Optional[Fraction]) -> str:
    """A fraction as it is printed. It is the exact one of the chair."""
    assert exact == (Fraction(swings, divisor) if divisor else None)
    return f"{swings}/{divisor}" if divisor else "-"


def chair_line(board: Indices, chair: Chair) -> str:
    """The line of a chair."""
    divisors = board.coalitions // 2, sum(board.swings), board.omega, board.coalitions - board.omega
    exact = chair.banzhaf, chair.share, chair.prevent, chair.initiate
    fractions = [fraction(chair.swings, *it) for it in zip(divisors, exact)]
    return ",".join(["chair", *map(str, (chair.chair, chair.weight, chair.swings)), *fractions])


def board_lines(board: Indices) -> Iterator[str]:
    """The line of a board from its majority on, and those of its chairs."""
    counts = len(board.chairs), board.quota, board.cast, board.total, board.omega, board.coalitions
    yield ",".join([board.majority, *map(str, counts)])
    yield from (chair_line(board, chair) for chair in board.chairs)


def outcome_lines(outcome: Outcome) -> Iterator[str]:
    """The lines of an outcome."""
    if isinstance(outcome, Reading):
        first, *rest = board_lines(outcome)
        yield f"reading,{outcome.reader},{outcome.front},{first}"
        yield from rest
    elif isinstance(outcome, Refusal):
        yield f"refused,{outcome.number},{outcome.name}"
    elif isinstance(outcome, Accepted):
        yield f"accepted,{outcome.number}"
    else:
        assert isinstance(outcome, Published)
        yield f"published,{outcome.number}"


def text_of(outcomes: Iterable[Outcome], fault: Optional[Fault]) -> str:
    """The text of a replay."""
    lines = [line for it in outcomes for line in outcome_lines(it)]
    return "".join(f"{it}\n" for it in [*lines, *([f"fault,{fault.record},{fault.name}"] if fault else [])])
