"""The power of one board: by its weights, by one majority or by all, or by its members."""
from __future__ import annotations

from collections.abc import Iterable, Set
from ctypes import addressof, c_uint64
from typing import Optional

from .library import COUNT_WORDS, SHEET_WORDS, long, rooms
from .names import ALLOWED, BAD_SHEET, CHAIRS, MAJORITIES, TOTAL_VOTES, Majority
from .refusals import Refused, check_done
from .results import Indices, fields_in
from .tables import Table, members_of
from .values import Weights, Whole, chair_of, items_of, number_of, total_of, weights_of


def sheet_of(weights: list[int], total: int) -> list[int]:
    """The words of a sheet on which chairs 1, 2 and so on are open."""
    return [*(it + 1 for it in weights), *[0] * (CHAIRS - len(weights)), total, 0]


def count_by(sheet: Iterable[int], number: int, names: dict[int, str]) -> Indices:
    """The counts of a sheet by the majority of a number."""
    found = (c_uint64 * COUNT_WORDS)()
    words = (c_uint64 * SHEET_WORDS)(*sheet)
    check_done(long.board_counts_of_sheet(words, SHEET_WORDS, number, rooms.room, found))
    return Indices(*fields_in(found, MAJORITIES[number], names))


def count_all(sheet: Iterable[int], names: dict[int, str]) -> dict[Majority, Indices]:
    """The counts of a sheet by each majority."""
    found = (c_uint64 * COUNT_WORDS * len(MAJORITIES))()
    words = (c_uint64 * SHEET_WORDS)(*sheet)
    check_done(long.board_all_counts_of_sheet(words, SHEET_WORDS, rooms.room, found))
    return {it: Indices(*fields_in(found[at], it, names)) for at, it in enumerate(MAJORITIES)}


def indices(weights: Weights, majority: Majority, *, total: Optional[Whole] = None) -> Indices:
    """The voting power of a board by the weights of its chairs 1, 2 and so on, by one majority.

        >>> board = indices({"North": 50, "South": 49, "East": 1}, "half")
        >>> board.omega, board.coalitions
        (3, 8)
        >>> [(chair.name, str(chair.share)) for chair in board.chairs]
        [('North', '3/5'), ('South', '1/5'), ('East', '1/5')]

    weights: at most 32, in votes, each a whole number from 0; or a mapping, or a series of pandas, from names to them
    majority: "half", "70", "85" or "quorum"; `MEANINGS` says what wins
    total: the total voting power in votes, from the sum of the weights to 2^48; by default that sum

    Raises `Refused`: BadSheet for weights or a total out of range, BadRecord for an unknown majority. A value that is
    no number is a TypeError, also a bool, text and None.
    """
    votes, names = weights_of(weights)
    sheet = sheet_of(votes, total_of(votes, total))
    return count_by(sheet, number_of(majority), names)


def indices_of_all(weights: Weights, *, total: Optional[Whole] = None) -> dict[Majority, Indices]:
    """The voting power of a board by each majority, which takes less time than a call of `indices` for each.

        >>> {majority: it.quota for majority, it in indices_of_all([50, 49, 1]).items()}
        {'half': 51, '70': 70, '85': 85, 'quorum': 50}

    It takes and refuses what `indices` does.
    """
    votes, names = weights_of(weights)
    return count_all(sheet_of(votes, total_of(votes, total)), names)


def indices_of_members(table: Table, majority: Majority, *, open_chairs: Iterable[Whole] = ()) -> Indices:
    """The voting power of a board by its members, in any order.

        >>> table = {"votes": [30, 20, 49, 1], "chair": [1, 1, 2, None]}
        >>> indices_of_members(table, "half").weights
        (50, 49)

    table: a data frame, a mapping from columns to lists, or rows such as `Member`, dicts, dataclasses and named
        tuples. The columns are votes and chair, and if wanted code, name (not used), chair_name and suspended
    majority: "half", "70", "85" or "quorum"
    open_chairs: chairs that are open even if no member sits in them

    A chair is open if a member sits in it, suspended or not. Its weight is the votes of its members that aren't
    suspended, and the total is the votes of all members that aren't.

    Raises `Refused`: BadSheet for votes and chairs out of range and a total above 2^48; BadMember and DuplicateMember
    for codes; BadRecord for an unknown majority. An unknown or missing column is a ValueError, and a value of a wrong
    type a TypeError.
    """
    members = members_of(table, ("votes", "chair"))
    total = sum(row.votes for row in members.rows if not row.suspended)
    if total > TOTAL_VOTES:
        raise Refused(BAD_SHEET, f"the total is {total}: {ALLOWED['total_most']}")
    given_chairs = list(open_chairs) if isinstance(open_chairs, Set) else open_chairs
    chairs = items_of(given_chairs, "the open chairs are", ALLOWED["chair"])
    mask = sum({1 << (chair_of(it, f"open chair {at} is", BAD_SHEET) - 1) for at, it in enumerate(chairs, 1)})
    number = number_of(majority)
    words = [word for row in members.rows for word in (row.votes, row.chair or 0, int(row.suspended))]
    given, found = (c_uint64 * len(words))(*words), (c_uint64 * COUNT_WORDS)()
    room = rooms.room
    check_done(long.board_counts_of_members(addressof(given), len(words) // 3, mask, number, room, found))
    return Indices(*fields_in(found, MAJORITIES[number], members.names))
