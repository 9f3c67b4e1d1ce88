"""Winning coalitions and swings by brute force, from docs/DEFINITIONS.md alone: by going through all coalitions, and by
a table of how many coalitions have a weight and a size. If both methods are possible, they must agree."""
from __future__ import annotations

import struct
from bisect import bisect_left
from collections.abc import Callable
from dataclasses import dataclass
from functools import lru_cache

MOST_CHAIRS = 14  # of the first method: 2^14 coalitions
MOST_CELLS = 20_000  # of the second: weights times sizes
MOST_WEIGHT = 1 << 49  # 256 members of 2^40 votes have 2^48
Rule = Callable[[int, int], bool]  # whether a weight and a size win

# What a majority asks of a weight, where these votes are cast and these are all votes.
CLAUSES: dict[str, Callable[[int, int, int], bool]] = {
    "half": lambda weight, cast, total: 2 * weight > cast,
    "70": lambda weight, cast, total: weight >= 1 and 10 * weight >= 7 * total,
    "85": lambda weight, cast, total: weight >= 1 and 20 * weight >= 17 * total,
    "quorum": lambda weight, cast, total: 2 * weight >= total,
}


class TooLarge(Exception):
    """Neither method can count this board in a short time."""


@dataclass(frozen=True)
class Counts:
    """The winning coalitions of a board, and the swings of each of its chairs."""

    winning: int
    swings: tuple[int, ...]


def quota(weights: tuple[int, ...], total: int, majority: str) -> int:
    """The least weight that meets the majority's clause on weight."""
    cast = sum(weights)
    return bisect_left(range(MOST_WEIGHT), True, key=lambda weight: CLAUSES[majority](weight, cast, total))


def rule_of(weights: tuple[int, ...], total: int, majority: str) -> Rule:
    """Whether a coalition of some weight and size wins."""
    clause, cast, chairs = CLAUSES[majority], sum(weights), len(weights)
    if majority == "quorum":
        return lambda weight, size: 2 * size > chairs and clause(weight, cast, total)
    return lambda weight, size: clause(weight, cast, total)


def by_coalitions(weights: tuple[int, ...], wins: Rule) -> Counts:
    """The counts by going through all coalitions; bit i of a coalition's place says whether chair i is in it."""
    sums, sizes = [0], [0]
    for weight in weights:
        sums += [weight + other for other in sums]
        sizes += [1 + other for other in sizes]
    won = [wins(weight, size) for weight, size in zip(sums, sizes)]
    chairs = [1 << i for i in range(len(weights))]
    swings = [sum(won[c | chair] and not won[c] for c in range(len(won)) if not c & chair) for chair in chairs]
    return Counts(sum(won), tuple(swings))


@lru_cache(maxsize=64)
def table_of(weights: tuple[int, ...]) -> dict[tuple[int, int], int]:
    """How many coalitions there are of each weight and size. The product of 1 + x^weight y over the chairs has these
    numbers as coefficients; it is kept in one long integer, with 64 bits for each coefficient."""
    product, sizes = 1, len(weights) + 1
    for weight in weights:
        product += product << 64 * (weight * sizes + 1)
    places = (product.bit_length() + 63) // 64
    found = struct.unpack(f"<{places}Q", product.to_bytes(8 * places, "little"))
    return {divmod(place, sizes): many for place, many in enumerate(found) if many}


def swings_by_table(weights: tuple[int, ...], wins: Rule, chair: int) -> int:
    """The swings of a chair of this weight."""
    others = list(weights)
    others.remove(chair)
    table = table_of(tuple(sorted(others))).items()
    return sum(many for (weight, size), many in table if wins(weight + chair, size + 1) and not wins(weight, size))


def by_table(weights: tuple[int, ...], wins: Rule) -> Counts:
    """The counts by tables of weights and sizes; chairs of one weight have the same swings."""
    table = table_of(tuple(sorted(weights)))
    swings = {chair: swings_by_table(weights, wins, chair) for chair in set(weights)}
    winning = sum(many for (weight, size), many in table.items() if wins(weight, size))
    return Counts(winning, tuple(swings[chair] for chair in weights))


@lru_cache(maxsize=1024)
def counts(weights: tuple[int, ...], total: int, majority: str) -> Counts:
    """The counts of the open chairs' weights, if all members have this total, by each method that is possible."""
    wins = rule_of(weights, total, majority)
    methods = [by_coalitions] if len(weights) <= MOST_CHAIRS else []
    if (sum(weights) + 1) * (len(weights) + 1) <= MOST_CELLS:
        methods.append(by_table)
    found = {method(weights, wins) for method in methods}
    if not found:
        raise TooLarge(f"{len(weights)} chairs of {sum(weights)} votes")
    if len(found) > 1:
        raise AssertionError(f"the two methods differ: {weights}, {total}, {majority}: {found}")
    return found.pop()
