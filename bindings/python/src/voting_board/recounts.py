"""A count over all coalitions, one by one, by the definitions alone. It shares no step with the library's."""
from __future__ import annotations

from random import Random
from typing import Any

import numpy

from .names import MAJORITIES
from .results import Indices

#: The number of chairs that are counted in one array; for each set of the others there is an array.
IN_ARRAY = 16
Numbers = Any


def winning(weights: Numbers, sizes: Numbers, of: Indices) -> Numbers:
    """Which coalitions win, by their weights and sizes, by the definitions of majorities in docs/DEFINITIONS.md."""
    if of.majority == "half":
        return 2 * weights > of.cast
    if of.majority == "70":
        return (weights >= 1) & (10 * weights >= 7 * of.total)
    if of.majority == "85":
        return (weights >= 1) & (20 * weights >= 17 * of.total)
    if of.majority == "quorum":
        return (2 * sizes > len(of.weights)) & (2 * weights >= of.total)
    raise ValueError(f"no rule for the majority {of.majority}")


def all_sums(values: list[int]) -> Numbers:
    """The sum of each set of values; the set's number has a bit for each value in it."""
    sums = numpy.zeros(1, dtype=numpy.int64)
    for value in values:
        sums = numpy.concatenate([sums, sums + value])
    return sums


def recounted(of: Indices) -> tuple[int, list[int]]:
    """The number of winning coalitions, and for each chair the number that lose without it and win with it."""
    low, high = list(of.weights[:IN_ARRAY]), of.weights[IN_ARRAY:]
    sums, sizes = all_sums(low), all_sums([1] * len(low))
    omega, swings = 0, [0] * len(of.weights)
    for chosen in range(2 ** len(high)):
        inside = [place for place in range(len(high)) if chosen >> place & 1]
        weight = sum(high[place] for place in inside)
        wins = winning(sums + weight, sizes + len(inside), of)
        omega += int(wins.sum())
        for place in range(len(low)):
            pairs = wins.reshape(-1, 2, 2**place)
            swings[place] += int(numpy.count_nonzero(~pairs[:, 0] & pairs[:, 1]))
        for place in set(range(len(high))) - set(inside):
            more = winning(sums + (weight + high[place]), sizes + (len(inside) + 1), of)
            swings[IN_ARRAY + place] += int(numpy.count_nonzero(~wins & more))
    return omega, swings


def least_quota(of: Indices) -> int:
    """The least weight that meets the clause on weight, found by trying, for a coalition of all chairs."""
    size, low, high = numpy.array([len(of.weights) + 1]), 0, max(of.total, of.cast) + 1
    while low < high:
        middle = (low + high) // 2
        if winning(numpy.array([middle]), size, of)[0]:
            high = middle
        else:
            low = middle + 1
    return low


def differences_of(of: Indices) -> list[str]:
    """The differences between a recount and some indices, in words."""
    omega, swings = recounted(of)
    found = [("the quota", of.quota, least_quota(of)), ("the winning coalitions", of.omega, omega)]
    found += [(f"the swings of chair {it}", here, own) for it, here, own in zip(of.numbers, of.swings, swings)]
    return [f"{what}: {here} by the library, {own} counted again" for what, here, own in found if here != own]


def drawn_script(lot: Random, chairs: int) -> str:
    """A script with drawn chairs, read at all majorities: members in each, one suspended, one in no chair."""
    codes = [f"X{chr(65 + at // 26)}{chr(65 + at % 26)}" for at in range(3 * chairs + 1)]
    seats = [*range(1, chairs + 1), *(lot.randint(1, chairs) for _ in range(2 * chairs))]
    records = [
        "member,votes",
        *(f"{code},{1500 + int(lot.paretovariate(0.9) * 1000) % 900_000}" for code in codes),
        "script",
        *(f"open,{chair}" for chair in range(1, chairs + 1)),
        *(f"move,{code},{chair}" for code, chair in zip(codes, seats)),
        f"suspend,{lot.choice(codes[:-1])}",
        "publish",
        *(f"read,1,{majority}" for majority in MAJORITIES),
    ]
    return "\n".join([*records, ""])
