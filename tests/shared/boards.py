"""Boards to count, from a seed: with zeros, equal votes, totals above the sum, the largest; some are refused."""
from __future__ import annotations

import random

CHAIRS = 32
LARGEST = 2**48

Member = tuple[int, int, int]

# Members that are refused: a chair above the last, and votes above the largest total.
REFUSED: list[Member] = [(1, CHAIRS + 1, 0), (LARGEST + 1, 1, 0), (2**64 - 1, 2**64 - 1, 1)]


def weights_of(some: random.Random, chairs: int) -> list[int]:
    """The weights of chairs, of one kind."""
    most = LARGEST // max(chairs, 1)
    kind = some.randrange(5)
    if kind == 0:
        return [some.randint(0, 3) for _ in range(chairs)]
    if kind == 1:
        return [some.choice([1, 7, most])] * chairs
    if kind == 2:
        return [some.randint(0, most) for _ in range(chairs)]
    if kind == 3:
        return [some.choice([0, 0, 1, 1000, most]) for _ in range(chairs)]
    return [int(some.paretovariate(1) * 100) % most for _ in range(chairs)]


def total_of(some: random.Random, weights: list[int]) -> int:
    """A total: the sum of the weights, a little more, or the largest; and sometimes one that is refused."""
    least = sum(weights)
    if some.random() < 0.05:
        return some.choice([max(0, least - 1), LARGEST + 1, 2**64 - 1])
    return some.choice([least, least, min(LARGEST, least + some.randint(0, 1000)), LARGEST])


def members_of(some: random.Random) -> list[Member]:
    """Members in chairs or in none, some of them suspended; and sometimes one that is refused."""
    most = some.choice([3, 1000, 2**40])
    chairs = [0, *some.sample(range(1, CHAIRS + 1), some.randint(1, CHAIRS))]
    found = [
        (some.choice([0, 1, some.randint(0, most)]), some.choice(chairs), int(some.random() < 0.1))
        for _ in range(some.randint(0, 200))
    ]
    return [*found, some.choice(REFUSED)] if some.random() < 0.05 else found


def words_of(some: random.Random) -> list[int]:
    """A board, in the words that counts.c and calls.mjs read."""
    weights = weights_of(some, CHAIRS + 1 if some.random() < 0.03 else some.randint(0, CHAIRS))
    members = members_of(some)
    rows = [word for member in members for word in member]
    open_chairs = some.choice([0, 0, some.getrandbits(CHAIRS)])
    return [len(weights), *weights, total_of(some, weights), len(members), *rows, open_chairs]


def boards(seed: int, many: int) -> list[list[int]]:
    some = random.Random(seed)
    return [words_of(some) for _ in range(many)]
