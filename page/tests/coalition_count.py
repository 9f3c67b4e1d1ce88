"""An independent count over all coalitions of a board, from the majorities' definitions, in the words of the page."""
from __future__ import annotations

from bisect import bisect_left
from collections.abc import Collection, Iterator
from dataclasses import dataclass
from itertools import combinations
from math import comb

from tests.independent.counts import CLAUSES, quota

Coalition = tuple[int, ...]


@dataclass(frozen=True)
class Board:
    """The votes and the names of open chairs, by number, and the total voting power."""

    votes: dict[int, int]
    names: dict[int, str]
    total: int

    def of(self, coalition: Collection[int]) -> int:
        """The votes of a coalition."""
        return sum(self.votes[it] for it in coalition)

    def reaches(self, majority: str, votes: int) -> bool:
        """Whether some votes are enough at a majority."""
        return CLAUSES[majority](votes, sum(self.votes.values()), self.total)

    def quota(self, majority: str) -> int:
        return quota(tuple(self.votes.values()), self.total, majority)

    def least_size(self, majority: str) -> int:
        """The least number of chairs that a majority asks for; 0 if it asks for none."""
        return next(size for size in range(34) if 2 * size > len(self.votes)) if majority == "quorum" else 0

    def wins(self, majority: str, coalition: Collection[int]) -> bool:
        return self.reaches(majority, self.of(coalition)) and len(coalition) >= self.least_size(majority)

    def coalitions(self) -> Iterator[Coalition]:
        """All coalitions, small ones first, those of a size in order of their chairs."""
        for size in range(len(self.votes) + 1):
            yield from combinations(sorted(self.votes), size)

    def listed(self, chairs: list[int], none: str) -> str:
        """Chairs as the page lists them, with their number."""
        return f"{len(chairs)}: " + ", ".join(f"{it} {self.names[it]}" for it in chairs) if chairs else none

    def verdict(self, majority: str, coalition: Collection[int]) -> dict[str, str]:
        """What the page must say of a coalition, by the parts of its table."""
        own, rest = set(coalition), set(self.votes) - set(coalition)
        wins, others_win = self.wins(majority, own), self.wins(majority, rest)
        critical = [it for it in sorted(own) if wins and not self.wins(majority, own - {it})]
        helpers = [it for it in sorted(rest) if not wins and self.wins(majority, own | {it})]
        size, yes = self.least_size(majority), {True: "yes", False: "no"}
        return {
            "outcome": "wins" if wins else "loses",
            "votes": f"{self.of(own):,}",
            "quota": f"{self.quota(majority):,}",
            "missing-votes": f"{max(0, self.quota(majority) - self.of(own)):,}",
            "chairs": str(len(own)),
            "least": str(size) if size else "none",
            "missing-chairs": str(max(0, size - len(own))),
            "critical": self.listed(critical, "none" if wins else "none: it loses"),
            "helpers": self.listed(helpers, "it wins already" if wins else "no single chair"),
            "blocks": yes[not others_win],
            "others": f"{counted(len(rest), 'chair')}, {counted(self.of(rest), 'vote')}",
            "others-win": yes[others_win],
            "others-block": yes[not wins],
        }

    def smallest(self, majority: str, chair: int) -> list[Coalition]:
        """The winning coalitions with a chair that have the least number of chairs, in order of their chairs."""
        winning = [it for it in self.coalitions() if chair in it and self.wins(majority, it)]
        return [it for it in winning if len(it) == len(winning[0])]

    def blocks(self, majority: str, coalition: Collection[int]) -> bool:
        """Whether all other chairs together lose."""
        return not self.wins(majority, set(self.votes) - set(coalition))

    def minimal(self, majority: str, chair: int, is_blocking: bool, without: int | None) -> list[Coalition]:
        """The smallest coalitions with a chair that win, or block, and don't without any of their chairs."""
        holds = self.blocks if is_blocking else self.wins
        found = [
            it
            for it in self.coalitions()
            if chair in it
            and without not in it
            and holds(majority, it)
            and not any(holds(majority, set(it) - {own}) for own in it)
        ]
        return [it for it in found if len(it) == len(found[0])]

    def smallest_of_any(self, majority: str, is_blocking: bool, without: int | None) -> list[Coalition]:
        """The smallest coalitions that win, or block, without a chair."""
        holds = self.blocks if is_blocking else self.wins
        found = [it for it in self.coalitions() if without not in it and holds(majority, it)]
        return [it for it in found if len(it) == len(found[0])]

    def fewest_blockers(self, majority: str) -> Coalition:
        """Some of the fewest chairs that block, and none of which blocks alone; empty if there are none."""
        alone = set(self.vetoes(majority) or [])
        found = [it for it in self.coalitions() if not alone & set(it) and self.blocks(majority, it)]
        return found[0] if found else ()

    def vetoes(self, majority: str) -> list[int] | None:
        """The chairs that all winning coalitions have, or None if there are no such coalitions."""
        winning = [set(it) for it in self.coalitions() if self.wins(majority, it)]
        return sorted(set.intersection(*winning)) if winning else None

    def by_size(self, majority: str) -> list[tuple[int, int]]:
        """For each size how many coalitions there are, and how many of them win."""
        many = [0] * (len(self.votes) + 1)
        for coalition in self.coalitions():
            many[len(coalition)] += self.wins(majority, coalition)
        return [(comb(len(self.votes), size), winning) for size, winning in enumerate(many)]

    def blocking_by_size(self, majority: str) -> list[int]:
        """For each size how many coalitions can block: the other chairs together lose."""
        many = [0] * (len(self.votes) + 1)
        for coalition in self.coalitions():
            many[len(coalition)] += not self.wins(majority, set(self.votes) - set(coalition))
        return many


def counted(many: int, thing: str) -> str:
    return f"{many:,} {thing}{'' if many == 1 else 's'}"


def sums_by_size(votes: list[int]) -> dict[int, list[int]]:
    """The sums of all subsets by their size, in order."""
    return {size: sorted(sum(it) for it in combinations(votes, size)) for size in range(len(votes) + 1)}


def large_by_size(board: Board, majority: str) -> list[int]:
    """The winning coalitions by size on a board with too many chairs for `by_size`: two parts of it are joined."""
    votes, quota, found = list(board.votes.values()), board.quota(majority), [0] * (len(board.votes) + 1)
    left, right = sums_by_size(votes[::2]), sums_by_size(votes[1::2])
    for own, sums in left.items():
        for other, others in right.items():
            enough = sum(len(others) - bisect_left(others, quota - it) for it in sums)
            found[own + other] += enough if own + other >= board.least_size(majority) else 0
    return found
