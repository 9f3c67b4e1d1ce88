"""Amounts of votes in a study: per cent, and votes of several members together, as whole votes."""
from __future__ import annotations

import re
from collections.abc import Mapping, Sequence
from dataclasses import dataclass
from fractions import Fraction

from .names import MEMBER_VOTES, NO_PROPORTIONS, Kind
from .results import Command, Member

DECIMAL = r"[0-9]{1,9}(?:\.[0-9]{1,9})?"
CODE = "[A-Z]{3}"
CHAIR = re.compile("chair ([1-9][0-9]?)")
PERCENT = re.compile(rf"([+-]?)({DECIMAL}) ?%( of total)?")
GROUP = re.compile(rf"{CODE}(?:\+{CODE})+|{CHAIR.pattern}")
Members = Mapping[str, Member]
OPPOSITES: dict[Kind, Kind] = {
    "open": "close",
    "close": "open",
    "suspend": "restore",
    "restore": "suspend",
    "admit": "withdraw",
}


class BadStudy(ValueError):
    """A scenario, a sweep or an option that isn't as it must be. Each line of the message is about one."""


@dataclass(frozen=True)
class Percent:
    """Votes in per cent: with a sign, a change of the present votes; without one, a share of the total."""

    sign: str
    number: str

    def __str__(self) -> str:
        return self.sign + self.number


def total_of(members: Members) -> int:
    """The total voting power: the votes of all members that aren't suspended."""
    return sum(it.votes for it in members.values() if not it.suspended)


def votes_of(members: Members, codes: Sequence[str]) -> int:
    """The votes of some members together."""
    return sum(members[code].votes for code in codes)


def percent_of(text: str) -> Percent | None:
    """The meaning of an amount in per cent, or None for another amount. One that has two meanings is refused."""
    found = PERCENT.fullmatch(text)
    if not found:
        return None
    sign, number, of_total = found.groups()
    if bool(sign) == bool(of_total):
        raise BadStudy(
            f"{text!r} has two meanings: write {number}% of total for a share of the total voting power, "
            f"or +{number}% for a change of the member's own votes"
        )
    return Percent(sign, number)


def codes_of(members: Members, who: str) -> list[str]:
    """The members that a code, several codes joined by +, or a chair names; for a chair, those whose votes count."""
    if found := CHAIR.fullmatch(who):
        codes = [code for code, it in members.items() if it.chair == int(found[1]) and not it.suspended]
        if not codes:
            raise BadStudy(f"chair {found[1]} has no member whose votes count")
        return codes
    codes = who.split("+")
    for code in codes:
        if code not in members:
            raise BadStudy(f"no member has the code {code}")
    if len(set(codes)) < len(codes):
        raise BadStudy(f"{who} names a member twice")
    return codes


def has_proportions(members: Members, codes: Sequence[str]) -> bool:
    """Whether votes can be shared out among members: one alone gets all, but several need votes for proportions."""
    return len(codes) == 1 or votes_of(members, codes) > 0


def shared_out(votes: int, weights: Mapping[str, int]) -> dict[str, int]:
    """Whole votes for members in the proportions of their weights.

    Each part is rounded down or up: the parts with the greatest remainders are rounded up until all parts add up to the
    votes. Of equal remainders, the earlier one is rounded up first.
    """
    whole = sum(weights.values())
    exact = {code: Fraction(votes * weight, whole) for code, weight in weights.items()}
    parts = {code: int(part) for code, part in exact.items()}
    order = sorted(weights, key=lambda code: parts[code] - exact[code])
    for code in order[: votes - sum(parts.values())]:
        parts[code] += 1
    return parts


def records_for(members: Members, codes: Sequence[str], votes: int) -> list[str]:
    """The records that give some members votes together, in the proportions of their present votes."""
    if not has_proportions(members, codes):
        raise BadStudy(NO_PROPORTIONS)
    whole = len(codes) == 1 or votes < 0
    parts = {codes[0]: votes} if whole else shared_out(votes, {code: members[code].votes for code in codes})
    for code, part in parts.items():
        if not 0 <= part <= MEMBER_VOTES:
            raise BadStudy(f"{code} would have {part} votes, and votes are from 0 to 2^40")
    return [f"votes,{code},{part}" for code, part in parts.items()]


def undone(members: Members, done: Command) -> list[Command]:
    """The commands that undo an accepted command, before which the members were these."""
    if kind := OPPOSITES.get(done.kind):
        return [done._replace(kind=kind, votes=None)]
    assert done.code
    before = members[done.code]
    if done.kind == "withdraw":
        suspension = [Command("suspend", done.code)] * before.suspended
        return [Command("admit", done.code, votes=before.votes), *suspension]
    if done.kind == "votes":
        return [done._replace(votes=before.votes)]
    return [done._replace(chair=before.chair)]
