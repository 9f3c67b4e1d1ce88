"""A second table as a scenario: who left, who is new, and whose votes and chair are others. The page has the same.

    >>> from voting_board.strict import read_table
    >>> from voting_board.studies import base_of
    >>> first = base_of(read_table(b"name,votes,chair\\nFrance,50,1\\nTurkey,30,2\\n"))
    >>> found = second_table(first, read_table(b"name,votes,chair\\nTurkiye,35,1\\nFrance,50,2\\n"), "Later")
    >>> found.scenario.commands
    ('votes,TUR,35',)
    >>> print(found.said[-1])
    No change says another name of a member: Turkey is Turkiye.
"""
from __future__ import annotations

from collections import Counter
from collections.abc import Iterable, Iterator, Sequence
from dataclasses import dataclass, replace
from functools import cached_property
from typing import Optional

from .answers import counted, listed
from .names import CHAIRS
from .scenarios import Scenario
from .strict import StrictMember, StrictTable, free_codes, member_key
from .studies import Base

#: A member of the base and the same member of the second table.
Pair = tuple[StrictMember, StrictMember]
#: A command, and the name of the new member that it is about, or of the chair that it opens.
Step = tuple[str, str]


@dataclass(frozen=True)
class SecondTable:
    """A second table as a scenario, and sentences: what is changed, and what no change says."""

    scenario: Scenario
    said: tuple[str, ...]


def pairs_of(members: Sequence[StrictMember], others: Sequence[StrictMember]) -> list[Pair]:
    """The same members: by name, as a country's or letter by letter; others by code, unless it was made from a name."""
    named = {member_key(it.name): it for it in members if it.name}
    by_name = [(own, it) for it in others if it.name and (own := named.pop(member_key(it.name), None))]
    met = {own.code for own, _ in by_name}, {it.code for _, it in by_name}
    coded = {it.code: it for it in members if it.code not in met[0]}
    by_code = [(coded[it.code], it) for it in others if it.code not in met[1] and it.code in coded]
    return by_name + [(own, it) for own, it in by_code if not (own.name and it.name and own.code.startswith("X"))]


def same_chairs(pairs: Iterable[Pair]) -> dict[int, int]:
    """The base's chair for each chair of the second table: the one with the most votes of members in both."""
    common, found = Counter[tuple[int, int]](), dict[int, int]()
    for own, other in pairs:
        if own.chair is not None and other.chair is not None:
            common[own.chair, other.chair] += own.votes
    # Of equal ones, that with the same number, and then the lowest.
    for mine, its in sorted(common, key=lambda it: (-common[it], it[0] if it[0] != it[1] else 0)):
        if its not in found and mine not in found.values():
            found[its] = mine
    return found


@dataclass(frozen=True)
class Both:
    """Both tables side by side. Chairs of the second one are found by their numbers in the base."""

    base: Base
    table: StrictTable

    @cached_property
    def members(self) -> list[StrictMember]:
        """The base's members."""
        given, names = self.base.register.members, self.base.members
        return [
            StrictMember(0, code, names.get(code, ""), it.votes, it.chair, it.suspended) for code, it in given.items()
        ]

    @cached_property
    def pairs(self) -> list[Pair]:
        return pairs_of(self.members, self.table.members)

    @cached_property
    def gone(self) -> list[StrictMember]:
        met = {own.code for own, _ in self.pairs}
        return [it for it in self.members if it.code not in met]

    @cached_property
    def added(self) -> list[StrictMember]:
        """The new members, each with a code that no member has who stays."""
        codes, met = {own.code for own, _ in self.pairs}, {it.code for _, it in self.pairs}
        found = list[StrictMember]()
        for it in self.table.members:
            if it.code not in met:
                code = next(free_codes(codes), "") if it.code in codes else it.code
                codes.add(code)
                found.append(replace(it, code=code))
        return found

    @cached_property
    def same(self) -> dict[int, int]:
        """The base's chair of each chair of the second table that it has."""
        return same_chairs(self.pairs)

    @cached_property
    def numbers(self) -> dict[int, int]:
        """The numbers of all chairs of the second table: those that are opened get their own if it is free."""
        found = dict(self.same)
        for it in self.table.members:
            if it.chair is not None and it.chair not in found:
                free = [one for one in (it.chair, *range(1, CHAIRS + 1)) if one not in found.values()]
                found[it.chair] = free[0]
        return found

    @cached_property
    def closed(self) -> list[int]:
        """The base's chairs that no chair of the second table is."""
        return [it for it in self.base.register.chairs if it not in self.same.values()]

    @cached_property
    def opened(self) -> list[int]:
        """The chairs of the second table, by its own numbers, that the base doesn't have."""
        return [it for it in self.numbers if it not in self.same]

    def seat(self, member: StrictMember) -> Optional[int]:
        """The chair of a member of the second table."""
        return None if member.chair is None else self.numbers[member.chair]

    def moved(self) -> list[tuple[StrictMember, StrictMember]]:
        """The members that are in another chair: one that is closed and opened again is another one."""
        return [(own, it) for own, it in self.pairs if own.chair in self.closed or own.chair != self.seat(it)]

    def steps(self) -> Iterator[Step]:
        """The commands, in an order in which the register takes them: chairs are left and closed before others are
        opened, and suspended members are restored as long as they move."""
        moves = self.moved()
        moving = {own.code for own, _ in moves}
        stays = {own.code for own, it in self.pairs if it.suspended} - moving
        restored = {it.code for it in self.members if it.suspended and it.code not in stays}
        entered = [(replace(it, chair=None, suspended=False), it) for it in self.added]
        names = {it.code: it.name for it in self.added}
        leaving = [it for it in self.gone if it.suspended] + [own for own, _ in self.pairs if own.code in restored]
        yield from ((f"restore,{it.code}", "") for it in leaving)
        yield from self.left(own for own, _ in moves)
        yield from self.given()
        for own, it in moves + entered:
            now, seat = None if own.chair in self.closed else own.chair, self.seat(it)
            if now != seat:
                yield f"move,{own.code},{seat or 'none'}", names.get(own.code, "")
        for own, it in self.pairs + entered:
            if it.suspended and (not own.suspended or own.code in restored):
                yield f"suspend,{own.code}", names.get(own.code, "")

    def left(self, moving: Iterable[StrictMember]) -> Iterator[Step]:
        """Members withdraw, and chairs are left and closed."""
        for it in self.gone:
            if it.chair is not None:
                yield f"move,{it.code},none", ""
            yield f"withdraw,{it.code}", ""
        yield from ((f"move,{it.code},none", "") for it in moving if it.chair in self.closed)
        yield from ((f"close,{it}", "") for it in self.closed)

    def given(self) -> Iterator[Step]:
        """Chairs are opened, members get their votes, and new ones are admitted."""
        yield from ((f"open,{self.numbers[it]}", self.table.names.get(it, "")) for it in self.opened)
        yield from ((f"votes,{own.code},{it.votes}", "") for own, it in self.pairs if own.votes != it.votes)
        yield from ((f"admit,{it.code},{it.votes}", it.name) for it in self.added)

    def said(self) -> Iterator[str]:
        """What is changed, and what no change says: names, and why a chair is the same."""
        other = len([own for own, it in self.pairs if own.votes != it.votes])
        changed = [f"{counted(other, 'member')} with other votes"] if other else []
        moved = [own for own, _ in self.moved()]
        for words, some in (("moved", moved), ("new", self.added), ("gone", self.gone)):
            if some:
                changed.append(f"{words}: {listed([f'{it.code} {it.name}'.strip() for it in some])}")
        for words, chairs in (("opened", self.opened), ("closed", self.closed)):
            if chairs:
                changed.append(f"{counted(len(chairs), 'chair')} {words}")
        yield f"{'; '.join(changed)}." if changed else "Votes and members are the same."
        yield "Chairs are the same where they share the most votes of members."
        given = self.base.register.chair_names
        names = [(own, given.get(own), self.table.names.get(it)) for it, own in self.same.items()]
        renamed = [f"{own} {one} is {two}" for own, one, two in sorted(names) if one and two and one != two]
        if renamed:
            yield f"No change says another name of a chair: {'; '.join(renamed)}."
        both = [(own.name, it.name) for own, it in self.pairs]
        if spelled := [f"{one} is {two}" for one, two in both if one and two and one != two]:
            yield f"No change says another name of a member: {'; '.join(spelled)}."


def second_table(base: Base, table: StrictTable, label: str) -> SecondTable:
    """A second table as commands on the base of a study.

    Members are the same by name, or else by code; chairs where they share the most votes of members.
    """
    both = Both(base, table)
    steps = [*both.steps()]
    scenario = Scenario(label, tuple(command for command, _ in steps), tuple(name for _, name in steps))
    return SecondTable(scenario, tuple(both.said()))
