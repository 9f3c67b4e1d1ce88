"""Studies: what if votes, chairs or suspensions change? Scenarios and sweeps of a register, compared with its base.

    >>> from voting_board.studies import study
    >>> table = {"code": ["AAA", "BBB", "CCC"], "votes": [50, 49, 1], "chair": [1, 2, 3]}
    >>> found = study(table, at="half", scenarios={"Less": "votes,AAA,48"}, sweeps="AAA 45..55 by 5 %")
    >>> found.results["Less"].gains("share", "half")
    {1: Fraction(-2, 5), 2: Fraction(2, 5), 3: Fraction(0, 1)}
    >>> [(it.chair, it.kind, it.begins, it.votes) for it in found.sweeps[0].thresholds][2]
    (1, 'prevents', True, 50)
"""
from __future__ import annotations

from collections import Counter
from collections.abc import Iterable, Iterator, Mapping, Sequence
from dataclasses import dataclass, field, replace
from fractions import Fraction
from functools import cached_property
from hashlib import sha256
from itertools import zip_longest
from pathlib import Path
from typing import TYPE_CHECKING, Optional, Union

from . import answers
from .amounts import BadStudy, Members, codes_of, records_for, total_of, undone, votes_of
from .many import all_processors, in_threads
from .names import MAJORITIES, Majority
from .operations import operation_of, plain_command, records_of
from .refusals import Refused
from .registers import Register
from .replays import replay_text
from .results import INDEX_NAMES, Cell, Chair, Command, IndexName, Indices
from .scenarios import BASE, Asked, Scenario, Sweep, each, scenarios_of, sweep_of
from .strict import StrictTable, read_table
from .tables import Table, columns_of, is_missing
from .values import number_of

if TYPE_CHECKING:
    from pandas import DataFrame  # type: ignore[import]


@dataclass(frozen=True)
class Base:
    """The register with which a study begins, and what its table says besides.

    register: the register; a study leaves it as it is
    members: the names of members by code
    rows: the rows of members by code, in a file
    columns: the columns of the file
    hash: the SHA-256 of the file; empty if there is none
    notices: sentences on how the file was read
    """

    register: Register
    members: dict[str, str] = field(default_factory=dict)
    rows: dict[str, int] = field(default_factory=dict)
    columns: tuple[str, ...] = ()
    hash: str = ""
    notices: tuple[str, ...] = ()


#: What a study begins with: a strict table, its path, a table of the package, a register, or a base.
Given = Union[Register, StrictTable, Path, Table, Base]


def base_of(given: Given) -> Base:
    """The base of what is given."""
    if isinstance(given, Base):
        return given
    if isinstance(given, Register):
        return Base(given.copy())
    table = read_table(given) if isinstance(given, Path) else given
    if isinstance(table, StrictTable):
        names = {it.code: it.name for it in table.members}
        rows = {it.code: it.row for it in table.members}
        return Base(table.register(), names, rows, table.columns, table.hash, table.notices)
    columns = columns_of(table)
    pairs = zip(columns.get("code", []), columns.get("name", []))
    return Base(Register(columns), {code: str(name) for code, name in pairs if not is_missing(name)})


@dataclass(frozen=True)
class Taken:
    """A command of a scenario, the register's commands for it, its operation in the page's format if it is one, and the
    name of the new member that it is about or of the chair that it opens."""

    command: str
    done: tuple[Command, ...]
    operation: Optional[dict[str, object]] = None
    name: str = ""


@dataclass(frozen=True)
class Result:
    """A register of a study: the base, that of a scenario, or a step of a sweep.

    label: the scenario's label, "base", or the sweep's subject and step, such as "XAA 10.5 %"
    indices: the counts by majority
    names: the names of chairs: as given, else of the member with the most votes and how many others there are
    taken: the commands that lead there from the base, each with the register's commands for it
    back: the register's commands that lead back
    base: the result of the base, or None in the base itself
    sweep, percent: the text of the sweep and the step's share in per cent, else empty
    votes: the votes of the sweep's subject at this step
    """

    label: str
    indices: dict[Majority, Indices]
    names: dict[int, str]
    taken: tuple[Taken, ...] = ()
    back: tuple[Command, ...] = field(default=(), repr=False)
    base: Optional[Result] = field(default=None, repr=False)
    sweep: str = ""
    percent: str = ""
    votes: int = 0

    @cached_property
    def commands(self) -> tuple[Command, ...]:
        """The register's commands that lead there from the base."""
        return tuple(it for taken in self.taken for it in taken.done)

    @cached_property
    def opened(self) -> frozenset[int]:
        """The chairs that they open, which can't be compared with the base's."""
        return frozenset(it.chair for it in self.commands if it.kind == "open" and it.chair)

    @cached_property
    def chairs(self) -> dict[Majority, dict[int, Chair]]:
        """The chairs by majority and number."""
        return {majority: {it.chair: it for it in found.chairs} for majority, found in self.indices.items()}

    def before(self, majority: Majority, chair: int) -> Optional[Chair]:
        """The base's chair with which a chair is compared; None for a new chair."""
        return None if chair in self.opened else (self.base or self).chairs[majority].get(chair)

    def gains(self, index: IndexName, majority: Majority) -> dict[int, Fraction]:
        """The exact gain of each chair over the base in an index, where both have one."""
        over, under = self.gains_over(index, majority)
        return {chair: Fraction(gain, under) for chair, gain in over.items()}

    def gains_over(self, index: IndexName, majority: Majority) -> tuple[dict[int, int], int]:
        """The gains as numerators, and their denominator."""
        found, base = self.indices[majority], (self.base or self).indices[majority]
        under, before = found.divisor(index), base.divisor(index)
        old = {it: swings for it, swings in zip(base.numbers, base.swings) if before and it not in self.opened}
        pairs = [(it, swings, old[it]) for it, swings in zip(found.numbers, found.swings) if under and it in old]
        return {it: now * before - then * under for it, now, then in pairs}, under * before

    def answers(self, index: IndexName = "share") -> list[str]:
        """Sentences on who gains and who loses most, at each majority."""
        return [answers.gain_sentence(self, majority, index) for majority in self.indices]

    def named(self, chair: int) -> str:
        """A chair by its number and name."""
        name = self.names[chair]
        return str(chair) if name == f"chair {chair}" else f"{chair} {name}"


@dataclass(frozen=True)
class Threshold:
    """The least votes of a sweep's subject from which something holds that doesn't hold with one vote less.

    majority, chair: what it is about
    kind: "prevents" (the chair has a veto) or "powerless" (it has no swing)
    begins: whether this begins to hold there, or ends
    votes: the votes
    share: these votes over the total voting power
    """

    majority: Majority
    chair: int
    kind: str
    begins: bool
    votes: int
    share: Fraction


@dataclass(frozen=True)
class Swept:
    """A sweep that was counted: its steps, the chairs of its subject, and the exact thresholds between the steps."""

    sweep: Sweep
    seats: tuple[int, ...]
    steps: tuple[Result, ...]
    thresholds: tuple[Threshold, ...]
    sides: tuple[tuple[Majority, Result], ...] = field(repr=False)

    def answers(self) -> list[str]:
        """Sentences on the thresholds, and on what holds at each step or at none, at each majority."""
        return answers.sweep_sentences(self)


@dataclass(frozen=True)
class Study:
    """A study. All its counts are the register's, its fractions are exact, and its differences are made here.

    majorities: the majorities
    base: what it began with
    results: the base, the scenarios and the steps of sweeps, by label
    scenarios: the scenarios as they were asked for
    sweeps: the sweeps
    """

    majorities: tuple[Majority, ...]
    base: Base
    results: dict[str, Result]
    scenarios: tuple[Scenario, ...]
    sweeps: tuple[Swept, ...]

    def records(self, *, floats: bool = False) -> list[dict[str, Cell]]:
        """A row for each result, majority and chair, by column: scenario, sweep, percent, majority, the fields of
        `Indices`, chair, name, weight, swings, vote_share and the indices, each followed by its difference from the
        base."""
        readings = ((it, found) for it in self.results.values() for found in it.indices.values())
        return [record_of(it, found, chair, floats) for it, found in readings for chair in found.chairs]

    def to_dataframe(self, *, floats: bool = False) -> DataFrame:
        """The records as a table of pandas. Fractions stay exact unless `floats` is given."""
        from pandas import DataFrame

        table = DataFrame(self.records(floats=floats))
        numbers = [it for name in FRACTIONS for it in (name, f"{name}_difference")]
        return table.astype(dict.fromkeys(numbers, float)) if floats and len(table) else table

    def script(self) -> str:
        """An input of `board replay` that gives the same readings: those of each result, in the order of tables, and
        then those of both sides of each threshold."""
        reads = ["publish", *(f"read,1,{it}" for it in self.majorities)]
        parts: list[list[Command | str]] = [[*it.commands, *reads, *it.back] for it in self.results.values()]
        sides = [pair for swept in self.sweeps for pair in swept.sides]
        parts += [[*it.commands, "publish", f"read,1,{majority}", *it.back] for majority, it in sides]
        return self.base.register.script() + "".join(f"{line}\n" for part in parts for line in part)

    def hashes(self) -> dict[str, str]:
        """The SHA-256 of the script, and of the lines that `board replay` prints for it."""
        script = self.script()
        lines, fault = replay_text(script)
        if fault:
            raise BadStudy(f"the script of the study has {len(script):,} bytes: {fault.reason}: ask for less at once")
        return {"script": sha256(script.encode()).hexdigest(), "lines": sha256(lines.encode()).hexdigest()}


FRACTIONS = ("vote_share", *INDEX_NAMES)


def fractions_of(indices: Indices, chair: Chair) -> list[Optional[Fraction]]:
    """A chair's share of the votes cast, and its indices."""
    share = Fraction(chair.weight, indices.cast) if indices.cast else None
    return [share, chair.banzhaf, chair.share, chair.prevent, chair.initiate]


def record_of(result: Result, found: Indices, chair: Chair, floats: bool) -> dict[str, Cell]:
    """A row of a study's data frame."""
    percent = Fraction(result.percent) if result.percent else None
    row: dict[str, Cell] = {"scenario": result.label, "sweep": result.sweep}
    row.update({"percent": float(percent) if percent and floats else percent, "majority": found.majority})
    row.update({it: getattr(found, it) for it in ("quota", "least_size", "cast", "total", "omega", "coalitions")})
    row.update({"chair": chair.chair, "name": result.names[chair.chair]})
    row.update({"weight": chair.weight, "swings": chair.swings})
    earlier = result.before(found.majority, chair.chair)
    base = (result.base or result).indices[found.majority]
    old = fractions_of(base, earlier) if earlier else [None] * len(FRACTIONS)
    for name, now, before in zip(FRACTIONS, fractions_of(found, chair), old):
        added = None if now is None or before is None else now - before
        row[name], row[f"{name}_difference"] = ((it if it is None or not floats else float(it)) for it in (now, added))
    return row


def counted(register: Register, majorities: Sequence[Majority]) -> dict[Majority, Indices]:
    """The counts of a register at some majorities."""
    if len(majorities) < 3:
        return {it: register.indices(it) for it in majorities}
    found = register.indices_of_all()
    return {it: found[it] for it in majorities}


def with_names(found: Result, moved: Moved, members: Mapping[str, str]) -> Result:
    """The result with a name for each open chair: the given one, else that of its member with the most votes, and how
    many others there are."""
    open_chairs = next(iter(found.indices.values())).numbers
    given, members = moved.register.chair_names, {**members, **moved.admitted}
    seated: dict[Optional[int], list[str]] = {chair: [] for chair in open_chairs if chair not in given}
    for code, member in moved.members.items() if seated else ():
        if member.chair in seated:
            seated[member.chair].append(code)
    for chair in open_chairs:
        if own := seated.get(chair):
            first, more = max(own, key=lambda it: moved.members[it].votes), f" and {len(own) - 1} more" * (len(own) > 1)
            given[chair] = (members.get(first) or first) + more
    return replace(found, names={chair: given.get(chair, f"chair {chair}") for chair in open_chairs})


@dataclass(frozen=True)
class Moved:
    """A register after commands of scenarios: the register, what it carried out for each, and what leads back."""

    register: Register
    taken: tuple[Taken, ...] = ()
    back: tuple[Command, ...] = ()

    @cached_property
    def members(self) -> Members:
        return self.register.members

    @property
    def admitted(self) -> dict[str, str]:
        """The names of members that were admitted, by code."""
        return {it.done[0].code or "": it.name for it in self.taken if it.name and it.done[0].kind == "admit"}

    def after(self, commands: Sequence[str], names: Sequence[str] = ()) -> Moved:
        """The register after further commands, with the names that they give. A refused one is a BadStudy."""
        register, taken, back, members = self.register.copy(), list(self.taken), list(self.back), self.members
        for number, (command, name) in enumerate(zip_longest(commands, names, fillvalue="")):
            members = register.members if number else members
            accepted = register.accepted
            try:
                operation = operation_of(command)
                data = operation.data(members) if operation else None
                for record in records_of(members, command, register.chairs):
                    register.submit(record)
            except Refused as why:
                raise BadStudy(str(why)) from None
            except BadStudy as why:
                raise BadStudy(f"{command!r}: {why}") from None
            done = register.journal[accepted:]
            if name and done[0].kind == "open":
                register.rename(done[0].chair or 0, name)
            taken.append(Taken(command, done, data, name))
            back = [*(it for one in reversed(done) for it in undone(members, one)), *back]
        return Moved(register, tuple(taken), tuple(back))


@dataclass(frozen=True)
class Counting:
    """Makes the results of a study."""

    majorities: tuple[Majority, ...]
    base: Base
    moved: dict[str, Moved] = field(default_factory=dict)
    results: dict[str, Result] = field(default_factory=dict)

    def add(self, asked: Sequence[tuple[Result, Moved]]) -> tuple[Result, ...]:
        """Counts registers, on all processors, and adds their results, which have no counts yet."""
        counts = in_threads(lambda it: counted(it[1].register, self.majorities), asked, all_processors())
        for (found, moved), indices in zip(asked, counts):
            found = replace(found, indices=indices, taken=moved.taken, back=moved.back, base=self.results.get(BASE))
            self.moved[found.label], self.results[found.label] = moved, with_names(found, moved, self.base.members)
        return tuple(self.results[found.label] for found, _ in asked)

    def scenario(self, asked: Scenario) -> tuple[Result, Moved]:
        """Carries out a scenario."""
        try:
            return Result(asked.label, {}, {}), self.moved[BASE].after(asked.commands, asked.names)
        except BadStudy as why:
            raise BadStudy(f"scenario {asked.label!r}: {why}") from None

    def sweep(self, asked: Sweep) -> Swept:
        """Counts a sweep, and finds its thresholds."""
        try:
            if asked.start not in self.moved:
                raise BadStudy(f"no scenario has the label {asked.start!r}")
            return Subject(self, asked, self.moved[asked.start]).swept()
        except BadStudy as why:
            raise BadStudy(f"sweep {asked.text!r}: {why}") from None


#: What holds for a chair at a majority, by the chair and the kind.
Kinds = dict[tuple[int, str], bool]


def kinds_of(indices: Indices, seats: Sequence[int]) -> Kinds:
    """Whether chairs of a sweep are in each coalition that wins, and whether a chair has no swing."""
    powerless = {(it.chair, "powerless"): it.swings == 0 for it in indices.chairs}
    own = [it for it in indices.chairs if it.chair in seats]
    return {(it.chair, "prevents"): 0 < it.swings == indices.omega for it in own} | powerless


@dataclass(frozen=True)
class Subject:
    """The subject of a sweep on the register where it starts."""

    counting: Counting
    asked: Sweep
    start: Moved
    known: dict[tuple[Majority, int], Kinds] = field(default_factory=dict)

    @cached_property
    def members(self) -> Members:
        return self.start.members

    @cached_property
    def codes(self) -> list[str]:
        return codes_of(self.members, self.asked.who)

    @cached_property
    def seats(self) -> tuple[int, ...]:
        """The chairs of the members."""
        for code in self.codes:
            if self.members[code].chair is None:
                raise BadStudy(f"{code} sits in no chair")
        return tuple(dict.fromkeys(self.members[code].chair or 0 for code in self.codes))

    def at(self, votes: int) -> Moved:
        """The register where the members have some votes together."""
        return self.start.after(records_for(self.members, self.codes, votes))

    def step(self, percent: str) -> tuple[Result, Moved]:
        """Carries out a step."""
        asked = self.asked
        moved = self.start.after([plain_command(f"votes,{asked.who},{percent}% of total")])
        votes = votes_of(moved.members, self.codes)
        return Result(asked.label(percent), {}, {}, sweep=asked.text, percent=percent, votes=votes), moved

    def kinds(self, majority: Majority, votes: int) -> Kinds:
        """What holds at a majority where the members have some votes."""
        key = majority, votes
        if key not in self.known:
            self.known[key] = kinds_of(self.at(votes).register.indices(majority), self.seats)
        return self.known[key]

    def threshold(self, majority: Majority, key: tuple[int, str], low: int, high: int, begins: bool) -> Threshold:
        """The threshold between two numbers of votes, by bisection."""
        while high - low > 1:
            middle = (low + high) // 2
            if self.kinds(majority, middle)[key] == begins:
                high = middle
            else:
                low = middle
        rest = total_of(self.members) - votes_of(self.members, self.codes)
        return Threshold(majority, *key, begins, high, Fraction(high, high + rest))

    def thresholds(self, steps: Sequence[Result]) -> Iterator[Threshold]:
        """The thresholds between steps with different kinds."""
        for majority in self.counting.majorities:
            kinds = [kinds_of(it.indices[majority], self.seats) for it in steps]
            for before, after, low, high in zip(kinds, kinds[1:], steps, steps[1:]):
                for key, now in after.items():
                    if before[key] != now:
                        yield self.threshold(majority, key, low.votes, high.votes, now)

    def swept(self) -> Swept:
        """The sweep with its steps and thresholds."""
        seats = self.seats
        steps = self.counting.add(list(map(self.step, self.asked.percents)))
        order = self.counting.majorities.index
        found = sorted(self.thresholds(steps), key=lambda it: (order(it.majority), it.votes))
        points = dict.fromkeys((it.majority, votes) for it in found for votes in (it.votes - 1, it.votes))
        sides = [(majority, self.at(votes)) for majority, votes in points]
        results = [(majority, Result("", {}, {}, it.taken, it.back)) for majority, it in sides]
        return Swept(self.asked, seats, steps, tuple(found), tuple(results))


def check_labels(scenarios: Sequence[Scenario], sweeps: Sequence[Sweep]) -> None:
    """Checks that no two results have one label."""
    steps = (it.label(percent) for it in sweeps for percent in it.percents)
    counts = Counter([BASE, *(it.label for it in scenarios), *steps])
    if twice := [it for it, count in counts.items() if count > 1]:
        raise BadStudy(f"two scenarios have the label {twice[0]!r} (the register of the table is {BASE!r})")


def majorities_of(at: Union[Majority, Iterable[Majority]]) -> tuple[Majority, ...]:
    """The majorities of a study, each once."""
    found: tuple[Majority, ...] = (at,) if isinstance(at, str) else tuple(at)
    for it in found:
        number_of(it)
    if not found or len(set(found)) < len(found):
        raise BadStudy(f"majorities are any of {', '.join(MAJORITIES)}, each once, not {','.join(found)!r}")
    return found


def study(
    given: Given,
    *,
    at: Union[Majority, Iterable[Majority]] = MAJORITIES,
    scenarios: Union[Mapping[str, Asked], Iterable[Union[str, Scenario]]] = (),
    sweeps: Union[str, Iterable[Union[str, Sweep]]] = (),
) -> Study:
    """Counts a register as it is, after each scenario, and at each step of each sweep.

    given: a `pathlib.Path` of a strict table, a table of the package such as a data frame, or a `Register`
    at: the majorities
    scenarios: a mapping from labels to commands, or texts "LABEL: command; command". `votes,XAB,+30%` changes votes by
        30 per cent, `votes,XAB,15% of total` gives 15 per cent of the total voting power; `XAB+XAC` and `chair 17` are
        several members, and `merge`, `dissolve`, `split`, `scale`, `share` and `move` are the page's operations
    sweeps: texts "XAA 10..20 by 0.5 %"; "from LABEL: .." starts from a scenario's register

    Raises `BadStudy`, with a line for each scenario or sweep that is wrong or refused; `BadTable` for a table.
    """
    majorities, base = majorities_of(at), base_of(given)
    asked = scenarios_of(scenarios)
    texts = [sweeps] if isinstance(sweeps, str) else sweeps
    swept_of = each(lambda it: it if isinstance(it, Sweep) else sweep_of(it), texts)
    check_labels(asked, swept_of)
    counting = Counting(majorities, base)
    counting.add([(Result(BASE, {}, {}), Moved(base.register))])
    counting.add(each(counting.scenario, asked))
    swept = each(counting.sweep, swept_of)
    return Study(majorities, base, counting.results, tuple(asked), tuple(swept))


def thresholds(
    given: Given, sweep: str, *, at: Union[Majority, Iterable[Majority]] = MAJORITIES
) -> tuple[Threshold, ...]:
    """The exact thresholds of a sweep such as "XAA 10..20 by 0.5 %", by bisection over the register."""
    return study(given, at=at, sweeps=sweep).sweeps[0].thresholds
