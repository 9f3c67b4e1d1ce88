"""What the calls return: the power of a board and of each chair, members, commands, and the outcomes of a replay."""
from __future__ import annotations

import ctypes
from collections.abc import Iterable, Mapping
from dataclasses import dataclass, field
from fractions import Fraction
from functools import cached_property
from html import escape
from typing import TYPE_CHECKING, Any, Literal, NamedTuple, Optional, Union

from .library import FIRST_ROW, ROW_WORDS
from .names import ALLOWED, BAD_CHAIR, BAD_RECORD, CHAIRS, KINDS, Kind, Majority
from .refusals import Refused
from .values import Whole, chair_of, code_of, votes_of, whole

if TYPE_CHECKING:
    from matplotlib.axes import Axes  # type: ignore[import]
    from pandas import DataFrame  # type: ignore[import]

IndexName = Literal["banzhaf", "share", "prevent", "initiate"]
INDEX_NAMES: tuple[IndexName, ...] = ("banzhaf", "share", "prevent", "initiate")
Cell = Union[int, float, str, Fraction, None]


@dataclass(frozen=True)
class Chair:
    """The voting power of a chair. The indices are exact fractions, computed when they are asked for.

    chair: its number, from 1
    name: its name, or None
    weight: the votes that it casts as one block
    swings: how many sets of the other open chairs lose, and win once it is added
    """

    chair: int
    name: Optional[str]
    weight: int
    swings: int
    _divisors: tuple[int, ...] = field(repr=False)

    def _over(self, index: IndexName) -> Optional[Fraction]:
        divisor = self._divisors[INDEX_NAMES.index(index)]
        return Fraction(self.swings, divisor) if divisor else None

    @property
    def banzhaf(self) -> Fraction:
        """The Banzhaf measure: its swings over the number of all sets of the other chairs."""
        return self._over("banzhaf") or Fraction(0)

    @property
    def share(self) -> Optional[Fraction]:
        """The normalised Banzhaf index: its part of all chairs' swings; None if no chair has a swing."""
        return self._over("share")

    @property
    def prevent(self) -> Optional[Fraction]:
        """Coleman's power to prevent action: its swings over the coalitions that win; None if none wins."""
        return self._over("prevent")

    @property
    def initiate(self) -> Fraction:
        """Coleman's power to initiate action: its swings over the coalitions that lose."""
        return self._over("initiate") or Fraction(0)


@dataclass(frozen=True, repr=False)
class Indices:
    """The voting power of a board by a majority: what wins, and how often each chair is decisive. It is shown as a
    table, also in notebooks.

    majority: "half", "70", "85" or "quorum"
    quota: the least weight that can win, in votes
    least_size: the least number of chairs that can win; 0 if the majority requires none
    cast: the votes of all open chairs together
    total: the total voting power, in votes
    omega: the number of winning coalitions
    coalitions: the number of all coalitions, 2 to the power of the number of chairs
    numbers: the numbers of the open chairs, ascending
    weights: the weight of each of them, in votes
    swings: the swings of each of them
    names: the name of each of them, or None
    """

    majority: Majority
    quota: int
    least_size: int
    cast: int
    total: int
    omega: int
    coalitions: int
    numbers: tuple[int, ...]
    weights: tuple[int, ...]
    swings: tuple[int, ...]
    names: tuple[Optional[str], ...]

    @cached_property
    def chairs(self) -> tuple[Chair, ...]:
        """The open chairs by number, each with its weight, swings and indices."""
        divisors = tuple(self.divisor(index) for index in INDEX_NAMES)
        rows = zip(self.numbers, self.names, self.weights, self.swings)
        return tuple(Chair(*row, divisors) for row in rows)

    def chair(self, which: Union[int, str]) -> Chair:
        """The open chair of a number or of a name. A KeyError if no chair has it, or several have this name."""
        keys: tuple[object, ...] = self.names if isinstance(which, str) else self.numbers
        if (many := keys.count(which)) != 1:
            raise KeyError(f"{many} chairs have the {'name' if isinstance(which, str) else 'number'} {which!r}")
        return self.chairs[keys.index(which)]

    @property
    def act(self) -> Fraction:
        """Coleman's power of the board to act: the winning coalitions over all coalitions."""
        return Fraction(self.omega, self.coalitions)

    def divisor(self, index: IndexName) -> int:
        """What the swings are divided by for an index: 0 if the index is None."""
        if index == "banzhaf":
            return self.coalitions // 2
        if index == "share":
            return sum(self.swings)
        return self.omega if index == "prevent" else self.coalitions - self.omega

    def values(self, index: IndexName) -> list[float]:
        """An index of each chair as a float; nan where it is None. An unknown index is a ValueError."""
        if index not in INDEX_NAMES:
            raise ValueError(f"no index {index!r}: {', '.join(INDEX_NAMES)}")
        divisor = self.divisor(index)
        return [it / divisor if divisor else float("nan") for it in self.swings]

    def records(self, *, floats: bool = False) -> list[dict[str, Cell]]:
        """A row for each chair, by column: chair, name (if any chair has one), weight, swings, banzhaf, share, prevent,
        initiate. With `floats` the fractions are floats, so that JSON takes them."""
        columns = ["chair", *(["name"] if any(self.names) else []), "weight", "swings", *INDEX_NAMES]
        rows: list[dict[str, Cell]] = [{name: getattr(chair, name) for name in columns} for chair in self.chairs]
        if floats:
            rows = [{name: float(it) if isinstance(it, Fraction) else it for name, it in row.items()} for row in rows]
        return rows

    def to_dataframe(self, *, floats: bool = False) -> DataFrame:
        """The records as a table of pandas, a row for each chair. Fractions stay exact unless `floats` is given."""
        from pandas import DataFrame

        columns = ["chair", *(["name"] if any(self.names) else []), "weight", "swings", *INDEX_NAMES]
        table = DataFrame(self.records(floats=floats), columns=columns)
        return table.astype(dict.fromkeys(INDEX_NAMES, float)) if floats else table

    def _headline(self) -> str:
        size = f" of {self.least_size} chairs or more" if self.least_size else ""
        votes = f"{self.quota} of {self.total} votes{size} win"
        return f"Majority {self.majority}: {votes}, {self.omega} of {self.coalitions} coalitions do"

    def _cells(self) -> list[tuple[str, ...]]:
        """The table as texts, with its heading. Indices have six decimals."""
        columns: list[tuple[str, Iterable[object]]] = [("chair", self.numbers)]
        if any(self.names):
            columns.append(("name", [name or "" for name in self.names]))
        columns += [("weight", self.weights), ("swings", self.swings)]
        for index in INDEX_NAMES:
            columns.append((index, ["-" if it != it else f"{it:.6f}" for it in self.values(index)]))
        return [tuple(name for name, _ in columns), *zip(*(map(str, cells) for _, cells in columns))]

    def __repr__(self) -> str:
        rows = self._cells()
        widths = [max(map(len, column)) for column in zip(*rows)]
        lines = ["  ".join(cell.rjust(width) for cell, width in zip(row, widths)) for row in rows]
        return "\n".join([self._headline(), *lines])

    def _repr_html_(self) -> str:
        """The table in a notebook."""
        head, *rows = ["".join(f"<td>{escape(cell)}</td>" for cell in row) for row in self._cells()]
        body = "".join(f"<tr>{row}</tr>" for row in rows)
        head = head.replace("td>", "th>")
        return f"<p>{self._headline()}</p><table><thead><tr>{head}</tr></thead><tbody>{body}</tbody></table>"

    def plot(self, index: IndexName = "share", ax: Optional[Axes] = None) -> Axes:
        """Draws a bar for an index of each chair by matplotlib, into `ax` or a new figure, and returns the axes."""
        heights = self.values(index)
        if ax is None:
            from matplotlib import pyplot  # type: ignore[import]

            ax = pyplot.subplots()[1]
        ax.bar(range(len(heights)), heights)
        labels = [name or str(number) for name, number in zip(self.names, self.numbers)]
        ax.set_xticks(range(len(heights)), labels, rotation=90 if any(self.names) else 0)
        ax.set_xlabel("chair")
        ax.set_ylabel(index)
        ax.set_title(f"majority: {self.majority}")
        return ax


@dataclass(frozen=True, repr=False)
class Reading(Indices):
    """A reader's reading in a replay: the voting power in the register that was published last.

    It has the fields of `Indices`, and:

    reader: the number of the reader, from 1
    front: the number of commands in what it saw
    record: the number of its record, from 1
    """

    reader: int
    front: int
    record: int

    def _headline(self) -> str:
        place = f"Record {self.record}, reader {self.reader}, after {self.front} commands"
        return f"{place}. {super()._headline()}"


Wholes = tuple[int, ...]
IndicesFields = tuple[Majority, int, int, int, int, int, int, Wholes, Wholes, Wholes, tuple[Optional[str], ...]]


def fields_in(words: ctypes.Array[ctypes.c_uint64], majority: Majority, names: Mapping[int, str]) -> IndicesFields:
    """The fields of `Indices` from the words of a board_counts."""
    quota, least_size, cast, total, chairs, omega, coalitions = words[:FIRST_ROW]
    rows = words[FIRST_ROW : FIRST_ROW + ROW_WORDS * chairs]
    numbers = tuple(rows[0::ROW_WORDS])
    known = tuple(map(names.get, numbers)) if names else (None,) * chairs
    weights, swings = tuple(rows[1::ROW_WORDS]), tuple(rows[2::ROW_WORDS])
    return majority, quota, least_size, cast, total, omega, coalitions, numbers, weights, swings, known


@dataclass(frozen=True)
class Member:
    """A member of a board or a register, and a row of a table.

    votes: its votes, also while it is suspended
    chair: the number of its chair, or None
    suspended: whether its voting rights are suspended
    """

    votes: int
    chair: Optional[int] = None
    suspended: bool = False


class CommandParts(NamedTuple):
    """The parts of a command, which are not checked."""

    kind: Kind
    code: Optional[str] = None
    chair: Optional[int] = None
    votes: Optional[int] = None


class Command(CommandParts):
    """A command of a register, a named tuple. As text, `str(command)`, it is a record such as "move,AAA,3".

    kind: "open", "close", "move", "votes", "suspend", "restore", "admit" or "withdraw"
    code: the code of a member, or None for "open" and "close"
    chair: the number of a chair, or None; "move" to None takes a member out of its chair
    votes: the votes of "votes" and "admit", else None

    Its parts are checked when it is made. Raises `Refused`: BadRecord for an unknown kind, BadMember, BadChair,
    BadRecord or VotesTooLarge for a part. A part of a wrong type, one that the kind needs and hasn't, and one that it
    doesn't take are a TypeError.
    """

    __slots__ = ()

    def __new__(
        cls, kind: Kind, code: Optional[str] = None, chair: Optional[Whole] = None, votes: Optional[Whole] = None
    ) -> Command:
        return super().__new__(cls, *parts_of(kind, code, chair, votes))

    @classmethod
    def _make(cls, iterable: Iterable[Any]) -> Command:  # type: ignore[override]
        return cls(*iterable)

    def __str__(self) -> str:
        parts = [getattr(self, part) for part in KINDS[self.kind]]
        return ",".join([self.kind, *("none" if it is None else str(it) for it in parts)])


def parts_of(kind: Kind, code: object, chair: object, votes: object) -> CommandParts:
    """The parts of a command, checked."""
    if kind not in KINDS:
        raise Refused(BAD_RECORD, f"no command {kind!r}: {', '.join(KINDS)}")
    parts = KINDS[kind]
    for name, value in (("code", code), ("chair", chair), ("votes", votes)):
        if name not in parts and value is not None:
            raise TypeError(f"the command {kind!r} has no {name}: its parts are {', '.join(parts)}")
    if "code" in parts:
        code = code_of(code)
    if kind == "move" and chair is not None:
        chair = whole(chair, "the chair is", ALLOWED["seat"], BAD_CHAIR, 1, CHAIRS)
    elif kind != "move" and "chair" in parts:
        chair = chair_of(chair)
    if "votes" in parts:
        votes = votes_of(votes, f"the votes of {code} are")
    return CommandParts(kind, code, chair, votes)  # type: ignore[arg-type]


@dataclass(frozen=True)
class Accepted:
    """A command that a replay accepted.

    record: the number of its record, from 1
    number: how many commands are accepted with it
    """

    record: int
    number: int


@dataclass(frozen=True)
class Published:
    """A publication of a replay.

    record: the number of its record, from 1
    number: how many commands are published
    """

    record: int
    number: int


@dataclass(frozen=True)
class Refusal:
    """A command that a replay refused; the register is unchanged.

    record: the number of its record, from 1
    number: the number of the refusal, such as 2
    name: its name, such as "ChairNotOpen"
    reason: its reason in words
    command: the command
    """

    record: int
    number: int
    name: str
    reason: str
    command: Command


@dataclass(frozen=True)
class Fault:
    """The fault that ends a replay.

    record: the number of its record, from 1, or 0 if it has none
    number: the number of the fault, such as 17
    name: its name, such as "BadRecord"
    reason: its reason in words
    """

    record: int
    number: int
    name: str
    reason: str


#: An outcome of a record of a replay.
Outcome = Union[Accepted, Refusal, Published, Reading]
