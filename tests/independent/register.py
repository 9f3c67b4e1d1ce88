"""The register of members, chairs and suspensions, and the records of an input, as docs/FORMATS.md and
docs/DEFINITIONS.md describe them, and nothing else of the repository."""
from __future__ import annotations

import csv
import io
import re
from collections.abc import Callable, Iterator
from dataclasses import dataclass, field
from functools import partial

MOST_BYTES = 4_194_304
MOST_MEMBERS = 256
MOST_VOTES = 1 << 40
BYTE_ORDER_MARK = b"\xef\xbb\xbf"
REFUSALS = {
    1: "ChairOpen", 2: "ChairNotOpen", 3: "ChairHasMembers", 4: "UnknownMember", 5: "MemberSuspended",
    6: "AlreadyThere", 7: "AlreadySuspended", 8: "NotSuspended", 9: "JournalFull", 12: "TooManyMembers",
    25: "MemberExists", 26: "MemberSeated",
}  # fmt: skip
FAULTS = set(
    "DuplicateMember TooManyMembers BadRecord ReadFault WriteFault BadHeader BadReader NoScript TooLong".split()
)

csv.field_size_limit(MOST_BYTES)


class Refused(Exception):
    """A command is refused, by the refusal of this number."""

    def __init__(self, number: int) -> None:
        super().__init__(number)
        self.number = number


class Fault(Exception):
    """The run ends in a fault: the record's number or 0, and the fault's name."""

    def __init__(self, record: int, name: str) -> None:
        super().__init__(record, name)
        self.record, self.name = record, name


class Malformed(Exception):
    """A record is malformed."""


@dataclass
class Member:
    """A member's votes, its chair or none, and whether it is suspended."""

    votes: int
    chair: int | None = None
    suspended: bool = False


@dataclass(frozen=True)
class Sheet:
    """The state that a publication shows: its number of commands, the total, and the weights of the open chairs."""

    front: int
    total: int
    weights: dict[int, int]


def refuse(number: int, reason: bool) -> None:
    """Refuses a command with this number if the reason holds."""
    if reason:
        raise Refused(number)


@dataclass
class Register:
    """The members in order of entry, the open chairs, the journal's limit and how many commands were accepted."""

    members: dict[str, Member]
    limit: int
    chairs: set[int] = field(default_factory=set)
    accepted: int = 0

    def member(self, code: str) -> Member:
        """The member of a code."""
        refuse(4, code not in self.members)
        return self.members[code]

    def accept(self) -> None:
        """Accepts a command that no other rule refuses."""
        refuse(9, self.accepted >= self.limit)
        self.accepted += 1

    def open(self, chair: int) -> None:
        """Opens a closed chair."""
        refuse(1, chair in self.chairs)
        self.accept()
        self.chairs.add(chair)

    def close(self, chair: int) -> None:
        """Closes an open chair without members."""
        refuse(2, chair not in self.chairs)
        refuse(3, any(member.chair == chair for member in self.members.values()))
        self.accept()
        self.chairs.remove(chair)

    def move(self, code: str, chair: int | None) -> None:
        """Moves a member to an open chair, or out of its chair."""
        member = self.member(code)
        refuse(5, member.suspended)
        refuse(2, chair is not None and chair not in self.chairs)
        refuse(6, member.chair == chair)
        self.accept()
        member.chair = chair

    def votes(self, code: str, votes: int) -> None:
        """Gives a member other votes."""
        member = self.member(code)
        self.accept()
        member.votes = votes

    def suspend(self, code: str) -> None:
        """Suspends a member's votes."""
        member = self.member(code)
        refuse(7, member.suspended)
        self.accept()
        member.suspended = True

    def restore(self, code: str) -> None:
        """Ends a suspension."""
        member = self.member(code)
        refuse(8, not member.suspended)
        self.accept()
        member.suspended = False

    def admit(self, code: str, votes: int) -> None:
        """Enters a new member."""
        refuse(25, code in self.members)
        refuse(12, len(self.members) >= MOST_MEMBERS)
        self.accept()
        self.members[code] = Member(votes)

    def withdraw(self, code: str) -> None:
        """Takes out a member that sits in no chair."""
        refuse(26, self.member(code).chair is not None)
        self.accept()
        del self.members[code]

    def sheet(self) -> Sheet:
        """The sheet of the commands accepted so far."""
        voting = [member for member in self.members.values() if not member.suspended]
        weights = {chair: sum(m.votes for m in voting if m.chair == chair) for chair in sorted(self.chairs)}
        return Sheet(self.accepted, sum(member.votes for member in voting), weights)


def records_of(given: bytes | None) -> Iterator[tuple[int, list[str]]]:
    """The records with their numbers. Python's csv module cuts them as FORMATS says, if only CR, LF and CRLF end lines,
    a byte is a character, and a line without fields isn't counted."""
    if given is None:
        raise Fault(0, "ReadFault")
    if len(given) > MOST_BYTES:
        raise Fault(0, "TooLong")
    text = given.removeprefix(BYTE_ORDER_MARK).decode("latin-1")
    return enumerate(filter(None, csv.reader(io.StringIO(text, newline=""))), 1)


def number_of(word: str, least: int = 0, most: int = (1 << 64) - 1) -> int:
    """A number of one to twenty digits, in a range."""
    if not re.fullmatch("[0-9]{1,20}", word) or not least <= int(word) <= most:
        raise Malformed(word)
    return int(word)


def code_of(word: str) -> str:
    """A member's code: three capitals."""
    if not re.fullmatch("[A-Z]{3}", word):
        raise Malformed(word)
    return word


def command_of(fields: list[str]) -> Callable[[Register], None]:
    """The command of a record."""
    match fields:
        case ["open", chair]:
            return partial(Register.open, chair=number_of(chair, 1, 32))
        case ["close", chair]:
            return partial(Register.close, chair=number_of(chair, 1, 32))
        case ["move", code, "none"]:
            return partial(Register.move, code=code_of(code), chair=None)
        case ["move", code, chair]:
            return partial(Register.move, code=code_of(code), chair=number_of(chair, 1, 32))
        case ["votes", code, votes]:
            return partial(Register.votes, code=code_of(code), votes=number_of(votes, 0, MOST_VOTES))
        case ["suspend", code]:
            return partial(Register.suspend, code=code_of(code))
        case ["restore", code]:
            return partial(Register.restore, code=code_of(code))
        case ["admit", code, votes]:
            return partial(Register.admit, code=code_of(code), votes=number_of(votes, 0, MOST_VOTES))
        case ["withdraw", code]:
            return partial(Register.withdraw, code=code_of(code))
        case _:
            raise Malformed(fields)


def line_of(register: Register, command: Callable[[Register], None]) -> str:
    """Carries out a command; its line."""
    try:
        command(register)
    except Refused as refused:
        return f"refused,{refused.number},{REFUSALS[refused.number]}"
    return f"accepted,{register.accepted}"


def member_of(record: int, fields: list[str]) -> tuple[str, Member]:
    """The member of a record above the mark."""
    try:
        code, votes = fields
        return code_of(code), Member(number_of(votes, 0, MOST_VOTES))
    except (Malformed, ValueError):
        raise Fault(record, "BadRecord") from None


def opening_of(records: Iterator[tuple[int, list[str]]]) -> dict[str, Member]:
    """The members down to the mark."""
    if next(records, (0, []))[1] != ["member", "votes"]:
        raise Fault(0, "BadHeader")
    members: list[tuple[str, Member]] = []
    for record, fields in records:
        if fields == ["script"]:
            break
        if len(members) == MOST_MEMBERS:
            raise Fault(0, "TooManyMembers")
        members.append(member_of(record, fields))
    else:
        raise Fault(0, "NoScript")
    if len(dict(members)) < len(members):
        raise Fault(0, "DuplicateMember")
    return dict(members)
