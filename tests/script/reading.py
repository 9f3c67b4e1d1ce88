"""What is read of a script as data, over the rules of tests/independent: members, items, their bytes, and the fault."""
from __future__ import annotations

import csv
import io
from collections.abc import Iterator
from dataclasses import dataclass, field

from tests.independent.counts import CLAUSES
from tests.independent.register import BYTE_ORDER_MARK, MOST_BYTES, MOST_MEMBERS, MOST_VOTES
from tests.independent.register import Fault, Malformed, code_of, number_of

MAJORITIES = list(CLAUSES)
READERS, CHAIRS = 4, 32


@dataclass
class Reading:
    """What is read of an input: its members, its items, and the fault's name and its record, or an empty name and 0."""

    members: list[tuple[str, int]] = field(default_factory=list)
    items: list[tuple[object, ...]] = field(default_factory=list)
    fault: str = ""
    record: int = 0


def placed_records(given: bytes) -> Iterator[tuple[list[str], int, int]]:
    """The records as tests/independent reads them, and the bytes of each, without the end of its line."""
    if len(given) > MOST_BYTES:
        raise Fault(0, "TooLong")
    text = given.removeprefix(BYTE_ORDER_MARK).decode("latin-1")
    start = end = len(given) - len(text)

    def lines() -> Iterator[str]:
        nonlocal end
        for line in io.StringIO(text, newline=""):
            end += len(line)
            yield line

    for fields in csv.reader(lines()):
        if fields:
            yield fields, start, start + len(given[start:end].rstrip(b"\r\n"))
        start = end


def votes_of(word: str) -> int:
    return number_of(word, 0, MOST_VOTES)


def chair_of(word: str) -> int:
    return number_of(word, 1, CHAIRS)


def request(fields: list[str], record: int, readers: int) -> tuple[int, str, int, int, int, int]:
    """The kind, code, chair, votes, reader and majority of a record of the script."""
    match fields:
        case ["open", chair]:
            return 0, "", chair_of(chair), 0, 0, 0
        case ["close", chair]:
            return 1, "", chair_of(chair), 0, 0, 0
        case ["move", code, "none"]:
            return 2, code_of(code), 0, 0, 0, 0
        case ["move", code, chair]:
            return 2, code_of(code), chair_of(chair), 0, 0, 0
        case ["votes", code, votes]:
            return 3, code_of(code), 0, votes_of(votes), 0, 0
        case ["suspend", code]:
            return 4, code_of(code), 0, 0, 0, 0
        case ["restore", code]:
            return 5, code_of(code), 0, 0, 0, 0
        case ["admit", code, votes]:
            return 6, code_of(code), 0, votes_of(votes), 0, 0
        case ["withdraw", code]:
            return 7, code_of(code), 0, 0, 0, 0
        case ["publish"]:
            return 8, "", 0, 0, 0, 0
        case ["read", reader, majority] if majority in MAJORITIES:
            if not 1 <= (number := number_of(reader)) <= readers:
                raise Fault(record, "BadReader")
            return 9, "", 0, 0, number, MAJORITIES.index(majority)
    raise Malformed(fields)


def read_members(records: Iterator[tuple[int, list[str]]], found: Reading) -> None:
    """Reads the members up to the mark, which is the last record that is taken."""
    for record, fields in records:
        if fields == ["script"]:
            break
        if len(found.members) == MOST_MEMBERS:
            raise Fault(0, "TooManyMembers")
        try:
            code, votes = fields
            found.members.append((code_of(code), votes_of(votes)))
        except ValueError:
            raise Malformed(fields) from None
    else:
        raise Fault(0, "NoScript")
    if len(dict(found.members)) < len(found.members):
        raise Fault(0, "DuplicateMember")


def reading(given: bytes, readers: int) -> Reading:
    """All that is read of an input."""
    found, record = Reading(), 0
    places: dict[int, tuple[int, int]] = {}

    def numbered() -> Iterator[tuple[int, list[str]]]:
        nonlocal record
        for record, (fields, start, end) in enumerate(placed_records(given), 1):
            places[record] = start, end
            yield record, fields

    try:
        if not 1 <= readers <= READERS:
            raise Fault(0, "BadLimit")
        records = numbered()
        if next(records, (0, []))[1] != ["member", "votes"]:
            raise Fault(0, "BadHeader")
        read_members(records, found)
        for number, fields in records:
            found.items.append((number, *request(fields, number, readers), *places[number]))
    except Malformed:
        found.fault, found.record = "BadRecord", record
    except Fault as fault:
        found.fault, found.record = fault.name, fault.record
    return found


def is_alone(given: bytes, item: tuple[object, ...], readers: int) -> bool:
    """Whether an item's bytes, read as a text of their own, are one record, and its request the item's."""
    number, *parts, start, end = item
    assert isinstance(number, int) and isinstance(start, int) and isinstance(end, int)
    rows = [row for row in csv.reader(io.StringIO(given[start:end].decode("latin-1"), newline="")) if row]
    return len(rows) == 1 and list(request(rows[0], number, readers)) == parts
