"""The two-copy machine as docs/FORMATS.md describes it, and the lines of `board trace`."""
from __future__ import annotations

from collections.abc import Callable, Iterator
from dataclasses import dataclass

from tests.independent.register import (
    Fault, Malformed, Register, Sheet, command_of, line_of, number_of, opening_of, records_of,
)  # fmt: skip

WORDS = 34
MOST_STEPS = 1_000


@dataclass
class Reader:
    """A reader: the steps of its reading that it has made, none at rest, and the sheet that it found."""

    made: int = 0
    found: Sheet | None = None


@dataclass
class Machine:
    """The register, what is published, the readers by number, which of them are quiescent, and the sheet of the
    publication that the writer is in, if any, with the number of its words that are stored.
    """

    register: Register
    published: Sheet
    readers: dict[int, Reader]
    quiescent: set[int]
    taken: Sheet | None = None
    stored: int = 0

    def submit(self, command: Callable[[Register], None]) -> str:
        """Submits a command."""
        return "skipped" if self.taken else line_of(self.register, command)

    def publish(self) -> str:
        """Begins a publication."""
        if self.taken:
            return "skipped"
        if self.register.accepted == self.published.front:
            return f"published,{self.published.front}"
        self.taken, self.stored = self.register.sheet(), 0
        return "began"

    def write(self) -> str | None:
        """A step of the writer."""
        if self.taken is None:
            return "skipped"
        if seen := sorted(self.readers.keys() - self.quiescent):
            if self.readers[seen[0]].made:
                self.taken = None
                return f"busy,{seen[0]}"
            self.quiescent.add(seen[0])
        elif self.stored < WORDS:
            self.stored += 1
        else:
            self.published, self.taken, self.quiescent = self.taken, None, set()
            return f"published,{self.published.front}"
        return None

    def read(self, number: int) -> str | None:
        """A step of a reader."""
        reader = self.readers[number]
        reader.made += 1
        if reader.made == 2:
            reader.found = self.published
        if reader.made < WORDS + 3 or reader.found is None:
            return None
        found, self.readers[number] = reader.found, Reader()
        return f"sheet,{number},{found.front},{sum(found.weights.values())},{found.total}"


def lines_of(machine: Machine, record: int, fields: list[str]) -> Iterator[str | None]:
    """The lines of the events of a record."""
    match fields:
        case ["submit", *command]:
            yield machine.submit(command_of(command))
        case ["publish"]:
            yield machine.publish()
        case ["writer", count]:
            for _ in range(number_of(count, 1, MOST_STEPS)):
                yield machine.write()
        case ["reader", reader, count]:
            number, steps = number_of(reader), number_of(count, 1, MOST_STEPS)
            if number not in machine.readers:
                raise Fault(record, "BadReader")
            for _ in range(steps):
                yield machine.read(number)
        case _:
            raise Malformed(fields)


def trace(given: bytes | None, readers: int, journal: int) -> Iterator[str]:
    """The lines of a schedule, up to its fault."""
    records = records_of(given)
    register = Register(opening_of(records), journal)
    all_readers = {number: Reader() for number in range(1, readers + 1)}
    machine = Machine(register, register.sheet(), all_readers, set(all_readers))
    for record, fields in records:
        try:
            yield from filter(None, lines_of(machine, record, fields))
        except Malformed:
            raise Fault(record, "BadRecord") from None
