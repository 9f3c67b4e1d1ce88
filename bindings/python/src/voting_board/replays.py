"""The replay of a script: as data, outcome by outcome, or as the text that `board replay` prints."""
from __future__ import annotations

from collections.abc import Iterator
from ctypes import byref, c_char, c_uint32, c_uint64
from dataclasses import dataclass, field
from typing import Optional

from .library import COUNT_WORDS, Handle, long, rooms, short
from .names import COMMANDS, MAJORITIES, PUBLISH, READ
from .refusals import check_done, name_of, reason_of
from .registers import Register
from .results import Accepted, Fault, IndicesFields, Outcome, Published, Reading, Refusal, fields_in
from .scripts import (
    KIND,
    RECORD,
    Records,
    Script,
    apply,
    check_memory,
    command_at,
    command_of,
    read_records,
    script_of,
    started,
)
from .values import Whole, journal_of, readers_of


@dataclass(frozen=True)
class Replay:
    """A replay as data. Each iteration carries the script out from its start, record by record, and yields an
    `Accepted`, `Refusal`, `Published` or `Reading` for each; the memory does not grow with their number.

    script: the bytes of the script
    readers: how many readers there are
    journal: how many commands are accepted at most
    fault: the fault that ends the run, or None
    """

    script: bytes = field(repr=False)
    readers: int
    journal: int
    fault: Optional[Fault] = field(compare=False)
    _records: Records = field(repr=False, compare=False)

    def __iter__(self) -> Iterator[Outcome]:
        records = self._records
        if not records.count:
            return
        handle, accepted, front = started(records.members, self.journal), c_uint32(), c_uint32()
        counted: dict[int, IndicesFields] = {}
        for at, (kind, record, place) in enumerate(zip(records.words(KIND), records.words(RECORD), records.places())):
            if kind == READ:
                item = records.items[at]
                if item.majority not in counted:
                    counted[item.majority] = read(handle, item.majority)
                yield Reading(*counted[item.majority], item.reader, front.value, record)
            elif kind == PUBLISH:
                check_done(short.board_register_publish(handle.words, byref(front)))
                counted.clear()
                yield Published(record, front.value)
            elif number := apply(handle, place, accepted):
                command = command_of(command_at(place))
                yield Refusal(record, number, name_of(number), reason_of(number), command)
            else:
                yield Accepted(record, accepted.value)

    @property
    def readings(self) -> tuple[Reading, ...]:
        """All readings, in their order. They stay in memory: iterate over the replay if there are very many."""
        return tuple(it for it in self if isinstance(it, Reading))

    @property
    def refused(self) -> tuple[Refusal, ...]:
        """All commands that were refused, in their order."""
        return tuple(it for it in self if isinstance(it, Refusal))

    def register(self) -> Register:
        """The register as the run leaves it. Raises `Refused` if there is none, since its members have a fault."""
        records = self._records
        if self.fault and not records.count:
            check_done(self.fault.number)
        handle, accepted = started(records.members, self.journal), c_uint32()
        for kind, place in zip(records.words(KIND), records.places()):
            if kind == PUBLISH:
                check_done(short.board_register_publish(handle.words, byref(accepted)))
            elif kind != READ:
                apply(handle, place, accepted)
        return Register._of(handle, self.journal)

    def __reduce__(self) -> tuple[object, ...]:
        return made, (self.script, self.readers, self.journal)


def read(handle: Handle, majority: int) -> IndicesFields:
    """The counts of what was published last."""
    found = (c_uint64 * COUNT_WORDS)()
    check_done(long.board_register_read(handle.words, majority, rooms.room, found))
    return fields_in(found, MAJORITIES[majority], {})


def fault_of(number: int, record: int) -> Optional[Fault]:
    """The fault of a number, or None for 0."""
    return Fault(record, number, name_of(number), reason_of(number)) if number else None


def made(script: bytes, readers: int, journal: int) -> Replay:
    """The replay of a script within limits that are checked."""
    records = read_records(script, readers)
    return Replay(script, readers, journal, fault_of(records.fault, records.fault_record), records)


def replay(script: Script, *, readers: Whole = 1, journal: Whole = COMMANDS) -> Replay:
    """Replays a script, an input of `board replay`, as data. The script is read at once, and carried out while you
    iterate.

        >>> run = replay("member,votes\\nAAA,50\\nscript\\nopen,1\\nmove,AAA,1\\npublish\\nread,1,half\\nopen,1\\n")
        >>> [type(it).__name__ for it in run]
        ['Accepted', 'Accepted', 'Published', 'Reading', 'Refusal']
        >>> print(run.fault, run.readings[0].omega, run.refused[0].reason, sep=", ")
        None, 1, the chair is open already

    script: text, bytes, or a pathlib.Path of a file; at most 4,194,304 bytes
    readers: the number of readers, from 1 to 4
    journal: the most commands that are accepted, from 1 to 1,000,000

    A refused command and a fault are parts of the replay. Raises `Refused`, BadLimit, for other readers and journals;
    a ValueError for text of a single line, which can be no script, and an OSError for a file that can't be read.
    """
    return made(script_of(script), readers_of(readers), journal_of(journal))


def replay_text(script: Script, *, readers: Whole = 1, journal: Whole = COMMANDS) -> tuple[str, Optional[Fault]]:
    """Replays a script, and returns the text that `board replay` prints, and the fault that ends the run, or None.

    It takes and refuses what `replay` does. It runs to its end without a break: where that may take long, or the text
    is large, iterate over `replay`.
    """
    given, limits = script_of(script), (readers_of(readers), journal_of(journal))
    length, record = c_uint64(), c_uint32()
    check_memory(long.board_replay_length(given, len(given), *limits, byref(length), byref(record)))
    text = bytearray(length.value)
    out = (c_char * len(text)).from_buffer(text)
    room = out, len(text), byref(length), byref(record)
    number = check_memory(long.board_replay(given, len(given), *limits, *room))
    return text.decode("ascii"), fault_of(number, record.value)
