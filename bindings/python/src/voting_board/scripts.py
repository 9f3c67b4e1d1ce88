"""Scripts as data: the library reads the records, and its numbers and offsets are passed on."""
from __future__ import annotations

import os
import re
from collections.abc import Iterator
from ctypes import addressof, byref, c_size_t, c_uint32, sizeof
from dataclasses import dataclass
from pathlib import Path
from reprlib import repr
from typing import Any, Union

from .chair_names import ChairNames
from .library import CommandWords, Entry, Handle, Item, long, short
from .names import INPUT_BYTES, KINDS, MEMBERS, OUT_OF_MEMORY, TOO_LONG, TRAPPED
from .refusals import check_done, refusal_of
from .results import Command
from .values import text_of

Script = Union[str, bytes, "os.PathLike[str]"]
#: What stands before records that are read without members, and the number of its records.
PREFIX, PREFIX_RECORDS = b"member,votes\nscript\n", 2
LINE_ENDS = re.compile(rb"[\r\n]*")
LINE = re.compile(rb"[^\r\n]*")
WORDS = tuple(KINDS)
#: The 32-bit words of an item, and where its kind and its number are.
ITEM_WORDS, KIND, RECORD = sizeof(Item) // 4, 0, 6


def script_of(script: Script) -> bytes:
    """The bytes of a script, which is given as text, or by the path of its file."""
    if isinstance(script, os.PathLike):
        return Path(script).read_bytes()
    if isinstance(script, str) and script and "\n" not in script and "\r" not in script:
        hint = f"a file is given as pathlib.Path({repr(script)})"
        raise ValueError(f"the script is {repr(script)}, a single line: {hint}")
    return text_of(script, "the script is")


@dataclass(frozen=True)
class Records:
    """An input as the library read it: the members with which it begins, and the records of its script."""

    members: Any
    items: Any
    count: int
    fault: int
    fault_record: int
    _words: memoryview

    def words(self, at: int) -> Iterator[int]:
        """A 32-bit word of each item."""
        return iter(self._words[at::ITEM_WORDS])

    def places(self) -> range:
        """The address of each item's command."""
        first, size = addressof(self.items), sizeof(Item)
        return range(first, first + self.count * size, size)


def read_records(text: bytes, readers: int) -> Records:
    """Reads an input, in exactly the room that its records need."""
    members_count, count, record = c_size_t(), c_size_t(), c_uint32()
    counts = byref(count), byref(record)
    check_memory(long.board_script(text, len(text), readers, None, 0, byref(members_count), None, 0, *counts))
    members = (Entry * min(members_count.value, MEMBERS))()
    words = bytearray(count.value * sizeof(Item))
    items = (Item * count.value).from_buffer(words)
    rooms = members, len(members), byref(members_count), items, len(items)
    fault = check_memory(long.board_script(text, len(text), readers, *rooms, *counts))
    return Records(members, items, count.value, fault, record.value, memoryview(words).cast("I"))


def check_memory(number: int) -> int:
    """The number of a fault of an input; one of the machine is raised."""
    if number in (OUT_OF_MEMORY, TRAPPED):
        raise refusal_of(number)
    return number


@dataclass(frozen=True)
class Piece:
    """A part of a text whose records are whole.

    kept: how many of its items are whole
    at: the offset of its own bytes in the text
    head: how many bytes stand before them, of which an item's offset is counted
    shift: what an item's number is less than the number in the text
    fault: the number of the fault that comes after the kept items, or 0
    is_last: whether the text ends with it
    """

    records: Records
    kept: int
    at: int
    head: int
    shift: int
    fault: int
    is_last: bool

    @property
    def is_one(self) -> bool:
        """Whether the text is a single sound record."""
        return self.is_last and self.kept == 1 and not self.fault and self.shift == -PREFIX_RECORDS

    @property
    def end(self) -> int:
        """The offset in the text at which the last kept item ends."""
        return self.at - self.head + int(self.records.items[self.kept - 1].end) if self.kept else self.at


def pieces(text: bytes, head: bytes, readers: int) -> Iterator[Piece]:
    """Reads a text in pieces that the library takes. `head` stands before the first. The last record of a piece is left
    to the next one if it reaches the end of the piece, where it may be cut."""
    at = done = 0
    while True:
        at = LINE_ENDS.match(text, at).end() if head else at  # type: ignore[union-attr]
        part = head + text[at : at + INPUT_BYTES - len(head)]
        is_last = at + len(part) - len(head) == len(text)
        found = read_records(part, readers)
        kept, fault = found.count, found.fault
        if not is_last:
            kept -= bool(kept and not fault and found.items[kept - 1].end == len(part))
            fault = 0 if kept else fault or TOO_LONG
        piece = Piece(found, kept, at, len(head), done - PREFIX_RECORDS * bool(head), fault, is_last)
        yield piece
        if is_last or fault:
            return
        at, done, head = piece.end, int(found.items[kept - 1].number) + piece.shift, PREFIX


def line_at(text: bytes, at: int) -> tuple[int, str]:
    """The first line of a text after an offset that isn't empty: where it begins, and its text, to be shown."""
    start = LINE_ENDS.match(text, at).end()  # type: ignore[union-attr]
    return start, LINE.match(text, start, start + 60)[0].decode(errors="replace")  # type: ignore[index]


def command_of(words: Any) -> Command:
    """The command of a board_command."""
    kind = WORDS[words.kind]
    parts = KINDS[kind]
    code = words.code.decode() if "code" in parts else None
    chair = words.chair or None if "chair" in parts else None
    # What the library holds needs no check.
    return tuple.__new__(Command, (kind, code, chair, words.votes if "votes" in parts else None))


def started(members: Any, journal: int) -> Handle:
    """A register of members."""
    handle = Handle(ChairNames({}))
    check_done(short.board_register_start(members, len(members), journal, handle.words))
    return handle


def copied(handle: Handle, accepted: int) -> Handle:
    """A copy of a register as it was after its first commands. Other threads run while it is made."""
    copy = Handle(handle.names.first(accepted))
    check_done(long.board_register_copy(handle.words, accepted, copy.words))
    return copy


def apply(handle: Handle, place: Any, accepted: c_uint32) -> int:
    """Carries a command out, and returns 0, or the number of its refusal; a fault of the machine is raised."""
    number: int = short.board_register_apply(handle.words, place, byref(accepted))
    if number == TRAPPED:
        handle.give_up()
    return check_memory(number)


def command_at(place: int) -> CommandWords:
    """The board_command at an address that is in use."""
    return CommandWords.from_address(place)
