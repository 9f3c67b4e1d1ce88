"""The shared library: how it is found and checked, its structs, its calls, and the room that a thread lends it."""
from __future__ import annotations

import ctypes
import os
import threading
from collections.abc import Callable
from ctypes import c_char, c_size_t, c_uint8, c_uint32, c_uint64, c_void_p
from functools import partial
from pathlib import Path
from typing import TYPE_CHECKING, Optional

from .names import VERSION

if TYPE_CHECKING:
    from .chair_names import ChairNames

HERE = Path(__file__).resolve().parent
NAMES = ("libboard.so", "libboard.dylib", "board.dll")
SHEET_WORDS = 34
#: A board_counts as words: seven numbers, then three for each of 32 chairs.
COUNT_WORDS, FIRST_ROW, ROW_WORDS = 103, 7, 3
ROOM_WORDS = 131_072

#: The file that says that the package's own library needs such a processor, and what Linux calls its parts.
LEVEL = "x86-64-v2"
LEVEL_FLAGS = frozenset({"cx16", "lahf_lm", "popcnt", "pni", "sse4_1", "sse4_2", "ssse3"})
LACKING = f"this processor lacks {LEVEL} (SSE4.2, POPCNT): use a package built from board.c"


class CommandWords(ctypes.Structure):
    """A board_command."""

    _fields_ = [("kind", c_uint32), ("code", c_char * 4), ("chair", c_uint64), ("votes", c_uint64)]


class Entry(ctypes.Structure):
    """A board_entry."""

    _fields_ = [("code", c_char * 4), ("_gap", c_uint32), ("votes", c_uint64)]


class MemberRow(ctypes.Structure):
    """A board_member_row."""

    _fields_ = [("code", c_char * 4), ("suspended", c_uint32), ("chair", c_uint64), ("votes", c_uint64)]


class Item(ctypes.Structure):
    """A board_item."""

    _fields_ = [
        ("command", CommandWords),
        *((name, c_uint32) for name in ("number", "reader", "majority", "start", "end", "_gap")),
    ]


PLACE, NUMBER, SIZE, WORD = c_void_p, c_uint32, c_size_t, c_uint64
INPUT = [ctypes.c_char_p, SIZE, NUMBER]
#: The arguments of each call, and its result if that is another than the number of a refusal.
CALLS: dict[str, list[type]] = {
    "counts_of_sheet": [PLACE, SIZE, NUMBER, PLACE, PLACE],
    "all_counts_of_sheet": [PLACE, SIZE, PLACE, PLACE],
    "counts_of_weights": [PLACE, SIZE, WORD, NUMBER, PLACE, PLACE],
    "counts_of_members": [PLACE, SIZE, NUMBER, NUMBER, PLACE, PLACE],
    "register_start": [PLACE, SIZE, NUMBER, PLACE],
    "register_apply": [PLACE, PLACE, PLACE],
    "register_check": [PLACE, PLACE],
    "register_publish": [PLACE, PLACE],
    "register_accepted": [PLACE],
    "register_published": [PLACE],
    "register_members": [PLACE],
    "register_entries": [PLACE],
    "register_member_at": [PLACE, SIZE, PLACE],
    "register_entry_at": [PLACE, SIZE, PLACE],
    "register_command_at": [PLACE, SIZE, PLACE],
    "register_sheet": [PLACE, PLACE],
    "register_read": [PLACE, NUMBER, PLACE, PLACE],
    "register_copy": [PLACE, NUMBER, PLACE],
    "register_undo": [PLACE, NUMBER, NUMBER],
    "register_free": [PLACE],
    "script": [*INPUT, PLACE, SIZE, PLACE, PLACE, SIZE, PLACE, PLACE],
    "replay": [*INPUT, NUMBER, PLACE, SIZE, PLACE, PLACE],
    "replay_length": [*INPUT, NUMBER, PLACE, PLACE],
}
RESULTS: dict[str, type[object] | None] = {
    "register_accepted": NUMBER,
    "register_published": NUMBER,
    "register_members": SIZE,
    "register_entries": SIZE,
    "register_free": None,
}


def lacks_level(processors: str) -> bool:
    """Whether a processor of /proc/cpuinfo lacks a part of the level that the native library needs."""
    flags = [line.partition(":")[2].split() for line in processors.splitlines() if line.startswith("flags")]
    return any(not LEVEL_FLAGS <= set(it) for it in flags)


def is_cut(path: Path) -> bool:
    """Whether a library for Linux has lost its end, which the system would notice only when it is used."""
    with path.open("rb") as file:
        head = file.read(64)
    if head[:5] != b"\x7fELF\x02":
        return False
    table, size, many = (int.from_bytes(head[at : at + long], "little") for at, long in ((40, 8), (58, 2), (60, 2)))
    return len(head) < 64 or path.stat().st_size < table + size * many


def path_of() -> str:
    """The library in this folder, or the one that the environment's BOARD_LIBRARY names."""
    named = os.environ.get("BOARD_LIBRARY")
    found = [Path(named)] if named else [HERE / name for name in NAMES if (HERE / name).exists()]
    if not found:
        raise ImportError(f"voting_board: no library in {HERE}: install the package from a wheel or with a C compiler")
    if found[0].is_file() and is_cut(found[0]):
        raise ImportError(f"voting_board: {found[0]} is cut off: install the package again")
    about = Path("/proc/cpuinfo")
    if not named and (HERE / LEVEL).exists() and about.exists() and lacks_level(about.read_text()):
        raise ImportError(f"voting_board: {LACKING}")
    return str(found[0])


def loaded() -> tuple[ctypes.CDLL, ctypes.CDLL]:
    """The library twice: for short calls, and for long ones."""
    path = path_of()
    try:
        # During a call by PyDLL no other thread of Python runs and no signal is handled; during one by CDLL others run.
        short, long = ctypes.PyDLL(path), ctypes.CDLL(path)
        version = short.board_version
    except (OSError, AttributeError) as why:
        raise ImportError(f"voting_board: {path} can't be loaded: {why}") from why
    version.restype = ctypes.c_char_p
    if (found := version().decode()) != VERSION:
        raise ImportError(f"voting_board {VERSION} needs a library of this version, and {path} is {found}")
    for library in (short, long):
        for name, arguments in CALLS.items():
            call = getattr(library, f"board_{name}")
            call.argtypes, call.restype = arguments, RESULTS.get(name, c_uint8)
    return short, long


short, long = loaded()


class Rooms(threading.local):
    """A board_room for each thread, which is kept: making one takes longer than most counts."""

    def __init__(self) -> None:
        self.room = (c_uint64 * ROOM_WORDS)()


rooms = Rooms()


class Handle:
    """A board_register, which is freed with this object, and the names of its chairs. Its words are never copied.

    `__del__` is a call of the library, not a function of Python, in which an interrupt would be lost."""

    __slots__ = ("words", "names", "is_usable", "before", "__del__")

    def __init__(self, names: ChairNames) -> None:
        self.is_usable, self.names = True, names
        #: Where the register goes back to before its next use, if something was left in the middle: the numbers of
        #: accepted and published commands.
        self.before: Optional[tuple[int, int]] = None
        self.words = (c_uint64 * 2)()
        self.__del__: Callable[[], object] = partial(short.board_register_free, self.words)

    def begin(self) -> None:
        """Begins what is done as a whole or not at all: it is undone before the next use, unless `before` is None."""
        words = self.words
        self.before = short.board_register_accepted(words), short.board_register_published(words)

    def take_back(self) -> None:
        """Goes back to `before`. An interrupt leaves it to be done again."""
        if self.before is not None:
            accepted, published = self.before
            now = short.board_register_accepted(self.words), short.board_register_published(self.words)
            if now != self.before:
                long.board_register_undo(self.words, accepted, published)
                self.names = self.names.first(accepted)
            self.before = None

    def give_up(self) -> None:
        """Leaves a register as it is after the library has come to what its proof rules out: it can't even be freed."""
        self.is_usable = False
        self.__del__ = int
