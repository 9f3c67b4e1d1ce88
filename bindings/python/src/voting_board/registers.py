"""A register of members, votes and chairs, over a handle of the library."""
from __future__ import annotations

import re
import threading
from collections.abc import Iterable, Iterator, Mapping
from ctypes import addressof, byref, c_uint32, c_uint64
from itertools import chain
from typing import Any, Optional, Union, cast

from .boards import count_all, count_by
from .chair_names import ChairNames, name_of
from .library import COUNT_WORDS, SHEET_WORDS, CommandWords, Entry, Handle, MemberRow, long, rooms, short
from .names import (
    ALLOWED,
    BAD_INDEX,
    BAD_RECORD,
    CHAIR_NOT_OPEN,
    CHAIRS,
    COMMANDS,
    DUPLICATE_MEMBER,
    INPUT_BYTES,
    KINDS,
    MAJORITIES,
    PUBLISH,
    READ,
    READERS,
    Kind,
    Majority,
)
from .refusals import LOST, Refused, check_done, refusal_of
from .results import Command, Indices, Member, fields_in, parts_of
from .scripts import (
    KIND,
    PREFIX,
    RECORD,
    WORDS,
    Piece,
    Script,
    apply,
    command_at,
    command_of,
    copied,
    line_at,
    pieces,
    script_of,
    started,
)
from .tables import Members, Seated, Table, is_table, members_of
from .values import Whole, chair_of, code_of, journal_of, number_of, text_of, votes_of, whole, wrong_type

#: A command, one or more records as text, or a list of these.
Commands = Union[str, Command, Iterable[Union[str, Command]]]
SEVERAL_LINE_ENDS = re.compile(rb"[\r\n]+")
COMMAND = "a command is a Command, or a record such as 'open,1'"


def text_of_commands(commands: Commands) -> bytes:
    """The records of commands, as text."""
    if isinstance(commands, (str, bytes, Command)):
        commands = [commands]
    if not isinstance(commands, Iterable) or isinstance(commands, Mapping):
        raise wrong_type(commands, "the commands are", COMMAND)
    return b"\n".join(record_of(it, place) for place, it in enumerate(commands, 1))


def record_of(command: object, place: int) -> bytes:
    """The record of a command, or a record as it is."""
    if not isinstance(command, Command):
        if not isinstance(command, (str, bytes)):
            raise wrong_type(command, f"command {place} is", COMMAND)
        return text_of(command, f"command {place} is")
    return str(command).encode()


def words_of(kind: Kind, code: object = None, chair: object = None, votes: object = None) -> CommandWords:
    """The board_command of a command, whose parts are checked."""
    parts = parts_of(kind, code, chair, votes)
    return CommandWords(WORDS.index(kind), (parts.code or "").encode(), parts.chair or 0, parts.votes or 0)


def run(handle: Handle, words: CommandWords) -> int:
    """Carries a command out, and returns the number of accepted commands."""
    accepted = c_uint32()
    if number := apply(handle, addressof(words), accepted):
        raise refusal_of(number, str(command_of(words)))
    return accepted.value


def run_piece(handle: Handle, piece: Piece, text: bytes, reads: bool) -> None:
    """Carries out the records of a piece. `reads` says whether readings, which change nothing, are left out or
    refused."""
    accepted, records = c_uint32(), piece.records
    items = zip(range(piece.kept), records.words(KIND), records.words(RECORD), records.places())
    for at, kind, record, place in items:
        if kind == PUBLISH:
            check_done(short.board_register_publish(handle.words, byref(accepted)))
        elif kind == READ and not reads:
            start = piece.at - piece.head + records.items[at].start
            raise bad_record(text, start, record + piece.shift)
        elif kind != READ and (number := apply(handle, place, accepted)):
            known = None if piece.is_one else record + piece.shift
            raise refusal_of(number, str(command_of(command_at(place))), known)
    if piece.fault and not reads:
        raise bad_record(text, piece.end, records.fault_record + piece.shift)
    if piece.fault:
        raise fault_of(piece, text)


def bad_record(text: bytes, at: int, record: int) -> Exception:
    """The refusal of a record that is not well formed, or is no command."""
    start, line = line_at(text, at)
    refused = refusal_of(BAD_RECORD, line, record, f" at byte {start}")
    return Refused(BAD_RECORD, f"{refused}{wrong_field(line)}", line, record)


def wrong_field(record: str) -> str:
    """What is wrong with a field of a record, in the words of the call of its kind. Empty where it is no field."""
    word, *fields = record.split(",")
    kind = next((it for it in KINDS if it == word), None)
    if kind is None or len(fields) != len(KINDS[kind]):
        return ""
    given = {part: value_of(part, field) for part, field in zip(KINDS[kind], fields)}
    try:
        words_of(kind, **given)
    except (Refused, TypeError) as why:
        return f": {why}"
    return ""


def value_of(part: str, field: str) -> object:
    """The value of a field, or its text if it is none."""
    if part == "chair" and field == "none":
        return None
    return int(field) if part != "code" and re.fullmatch("[0-9]{1,30}", field) else field


def fault_of(piece: Piece, text: bytes) -> Exception:
    """The refusal of a script with a fault. The line is known if there are whole records before it."""
    record = piece.records.fault_record
    if piece.fault == DUPLICATE_MEMBER:
        codes = [it.code.decode() for it in piece.records.members]
        twice = next(it for it in codes if codes.count(it) > 1)
        return Refused(piece.fault, f"{refusal_of(piece.fault)}: {twice!r}")
    if not record:
        return refusal_of(piece.fault)
    line = line_at(text, piece.end)[1] if piece.kept or piece.head else None
    refused = refusal_of(piece.fault, line, record + piece.shift)
    field = wrong_field(line) if line and piece.fault == BAD_RECORD else ""
    return Refused(piece.fault, f"{refused}{field}", line, record + piece.shift)


def seated(members: Members, journal: int) -> Handle:
    """A register of members in their chairs."""
    entries = [Entry(str(row.code).encode(), 0, row.votes) for row in members.rows]
    handle = started((Entry * len(entries))(*entries), journal)
    chairs = sorted({row.chair for row in members.rows if row.chair})
    opened = {chair: run(handle, words_of("open", chair=chair)) for chair in chairs}
    handle.names = ChairNames({opened[chair]: name for chair, name in members.names.items()})
    for row in members.rows:
        if row.chair:
            run(handle, words_of("move", row.code, row.chair))
    for row in members.rows:
        if row.suspended:
            run(handle, words_of("suspend", row.code))
    return handle


def members_in(given: Union[Mapping[str, Whole], Table]) -> Members:
    """The members of a mapping, or a series of pandas, from codes to votes, or of a table."""
    if hasattr(given, "to_dict") and not hasattr(given, "columns"):
        given = given.to_dict()
    if is_table(given):
        return members_of(cast(Table, given), ("code", "votes"))
    rows = [(code_of(code), votes) for code, votes in cast(Mapping[str, Whole], given).items()]
    return Members([Seated(code, votes_of(votes, f"the votes of {code} are")) for code, votes in rows], {})


class Register:
    """A register of members, their votes and the chairs that they sit in, which carries out commands.

        >>> register = Register({"AAA": 50, "BBB": 49, "CCC": 1})
        >>> register.submit(["open,1", "open,2", "move,AAA,1", "move,BBB,2", "move,CCC,2"])
        5
        >>> other = register.copy()
        >>> other.set_votes("CCC", 9)
        6
        >>> [str(chair.share) for chair in other.indices("half").chairs]
        ['0', '1']
        >>> register
        Register(members=3, chairs=2, accepted=5, published=0)

    A command returns the number of accepted commands. If it is refused it raises `Refused` with the number, the name
    and the command, and the register is unchanged. After any exception, also of a signal such as Ctrl-C, a command has
    been carried out as a whole or not at all.

    A register serves one thread at a time. While a thread uses it, another one gets a RuntimeError.
    """

    _handle: Handle

    def __init__(self, members: Union[Mapping[str, Whole], Table], *, journal: Whole = COMMANDS) -> None:
        """A register of members.

        members: a mapping or a series of pandas from codes to votes, or a table. A table is a data frame, a mapping
            from columns to lists, or a list of rows with named parts. Its columns are code and votes, and if wanted
            chair, chair_name and suspended, and name, which isn't used. The chairs that it names are opened, its
            members are moved there, and then the suspended ones are suspended: these are commands of the journal
        journal: the most commands that are accepted, from 1 to 1,000,000

        Raises `Refused`: BadMember, VotesTooLarge, BadRecord, BadChair or DuplicateMember for a value, with its place;
        TooManyMembers; BadLimit. An unknown or missing column is a ValueError, and a wrong type a TypeError.
        """
        limit, found = journal_of(journal), members_in(members)
        self._begin(seated(found, limit), limit)

    def _begin(self, handle: Handle, limit: int) -> None:
        self._lock = threading.Lock()
        self._limit = limit
        self._handle = handle

    @classmethod
    def _of(cls, handle: Handle, limit: int) -> Register:
        made = cls.__new__(cls)
        made._begin(handle, limit)
        return made

    @classmethod
    def from_script(
        cls, script: Script, *, journal: Whole = COMMANDS, names: Optional[Mapping[int, str]] = None
    ) -> Register:
        """The register of a script: of an input of `board replay`, or of what `script()` returned.

        script: text, bytes, or a pathlib.Path of a file, of any length
        journal: the most commands that are accepted, from 1 to 1,000,000
        names: the names of chairs that are open at its end, by number, as `chair_names` gives them. A script has none

        Commands and publications are carried out; readings change nothing. Raises `Refused`, with the number of the
        record, for a refused command and a fault; and ValueError for text of a single line.
        """
        limit, text = journal_of(journal), script_of(script)
        if len(text) > INPUT_BYTES:
            # An empty line is no record. Without those, the members of any sound script are in its first piece.
            text = SEVERAL_LINE_ENDS.sub(b"\n", text)
        handle: Optional[Handle] = None
        for piece in pieces(text, b"", READERS):
            if piece.fault and not piece.kept and handle is None:
                raise fault_of(piece, text)
            handle = handle or started(piece.records.members, limit)
            run_piece(handle, piece, text, reads=True)
        assert handle is not None
        made = cls._of(handle, limit)
        for chair, name in (names or {}).items():
            made.rename(chair, name)
        return made

    def _used(self) -> threading.Lock:
        """The lock of this register, which a `with` takes before a signal is handled."""
        if self._lock.locked():
            raise RuntimeError("another thread is using this register")
        if not self._handle.is_usable:
            raise RuntimeError(LOST)
        if self._handle.before is not None:
            with self._lock:
                self._handle.take_back()
        return self._lock

    def _run(self, kind: Kind, code: object = None, chair: object = None, votes: object = None) -> int:
        words = words_of(kind, code, chair, votes)
        with self._used():
            return run(self._handle, words)

    def open(self, chair: Whole, name: Optional[str] = None) -> int:
        """Opens a closed chair, from 1 to 32, which has this name until it is closed. Refused: BadChair, ChairOpen,
        JournalFull."""
        given = name_of(name)
        if given is None:
            return self._run("open", chair=chair)
        words = words_of("open", chair=chair)
        with self._used():
            handle = self._handle
            handle.begin()
            accepted = run(handle, words)
            handle.names = handle.names.given(accepted, given)
            handle.before = None
        return accepted

    def rename(self, chair: Whole, name: Optional[str]) -> None:
        """Gives an open chair another name, or none, from when it was opened until it is closed. It is no command: the
        journal, scripts and `undo` know nothing of it. Refused: BadChair, ChairNotOpen."""
        number, given = chair_of(chair), name_of(name)
        with self._used():
            handle = self._handle
            opening = handle.names.openings(handle, COMMANDS).get(number)
            if opening is None:
                raise Refused(CHAIR_NOT_OPEN, f"{refusal_of(CHAIR_NOT_OPEN)}: no name for chair {number}")
            handle.names = handle.names.given(opening, given)

    def close(self, chair: Whole) -> int:
        """Closes an open chair in which no member sits. Refused: BadChair, ChairNotOpen, ChairHasMembers,
        JournalFull."""
        return self._run("close", chair=chair)

    def move(self, code: str, chair: Optional[Whole]) -> int:
        """Moves a member to an open chair, or to none. Refused: BadMember, BadChair, UnknownMember, MemberSuspended,
        ChairNotOpen, AlreadyThere, JournalFull."""
        return self._run("move", code, chair)

    def set_votes(self, code: str, votes: Whole) -> int:
        """Sets the votes of a member, suspended or not, from 0 to 2^40. Refused: BadMember, BadRecord, VotesTooLarge,
        UnknownMember, JournalFull."""
        return self._run("votes", code, votes=votes)

    def suspend(self, code: str) -> int:
        """Suspends a member's votes; it stays in its chair. Refused: BadMember, UnknownMember, AlreadySuspended,
        JournalFull."""
        return self._run("suspend", code)

    def restore(self, code: str) -> int:
        """Ends a suspension. Refused: BadMember, UnknownMember, NotSuspended, JournalFull."""
        return self._run("restore", code)

    def admit(self, code: str, votes: Whole) -> int:
        """Adds a member, in no chair, with votes from 0 to 2^40. Refused: BadMember, BadRecord, VotesTooLarge,
        MemberExists, TooManyMembers, JournalFull."""
        return self._run("admit", code, votes=votes)

    def withdraw(self, code: str) -> int:
        """Removes a member that sits in no chair. Refused: BadMember, UnknownMember, MemberSeated, JournalFull."""
        return self._run("withdraw", code)

    def publish(self) -> int:
        """Publishes all accepted commands, and returns their number."""
        published = c_uint32()
        with self._used():
            check_done(short.board_register_publish(self._handle.words, byref(published)))
        return published.value

    def submit(self, commands: Commands) -> int:
        """Carries out all of some commands, or none, and returns the number of accepted commands.

        commands: a `Command`; text of one or more records such as "move,AAA,3", also `publish`; or a list of these

        Raises `Refused` with the number and the text of the first record that is refused: for the register's reason,
        or as BadRecord if it is not well formed or a reading.
        """
        return self._submit(text_of_commands(commands))

    def _submit(self, text: bytes) -> int:
        with self._used():
            rest = pieces(text, PREFIX, READERS)
            first = next(rest)
            handle = self._handle
            if not first.is_one:
                handle.begin()
            for piece in chain([first], rest):
                run_piece(handle, piece, text, reads=False)
            handle.before = None
            return int(short.board_register_accepted(handle.words))

    def attempt(self, commands: Commands) -> Optional[Refused]:
        """Does what `submit` does, but returns the refusal in place of raising it, and None if there is none."""
        try:
            self.submit(commands)
        except Refused as why:
            return why
        return None

    def check(self, commands: Commands) -> Optional[Refused]:
        """What `attempt` would return; carries out nothing."""
        try:
            text = text_of_commands(commands)
            first = next(pieces(text, PREFIX, READERS))
            if not first.is_one or next(first.records.words(KIND)) in (PUBLISH, READ):
                self.copy()._submit(text)
                return None
            words = first.records.items[0].command
            with self._used():
                number = short.board_register_check(self._handle.words, byref(words))
            if number:
                raise refusal_of(number, str(command_of(words)))
        except Refused as why:
            return why
        return None

    def copy(self) -> Register:
        """A copy, to change while this register stays as it is."""
        with self._used():
            return self._of(copied(self._handle, COMMANDS), self._limit)

    def undo(self, to: Optional[Whole] = None) -> int:
        """Goes back to the first `to` accepted commands, by default without the last one, and returns their number.

        Those of them that were published stay published: if more than `to` were, all that are left are published, and
        `read` counts the register after them.

        Raises `Refused`, BadIndex, unless `to` is from 0 to the number of accepted commands.
        """
        with self._used():
            accepted = short.board_register_accepted(self._handle.words)
            length = accepted - 1 if to is None else to
            found = whole(length, "the length is", ALLOWED["length"], BAD_INDEX, 0, accepted)
            self._handle.before = found, found
            self._handle.take_back()
        return found

    @property
    def accepted(self) -> int:
        """The number of accepted commands."""
        with self._used():
            return int(short.board_register_accepted(self._handle.words))

    @property
    def published(self) -> int:
        """The number of published commands: readers see the register after them."""
        with self._used():
            return int(short.board_register_published(self._handle.words))

    def indices(self, majority: Majority) -> Indices:
        """The voting power in the register as it stands, by "half", "70", "85" or "quorum". Other threads run during
        the count."""
        number = number_of(majority)
        with self._used():
            sheet, names = self._sheet(), self._names()
        return count_by(sheet, number, names)

    def indices_of_all(self) -> dict[Majority, Indices]:
        """The voting power in the register as it stands, by each majority."""
        with self._used():
            sheet, names = self._sheet(), self._names()
        return count_all(sheet, names)

    def read(self, majority: Majority) -> Indices:
        """The voting power in the register after its published commands, which is what readers see; before the first
        publication in the register at its start."""
        number, found = number_of(majority), (c_uint64 * COUNT_WORDS)()
        with self._used():
            check_done(long.board_register_read(self._handle.words, number, rooms.room, found))
            names = self._handle.names.at(self._handle, short.board_register_published(self._handle.words))
        return Indices(*fields_in(found, MAJORITIES[number], names))

    @property
    def members(self) -> dict[str, Member]:
        """The members by code, in the order of entry."""
        with self._used():
            return self._members()

    @property
    def chairs(self) -> dict[int, tuple[str, ...]]:
        """The open chairs by number, each with the codes of its members in the order of entry."""
        with self._used():
            members, sheet = self._members(), self._sheet()
        found: dict[int, list[str]] = {chair: [] for chair in range(1, CHAIRS + 1) if sheet[chair - 1]}
        for code, member in members.items():
            if member.chair:
                found[member.chair].append(code)
        return {chair: tuple(codes) for chair, codes in found.items()}

    @property
    def chair_names(self) -> dict[int, str]:
        """The names of open chairs by number: those that the table of members, `open`, `rename` or `from_script` gave.
        A chair that is closed and opened again is a new chair, and `undo` gives it back the name that it had."""
        with self._used():
            return self._names()

    @property
    def opening(self) -> dict[str, int]:
        """The members with which the register started: their votes by code."""
        with self._used():
            return self._opening()

    @property
    def journal(self) -> tuple[Command, ...]:
        """The accepted commands."""
        with self._used():
            return tuple(self._commands())

    def script(self) -> str:
        """The register as a script, which `from_script` and `board replay` read: the members with which it started, the
        accepted commands, and a publication after those that are published. It has no names of chairs, which
        `chair_names` has: `from_script` takes them. A pickle keeps all."""
        with self._used():
            lines = ["member,votes", *(f"{code},{votes}" for code, votes in self._opening().items()), "script"]
            commands = list(map(str, self._commands()))
            published = short.board_register_published(self._handle.words)
        if published:
            commands.insert(published, "publish")
        return "\n".join([*lines, *commands, ""])

    def _names(self) -> dict[int, str]:
        handle = self._handle
        return handle.names.at(handle, COMMANDS)

    def _sheet(self) -> Any:
        words = (c_uint64 * SHEET_WORDS)()
        check_done(short.board_register_sheet(self._handle.words, words))
        return words

    def _members(self) -> dict[str, Member]:
        found, row, handle = {}, MemberRow(), self._handle.words
        for at in range(short.board_register_members(handle)):
            check_done(short.board_register_member_at(handle, at, byref(row)))
            found[row.code.decode()] = Member(row.votes, row.chair or None, bool(row.suspended))
        return found

    def _opening(self) -> dict[str, int]:
        found, entry, handle = {}, Entry(), self._handle.words
        for at in range(short.board_register_entries(handle)):
            check_done(short.board_register_entry_at(handle, at, byref(entry)))
            found[entry.code.decode()] = int(entry.votes)
        return found

    def _commands(self) -> Iterator[Command]:
        words, handle = CommandWords(), self._handle.words
        for at in range(short.board_register_accepted(handle)):
            check_done(short.board_register_command_at(handle, at, byref(words)))
            yield command_of(words)

    def __copy__(self) -> Register:
        return self.copy()

    def __deepcopy__(self, memo: object) -> Register:
        return self.copy()

    def __reduce__(self) -> tuple[object, ...]:
        handle = self._handle
        return restored, (type(self), self.script(), self._limit, {}, handle.names.by_opening)

    def __repr__(self) -> str:
        try:
            with self._used():
                handle, sheet = self._handle.words, self._sheet()
                members, accepted = short.board_register_members(handle), short.board_register_accepted(handle)
                published = short.board_register_published(handle)
        except RuntimeError as why:
            return f"Register({why})"
        chairs = sum(map(bool, sheet[:CHAIRS]))
        return f"Register(members={members}, chairs={chairs}, accepted={accepted}, published={published})"


def restored(
    kind: type[Register], script: str, limit: int, names: dict[int, str], by_opening: Optional[dict[int, str]] = None
) -> Register:
    """A register from what pickle keeps of it. What version 0.10 kept has names by chair."""
    made = kind.from_script(script, journal=limit)
    if by_opening is None:
        opened = made._handle.names.openings(made._handle, COMMANDS)
        by_opening = {opened[chair]: name for chair, name in names.items() if chair in opened}
    made._handle.names = ChairNames(by_opening)
    return made
