"""The refusals: what the library or the register refuses, with the numbers and names of docs/FORMATS.md."""
from __future__ import annotations

from typing import Optional

from .names import IMPOSSIBLE, OUT_OF_MEMORY, REFUSALS, TRAPPED

LOST = f"{IMPOSSIBLE}. A register that was in use can't be used any more"


class Refused(ValueError):
    """A value, a command or a script that the library or the register refuses. Nothing has changed.

    The message has the place, the value and what is allowed.

    number: the refusal's number, such as 2
    name: its name, such as "ChairNotOpen"
    command: the record that was refused, such as "move,AAA,3", or None
    record: the number of that record in the given text or list, from 1, or None
    row: the number of the row of a table, from 1, or None
    board: of many boards, the label of the board's row in the index of a table of pandas, or its place from 0; or None
    """

    def __init__(
        self,
        number: int,
        message: str,
        command: Optional[str] = None,
        record: Optional[int] = None,
        row: Optional[int] = None,
        board: object = None,
    ) -> None:
        super().__init__(message)
        self.number = number
        self.name = name_of(number)
        self.command = command
        self.record = record
        self.row = row
        self.board = board

    def __reduce__(self) -> tuple[type[Refused], tuple[object, ...]]:
        return type(self), (self.number, str(self), self.command, self.record, self.row, self.board)


def name_of(number: int) -> str:
    """The name of a refusal or a fault by its number, or "" for a number without a name."""
    return REFUSALS.get(number, ("", ""))[0]


def reason_of(number: int) -> str:
    """The reason of a refusal or a fault."""
    return REFUSALS.get(number, ("", "an unknown reason"))[1]


def refusal_of(number: int, command: Optional[str] = None, record: Optional[int] = None, where: str = "") -> Exception:
    """The exception for a number that a call of the library returns."""
    if number == OUT_OF_MEMORY:
        return MemoryError(reason_of(number))
    if number == TRAPPED:
        return RuntimeError(LOST)
    what = "refused " * (record is not None or command is not None)
    what += f"record {record}{where}" * (record is not None) + ", " * (record is not None and command is not None)
    what += repr(command) if command is not None else ""
    message = f"{name_of(number)} ({number}), {reason_of(number)}"
    return Refused(number, f"{what}: {message}" if what else message, command, record)


def check_done(number: int) -> None:
    """Raises the exception for a number that a call returns, unless it is 0."""
    if number:
        raise refusal_of(number)
