"""The names of a register's chairs. A name belongs to a chair from the command that opened it to the one that closes
it: a chair that is closed and opened again is a new chair, without a name until it is given one."""
from __future__ import annotations

from bisect import bisect_right
from collections.abc import Mapping
from ctypes import byref
from typing import Optional

from .library import CommandWords, Handle, short
from .names import ALLOWED, CHAIRS, KINDS
from .refusals import check_done
from .values import wrong_type

OPEN, CLOSE = [number for number, kind in enumerate(KINDS) if kind in ("open", "close")]
#: A command that opened or closed a chair: its number, counted from 1; the chair; and whether it opened it.
Change = tuple[int, int, bool]


def name_of(name: object) -> Optional[str]:
    """A name as it was given: a text, or none."""
    if name is not None and not isinstance(name, str):
        raise wrong_type(name, "the name is", ALLOWED["name"])
    return None if name is None else str(name)


class ChairNames:
    """Names of chairs, each by the number of the command that opened its chair. They never change.

    What is known of the journal is kept, so that each command is looked at once; and only if there are names."""

    __slots__ = ("by_opening", "_known")

    def __init__(self, by_opening: Mapping[int, str], known: tuple[int, tuple[Change, ...]] = (0, ())) -> None:
        self.by_opening = dict(by_opening)
        #: How many commands were looked at, and the changes among them. An interrupt leaves it as before or after.
        self._known = known

    def first(self, commands: int) -> ChairNames:
        """Those of a register that goes back to its first commands."""
        seen, changes = self._known
        known = min(seen, commands), changes[: bisect_right(changes, (commands, CHAIRS, True))]
        return ChairNames({at: name for at, name in self.by_opening.items() if at <= commands}, known)

    def given(self, opening: int, name: Optional[str]) -> ChairNames:
        """These and another one, or without one."""
        others = {at: it for at, it in self.by_opening.items() if at != opening}
        return ChairNames(others if name is None else {**others, opening: name}, self._known)

    def openings(self, handle: Handle, commands: int) -> dict[int, int]:
        """The number of the command that opened each chair that is open after the first commands."""
        seen, changes = self._known
        accepted = short.board_register_accepted(handle.words)
        if seen < accepted:
            words, found = CommandWords(), list(changes)
            for at in range(seen, accepted):
                check_done(short.board_register_command_at(handle.words, at, byref(words)))
                if words.kind in (OPEN, CLOSE):
                    found.append((at + 1, words.chair, words.kind == OPEN))
            changes = tuple(found)
            self._known = accepted, changes
        now: dict[int, int] = {}
        for number, chair, is_open in changes[: bisect_right(changes, (commands, CHAIRS, True))]:
            if is_open:
                now[chair] = number
            else:
                del now[chair]
        return now

    def at(self, handle: Handle, commands: int) -> dict[int, str]:
        """The names by chair after the first commands."""
        if not self.by_opening:
            return {}
        found = self.openings(handle, commands).items()
        return {chair: self.by_opening[number] for chair, number in sorted(found) if number in self.by_opening}
