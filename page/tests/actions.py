"""Random acts of a user, from a seed, and the commands that must result from them."""
from __future__ import annotations

import re
from contextlib import suppress
from dataclasses import dataclass, field, replace
from random import Random

from member_tables import register_of
from oracle import Oracle
from voting_board.amounts import BadStudy
from voting_board.operations import records_of

# A word of acts.js, and its arguments: the fields of a command, or a place in the list of changes.
Act = list[str]


@dataclass(frozen=True)
class Change:
    """A change in the list: its command, where per cent may replace votes as in board-study."""

    command: str
    is_on: bool = True


@dataclass
class Model:
    """The list of changes that the page must keep, with the states to undo and redo."""

    changes: list[Change] = field(default_factory=list)
    past: list[list[Change]] = field(default_factory=list)
    future: list[list[Change]] = field(default_factory=list)

    def take(self, act: Act) -> None:
        """Applies an act that the page offered."""
        if act[0] in ("undo", "redo"):
            origin, to = (self.past, self.future) if act[0] == "undo" else (self.future, self.past)
            to.append(self.changes)
            self.changes = origin.pop()
            return
        self.past.append(self.changes)
        self.future = []
        self.changes = self.after(act)

    def after(self, act: Act) -> list[Change]:
        """The list of changes after an act other than undo and redo."""
        word, *rest = act
        changes = [*self.changes]
        if word not in ("switch", "remove", "earlier"):
            return [*changes, Change(",".join(act))]
        at = int(rest[0])
        if word == "switch":
            changes[at] = replace(changes[at], is_on=not changes[at].is_on)
        else:
            change = changes.pop(at)
            changes[at - 1 : at - 1] = [change] * (word == "earlier")
        return changes

    def commands(self, oracle: Oracle) -> list[str]:
        """The commands of all changes that are on, with numbers of votes in place of per cent. If there is no
        such number, there is no command; a refused command changes no votes."""
        register = register_of(oracle.table)
        commands: list[str] = []
        for change in self.changes:
            with suppress(BadStudy):
                commands += records_of(register.members, spelled(change.command)) * change.is_on
                if change.is_on and oracle.answers(commands)[-1].startswith("accepted,"):
                    register.submit(commands[-1])
        return commands


def spelled(command: str) -> str:
    """A command as board-study spells it, which marks a share of the total as one."""
    return re.sub(",([0-9.]+%)$", r",\1 of total", command)


def drawn_command(some: Random, oracle: Oracle) -> Act:
    """A command on one of a few members, so that commands affect one another, and some are refused."""
    codes = [member.code for member in oracle.table.members]
    code, admitted = some.choice([*codes[:2], *codes[-2:], some.choice(codes)]), some.choice(["ZAA", "ZAB"])
    percent = f"{some.randint(0, 60)}{some.choice(['', '.5', '.25', '.125'])}%"
    votes = str(some.choice([0, 1, some.randint(1, 2_000_000), 2**40]))
    drawn: list[Act] = [
        ["move", code, str(some.randint(1, 24))],
        ["move", code, "none"],
        ["votes", code, votes],
        ["votes", code, some.choice("+-") + percent],
        ["votes", code, percent],
        [some.choice(["suspend", "restore", "withdraw"]), some.choice([code, admitted])],
        ["admit", admitted, votes],
    ]
    return some.choice(drawn)


def drawn_act(some: Random, model: Model, oracle: Oracle) -> Act:
    """The next act of a user."""
    words = ["command"] * 4 + ["undo"] * bool(model.past) + ["redo"] * 2 * bool(model.future)
    words += ["switch", "remove"] * bool(model.changes) + ["earlier"] * (len(model.changes) > 1)
    word = some.choice(words)
    if word == "command":
        return drawn_command(some, oracle)
    if word in ("undo", "redo"):
        return [word]
    return [word, str(some.randrange(word == "earlier", len(model.changes)))]
