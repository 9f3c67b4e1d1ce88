"""Operations, worked out here without the page: the commands that each must stand for."""
from __future__ import annotations

from contextlib import suppress
from fractions import Fraction
from random import Random

from actions import Act, Change, Model, drawn_act, spelled
from member_tables import MOST_VOTES, register_of
from oracle import Oracle
from voting_board import Register
from voting_board.amounts import BadStudy
from voting_board.operations import records_of

MOST_CHAIRS = 32
OTHERS = ["pay", "keep"]
WORDS = ["merge", "dissolve", "split", "scale", "share"]


def seated(register: Register, chair: int) -> list[str]:
    """The members of a chair in order of entry."""
    return [code for code, place in register.members.items() if place.chair == chair]


def scaled(votes: int, percent: str) -> int:
    """Votes plus or minus per cent, rounded half to even."""
    return round(votes * (1 + Fraction(percent.removesuffix("%")) / 100))


def codes_of(register: Register, who: str) -> list[str]:
    """The members of a chair, or those whose codes are joined by `+`."""
    return seated(register, int(who)) if who.isdigit() else who.split("+")


def shared_out(votes: int, weights: dict[str, int]) -> dict[str, int]:
    """Votes in the proportions of weights: the greatest remainders are rounded up. One weight alone gets all."""
    whole = sum(weights.values())
    exact = {code: Fraction(votes * it, whole) if whole else Fraction(votes) for code, it in weights.items()}
    parts = {code: int(it) for code, it in exact.items()}
    for code in sorted(exact, key=lambda it: parts[it] - exact[it])[: votes - sum(parts.values())]:
        parts[code] += 1
    return parts


def share_of(register: Register, codes: list[str], percent: str, others: str) -> dict[str, int]:
    """The votes of all members that a share changes; none if it can't be given."""
    votes = {code: it.votes for code, it in register.members.items() if not it.suspended}
    own, rest = ({it: votes[it] for it in votes if (it in codes) == is_own} for is_own in (True, False))
    total, asked = sum(votes.values()), Fraction(percent)
    has_votes = all(any(it.values()) or len(it) == 1 for it in (own, rest))
    if not set(codes) <= set(votes) or not has_votes or not total:
        return {}
    if percent[0] in "+-":
        asked += Fraction(100 * sum(own.values()), total)
    if not 0 <= asked < 100 or (others == "keep" and not any(rest.values())):
        return {}
    if others == "keep":
        return shared_out(round(asked / (100 - asked) * sum(rest.values())), own)
    many = round(asked * total / 100)
    return {**shared_out(many, own), **shared_out(total - many, rest)}


def is_operation(command: str) -> bool:
    """Whether a change is an operation: a move of several members is one."""
    word, *fields = command.split(",")
    return word in WORDS or (word == "move" and "+" in fields[0])


def commands_of(register: Register, operation: str) -> list[str]:
    """The commands of an operation on a register; none if it can't be carried out."""
    word, first, second, *others = operation.split(",")
    if word == "share":
        found = share_of(register, first.split("+"), second, others[0])
        is_right = all(it <= MOST_VOTES for it in found.values())
        return [f"votes,{code},{it}" for code, it in found.items() if it != register.members[code].votes] * is_right
    if word == "move":
        to = None if second == "none" else int(second)
        places = register.members
        return [f"move,{it},{second}" for it in first.split("+") if it not in places or places[it].chair != to]
    if word in ("merge", "dissolve"):
        return [*(f"move,{code},{second}" for code in seated(register, int(first))), f"close,{first}"]
    if word == "split":
        closed = [it for it in range(1, MOST_CHAIRS + 1) if it not in register.chairs]
        chair = closed[0] if first == "lowest" else int(first)
        return [f"open,{chair}", *(f"move,{code},{chair}" for code in second.split("+"))]
    codes = codes_of(register, first)
    if not set(codes) <= set(register.members):
        return []
    votes = {code: scaled(register.members[code].votes, second) for code in codes}
    if not all(0 <= it <= MOST_VOTES for it in votes.values()):
        return []
    return [f"votes,{code},{it}" for code, it in votes.items()]


class Walk(Model):
    """The list of changes with operations that the page must keep."""

    def expanded(self, oracle: Oracle) -> tuple[list[str], Register]:
        """The commands of all changes that are on, and the register after them. Of a refused operation, all commands
        are left out; another refused command stays."""
        register, commands = register_of(oracle.table), list[str]()
        for change in self.changes:
            if not change.is_on:
                continue
            added, is_whole = added_by(register, change)
            answers = oracle.answers([*commands, *added])[len(commands) :] if added else []
            accepted = [command for command, line in zip(added, answers) if line.startswith("accepted,")]
            if is_whole and accepted != added:
                continue
            commands += added
            for command in accepted:
                register.submit(command)
        return commands, register


def added_by(register: Register, change: Change) -> tuple[list[str], bool]:
    """The commands of a change, and whether it is an operation."""
    if is_operation(change.command):
        return commands_of(register, change.command), True
    with suppress(BadStudy):
        return records_of(register.members, spelled(change.command)), False
    return [], False


def drawn_operation(some: Random, register: Register) -> Act:
    """An operation, most often one that can be carried out."""
    # In order of entry, which is that of the list with ticks.
    members = list(register.members)
    codes = sorted(some.sample(members, some.randint(1, 5)), key=members.index)
    chair, other = some.sample(sorted(register.chairs), 2)
    percent = f"{some.choice('+-')}{some.choice([0, 5, 33, 100])}{some.choice(['', '.5', '.125'])}%"
    drawn: list[Act] = [
        ["merge", str(chair), str(other)],
        ["dissolve", str(chair), some.choice(["none", str(other)])],
        ["split", some.choice(["lowest", str(some.randint(1, MOST_CHAIRS))]), "+".join(codes)],
        ["split", "lowest", "+".join(seated(register, chair)[:3] or codes)],
        ["scale", str(chair), percent],
        ["scale", "+".join(codes), percent],
        ["share", "+".join(codes), some.choice(["20", "7.5", "0.125", "+6", "+0.5", "-1.25"]), some.choice(OTHERS)],
        ["move", "+".join(codes), some.choice(["none", str(other)])],
    ]
    return some.choice(drawn)


def drawn(some: Random, model: Walk, oracle: Oracle) -> Act:
    """The next act of a user: an operation more often than not."""
    if some.random() < 0.6:
        return drawn_operation(some, model.expanded(oracle)[1])
    return drawn_act(some, model, oracle)
