"""Operations of scenarios, as the page has them: changes of several members or of a whole chair, as records."""
from __future__ import annotations

import re
from collections.abc import Callable, Container, Iterable, Mapping, Sequence
from dataclasses import dataclass
from fractions import Fraction
from typing import Any, Optional, Union

from .amounts import CHAIR, CODE, DECIMAL, GROUP, BadStudy, Members, codes_of, has_proportions, percent_of, records_for
from .amounts import total_of, votes_of
from .names import CHAIRS, KINDS, NO_PROPORTIONS, OPERATIONS

CODES = re.compile(rf"{CODE}(?:\+{CODE})*|{CHAIR.pattern}")
FORMS = {
    "chair": f"a chair, which is a whole number from 1 to {CHAIRS}",
    "seat": "a chair, or nothing for no chair",
    "opened": "a chair, or nothing for the lowest that isn't open",
    "codes": "codes joined by +, or a chair such as 'chair 17'",
    "whose": "codes joined by +, or a chair such as 'chair 17'",
    "change": "per cent with a sign, such as +10%",
    "share": "per cent of the total such as 20%, or points more or less such as +6 points",
    "others": "what the others do: pay or keep",
}


@dataclass(frozen=True)
class Operation:
    """An operation: its kind, and its fields as the page keeps them, with codes and chairs as text."""

    kind: str
    fields: Mapping[str, Any]

    def __str__(self) -> str:
        types = OPERATIONS[self.kind]
        return ",".join([self.kind, *(WRITTEN.get(it, str)(self.fields[name]) for name, it in types.items())])

    def data(self, members: Members) -> dict[str, object]:
        """The operation in the page's format; of a chair's members in place of codes, those that these members are."""
        found: dict[str, object] = {"kind": self.kind, **self.fields}
        for name, kind in OPERATIONS[self.kind].items():
            if kind == "codes":
                found[name] = codes_of(members, self.fields[name])
            elif kind == "whose":
                chair = CHAIR.fullmatch(self.fields[name])
                found[name] = int(chair[1]) if chair else codes_of(members, self.fields[name])
        return found


def chair_in(text: str) -> Optional[int]:
    """The chair that a text names, or None."""
    return int(text) if re.fullmatch("[1-9][0-9]?", text) and int(text) <= CHAIRS else None


def share_in(text: str) -> Optional[str]:
    """Per cent of the total, or with a sign points more or less of it; None for another text."""
    found = re.fullmatch(rf"({DECIMAL}) ?%|([+-]{DECIMAL}) points?", text)
    return str(found[1] or found[2]) if found else None


def change_in(text: str) -> Optional[str]:
    """Per cent with a sign; None for another text."""
    found = re.fullmatch(rf"([+-]{DECIMAL}) ?%", text)
    return found[1] if found else None


def codes_in(text: str) -> Optional[str]:
    """Codes joined by +, or a chair; None for another text."""
    return text if CODES.fullmatch(text) else None


READ: dict[str, Callable[[str], Any]] = {
    "chair": chair_in,
    "seat": chair_in,
    "opened": lambda text: chair_in(text) if text else "lowest",
    "codes": codes_in,
    "whose": codes_in,
    "change": change_in,
    "share": share_in,
    "others": lambda text: text if text in ("pay", "keep") else None,
}
WRITTEN: dict[str, Callable[[Any], str]] = {
    "seat": lambda chair: "" if chair is None else str(chair),
    "opened": lambda chair: "" if chair == "lowest" else str(chair),
    "change": lambda percent: f"{percent}%",
    "share": lambda percent: f"{percent} points" if percent[0] in "+-" else f"{percent}%",
}


def of_votes(who: str, amount: str) -> Optional[Operation]:
    """The operation that a group's votes in per cent are: each member's votes change, or the group gets a share."""
    percent = percent_of(amount)
    if not percent or not GROUP.fullmatch(who):
        return None
    if percent.sign:
        return Operation("scale", {"of": who, "percent": percent.sign + percent.number})
    return Operation("share", {"codes": who, "percent": percent.number, "others": "keep"})


def operation_of(command: str) -> Optional[Operation]:
    """The operation of a command's text, or None for a command of the register."""
    kind, *texts = command.split(",")
    if kind == "votes" and len(texts) == 2:
        return of_votes(*texts)
    if kind not in OPERATIONS or (kind == "move" and not GROUP.fullmatch(texts[0] if texts else "")):
        return None
    types = OPERATIONS[kind]
    if len(texts) > len(types):
        raise BadStudy(f"{command!r}: {kind} takes {', '.join(types)}")
    fields = dict[str, Any]()
    for text, (name, it) in zip([*texts, *[""] * len(types)], types.items()):
        fields[name] = READ[it](text)
        if fields[name] is None and not (it == "seat" and text in ("", "none")):
            raise BadStudy(f"{command!r}: {text!r} isn't {FORMS[it]}")
    return Operation(kind, fields)


def emptied(members: Members, chair: int, to: Optional[int], chairs: Container[int]) -> list[str]:
    """All members of a chair move, and it is closed. The register doesn't say that an empty chair goes nowhere."""
    if chair == to:
        raise BadStudy(f"chair {chair} can't be merged into itself")
    moves = [f"move,{code},{to or 'none'}" for code, it in members.items() if it.chair == chair]
    if not moves and to and to not in chairs:
        raise BadStudy(f"chair {to} is not open")
    return [*moves, f"close,{chair}"]


def scaled(members: Members, who: str, percent: str) -> list[str]:
    """The votes of each member in per cent, each rounded on its own. Suspended members have votes, too."""
    found = CHAIR.fullmatch(who)
    codes = [code for code, it in members.items() if found and it.chair == int(found[1])]
    if found and not codes:
        raise BadStudy(f"{who} has no member")
    grown = 1 + Fraction(percent) / 100
    parts = {code: round(members[code].votes * grown) for code in codes or codes_of(members, who)}
    return [record for code, votes in parts.items() for record in records_for(members, [code], votes)]


def shared(members: Members, codes: Sequence[str], percent: str, others: str) -> list[str]:
    """Members get a share of the total; what they gain is added to it, or taken from all others in proportion."""
    if suspended := [code for code in codes if members[code].suspended]:
        raise BadStudy(f"{suspended[0]} is suspended, so it has no share of the total voting power")
    if not has_proportions(members, codes):
        raise BadStudy(NO_PROPORTIONS)
    own, total, is_more = votes_of(members, codes), total_of(members), percent[0] in "+-"
    asked = Fraction(percent) + (Fraction(100 * own, total) if is_more and total else 0)
    if total == (own if others == "keep" else 0) or not 0 <= asked < 100:
        unit = "points more" if is_more else "per cent"
        raise BadStudy(f"no number of votes is {percent} {unit} of the total voting power")
    if others == "keep":
        return changing(members, records_for(members, codes, round(asked / (100 - asked) * (total - own))))
    votes = round(asked * total / 100)
    rest = [code for code, it in members.items() if not it.suspended and code not in codes]
    if not has_proportions(members, rest):
        raise BadStudy("the others have no votes to pay with")
    return changing(members, [*records_for(members, codes, votes), *records_for(members, rest, total - votes)])


def changing(members: Members, records: Iterable[str]) -> list[str]:
    """The records that change a member's votes."""
    same = {f"votes,{code},{it.votes}" for code, it in members.items()}
    return [it for it in records if it not in same]


def moved(members: Members, codes: Sequence[str], to: Optional[int]) -> list[str]:
    """Members move to a chair or to none, except those that are there."""
    moves = [f"move,{code},{to or 'none'}" for code in codes if members[code].chair != to]
    if not moves:
        raise BadStudy(f"these members are in {f'chair {to} already' if to else 'no chair'}")
    return moves


def split_off(codes: Sequence[str], to: Union[int, str], chairs: Container[int]) -> list[str]:
    """A chair is opened, and members move there."""
    closed = [it for it in range(1, CHAIRS + 1) if it not in chairs]
    if not closed:
        raise BadStudy(f"all {CHAIRS} chairs are open")
    chair = closed[0] if to == "lowest" else to
    return [f"open,{chair}", *(f"move,{code},{chair}" for code in codes)]


def records_of_operation(members: Members, asked: Operation, chairs: Container[int]) -> list[str]:
    """The records of an operation where some chairs are open."""
    it = asked.fields
    if asked.kind in ("merge", "dissolve"):
        return emptied(members, it["chair"], it["to"], chairs)
    if asked.kind == "scale":
        return scaled(members, it["of"], it["percent"])
    codes = codes_of(members, it["codes"])
    if asked.kind == "split":
        return split_off(codes, it["to"], chairs)
    return (
        shared(members, codes, it["percent"], it["others"])
        if asked.kind == "share"
        else moved(members, codes, it["to"])
    )


def plain_command(text: str) -> str:
    """A command of a scenario without blanks around its fields."""
    command = ",".join(" ".join(part.split()) for part in text.split(","))
    kind, *fields = command.split(",")
    known = dict.fromkeys([*KINDS, *OPERATIONS])
    if kind not in known or '"' in command:
        raise BadStudy(f"{text.strip()[:60]!r} is no command of a scenario: these are {', '.join(known)}")
    if kind == "votes" and len(fields) == 2:
        percent_of(fields[1])
    operation_of(command)
    return command


def records_of(members: Members, command: str, chairs: Container[int] = ()) -> list[str]:
    """The records of a command, where some chairs are open: those of an operation, and per cent as votes."""
    if asked := operation_of(command):
        return records_of_operation(members, asked, chairs)
    kind, who, amount = [*command.split(","), "", ""][:3]
    percent = percent_of(amount) if kind == "votes" else None
    if percent:
        codes_of(members, who)
        return scaled(members, who, str(percent)) if percent.sign else shared(members, [who], percent.number, "keep")
    is_number = amount.isascii() and amount.isdecimal() and len(amount) <= 20
    if kind != "votes" or not (GROUP.fullmatch(who) and is_number):
        return [command]
    return records_for(members, codes_of(members, who), int(amount))
