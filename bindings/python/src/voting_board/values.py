"""Arguments of callers as whole numbers, codes and majorities. A message has the place, the value and what is
allowed."""
from __future__ import annotations

import operator
from collections.abc import Iterable, Mapping, Set
from numbers import Real
from reprlib import repr
from typing import Any, Optional, SupportsIndex, Union, cast

from .names import (
    ALLOWED,
    BAD_CHAIR,
    BAD_LIMIT,
    BAD_MEMBER,
    BAD_RECORD,
    BAD_SHEET,
    CHAIRS,
    COMMANDS,
    MAJORITIES,
    MEMBER_VOTES,
    READERS,
    TOTAL_VOTES,
    VOTES_TOO_LARGE,
)
from .refusals import Refused

#: A whole number: an int, or a float such as 5.0, of Python or of numpy.
Whole = Union[SupportsIndex, float]
#: The weights of chairs 1, 2 and so on; or a weight for each chair's name.
Weights = Union[Mapping[str, Whole], Iterable[Whole]]


def wrong_type(value: object, place: str, allowed: str) -> TypeError:
    """The exception for a value of a wrong type at a place such as "weight 2 is"."""
    return TypeError(f"{place} {repr(value)} ({type(value).__name__}): {allowed}")


def is_float(value: object) -> bool:
    """Whether a value is a float, of Python or of numpy."""
    return isinstance(value, float) or (type(value).__module__ == "numpy" and isinstance(value, Real))


def is_bool(value: object) -> bool:
    """Whether a value is a bool, of Python or of numpy."""
    return type(value) is bool or (type(value).__module__, type(value).__name__[:4]) == ("numpy", "bool")


def whole(value: object, place: str, allowed: str, number: int, least: int = 0, most: Optional[int] = None) -> int:
    """A whole number in a range, also from a float without a fraction; anything else is refused by `number`."""
    if type(value) is int:
        found = value
    elif is_float(value):
        if not float(cast(float, value)).is_integer():
            raise Refused(number, f"{place} {value}: {allowed}")
        found = int(cast(float, value))
    else:
        try:
            found = operator.index(cast(SupportsIndex, None if is_bool(value) else value))
        except TypeError:
            raise wrong_type(value, place, allowed) from None
    if found < least or (most is not None and found > most):
        raise Refused(number, f"{place} {shown(found)}: {allowed}")
    return found


def shown(number: int) -> str:
    """A number as it is shown. Python refuses to write very long ones."""
    return str(number) if number.bit_length() < 1000 else f"a number of {number.bit_length()} bits"


def chair_of(value: object, place: str = "the chair is", number: int = BAD_CHAIR) -> int:
    """The number of a chair."""
    return whole(value, place, ALLOWED["chair"], number, 1, CHAIRS)


def votes_of(value: object, place: str) -> int:
    """The votes of a member of a register."""
    found = whole(value, place, ALLOWED["votes"], BAD_RECORD)
    if found > MEMBER_VOTES:
        raise Refused(VOTES_TOO_LARGE, f"{place} {shown(found)}: {ALLOWED['votes']}")
    return found


def board_votes_of(value: object, place: str) -> int:
    """The votes of a member of a board, which has no register."""
    found = whole(value, place, ALLOWED["weight"], BAD_SHEET)
    if found > TOTAL_VOTES:
        raise Refused(BAD_SHEET, f"{place} {shown(found)}: {ALLOWED['total_most']}")
    return found


def code_of(value: object, place: str = "the code is") -> str:
    """The code of a member."""
    if not isinstance(value, str):
        raise wrong_type(value, place, ALLOWED["code"])
    if len(value) != 3 or not (value.isascii() and value.isalpha() and value.isupper()):
        raise Refused(BAD_MEMBER, f"{place} {repr(value)}: {ALLOWED['code']}")
    return str(value)


def number_of(majority: object) -> int:
    """The library's number of a majority."""
    if not isinstance(majority, str):
        raise wrong_type(majority, "the majority is", ALLOWED["majority"])
    if majority not in MAJORITIES:
        raise Refused(BAD_RECORD, f"no majority {repr(majority)}: {ALLOWED['majority']}")
    return MAJORITIES.index(majority)


def journal_of(value: object) -> int:
    """The limit of a journal."""
    return whole(value, "the journal is", ALLOWED["journal"], BAD_LIMIT, 1, COMMANDS)


def readers_of(value: object) -> int:
    """The number of readers."""
    return whole(value, "the number of readers is", ALLOWED["readers"], BAD_LIMIT, 1, READERS)


def items_of(given: Any, place: str, allowed: str) -> list[Any]:
    """The items of a list, an array or another iterable that has an order."""
    items = given.tolist() if hasattr(given, "tolist") else given
    if isinstance(items, (str, bytes, bytearray, Set)) or not isinstance(items, Iterable):
        raise wrong_type(given, place, allowed)
    return list(items)


def names_in(given: Any) -> Optional[list[Any]]:
    """The names in a mapping from names, or in the index of a series of pandas that is of text; else None."""
    if isinstance(given, Mapping):
        return list(given)
    index = getattr(given, "index", None)
    names = list(index) if index is not None and not callable(index) else []
    return names if any(isinstance(it, str) for it in names) else None


def weights_of(given: Weights, where: str = "") -> tuple[list[int], dict[int, str]]:
    """The weights of a board, and the name of each chair that has one, by its number."""
    names = names_in(given) or []
    for place, name in enumerate(names, 1):
        if not isinstance(name, str):
            raise wrong_type(name, f"{where}name {place} is", ALLOWED["name"])
    values = given.values() if isinstance(given, Mapping) else given
    items = items_of(values, f"{where}the weights are", ALLOWED["weight"])
    if not all(type(it) is int for it in items) or min(items, default=0) < 0:
        items = [whole(it, f"{where}weight {at} is", ALLOWED["weight"], BAD_SHEET) for at, it in enumerate(items, 1)]
    if len(items) > CHAIRS:
        raise Refused(BAD_SHEET, f"{where}{len(items)} weights: {ALLOWED['weights']}")
    return items, dict(enumerate(map(str, names), 1))


def total_of(weights: list[int], total: Optional[Whole], where: str = "") -> int:
    """The total voting power of a board: the sum of its weights if none is given."""
    place, cast_votes = f"{where}the total is", sum(weights)
    found = cast_votes if total is None else whole(total, place, ALLOWED["total"], BAD_SHEET)
    if found > TOTAL_VOTES:
        raise Refused(BAD_SHEET, f"{place} {shown(found)}: {ALLOWED['total_most']}")
    if found < cast_votes:
        raise Refused(BAD_SHEET, f"{place} {found}: {ALLOWED['total_least']}, {shown(cast_votes)}")
    return found


def text_of(given: object, place: str) -> bytes:
    """A script or records as bytes."""
    if isinstance(given, str):
        return given.encode("utf-8", "surrogatepass")
    if isinstance(given, (bytes, bytearray)):
        return bytes(given)
    raise wrong_type(given, place, "text or bytes")
