"""The lines that `board replay` prints."""
from __future__ import annotations

from dataclasses import dataclass, field
from typing import NamedTuple, Optional


class Ratio(NamedTuple):
    """A fraction as it is printed."""

    numerator: int
    denominator: int


@dataclass(frozen=True)
class Chair:
    """A chair's line."""

    chair: int
    weight: int
    swings: int
    banzhaf: Ratio
    share: Optional[Ratio]
    prevent: Optional[Ratio]
    initiate: Ratio


@dataclass(frozen=True)
class Reading:
    """A reading's line, with the lines of its chairs."""

    reader: int
    front: int
    majority: str
    open_chairs: int
    quota: int
    cast: int
    total: int
    winning: int
    coalitions: int
    chairs: list[Chair] = field(default_factory=list)


@dataclass(frozen=True)
class Output:
    """All readings of an output."""

    readings: list[Reading]


def ratio_of(text: str) -> Ratio | None:
    return None if text == "-" else Ratio(*map(int, text.split("/")))


def read_output(data: bytes) -> Output:
    """The readings of an output."""
    found: list[Reading] = []
    for word, *fields in (line.split(",") for line in data.decode("ascii").splitlines()):
        if word == "reading":
            reader, front, majority, *numbers = fields
            found.append(Reading(int(reader), int(front), majority, *map(int, numbers)))  # type: ignore[arg-type]
        elif word == "chair":
            chair = Chair(*map(int, fields[:3]), *map(ratio_of, fields[3:]))  # type: ignore[arg-type]
            found[-1].chairs.append(chair)
    return Output(found)
