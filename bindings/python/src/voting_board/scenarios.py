"""Labelled scenarios and sweeps, and the files of scenarios: CSV, or TOML with a table [[scenario]] for each."""
from __future__ import annotations

import csv
import io
import re
from collections.abc import Callable, Iterable, Iterator, Mapping
from dataclasses import dataclass
from decimal import Decimal
from importlib import import_module
from pathlib import Path
from typing import Any, TypeVar, Union

from .amounts import CODE, DECIMAL, BadStudy
from .operations import plain_command
from .results import Command

BASE = "base"
MOST_STEPS = 1001
HEADER = ["label", "commands"]
SWEEP = re.compile(
    rf"(?:from (.+): ?)?(chair [1-9][0-9]?|{CODE}(?:\+{CODE})*) ({DECIMAL})\.\.({DECIMAL}) by ({DECIMAL}) ?%"
)
SWEEP_FORM = (
    "isn't of the form 'WHO FROM..TO by STEP %', where WHO is a member's code, codes joined by +, or a chair such as "
    "'chair 17'; 'from LABEL:' may precede it"
)
T = TypeVar("T")
#: Commands of a scenario: text with semicolons between them, or a list of texts and of Commands.
Asked = Union[str, Iterable[Union[str, Command]]]


@dataclass(frozen=True)
class Scenario:
    """A label, and commands that are carried out on the base. `votes` may have per cent, or several members.

    names: for each command the name of the new member that it is about, or of the chair that it opens; else empty
    """

    label: str
    commands: tuple[str, ...]
    names: tuple[str, ...] = ()


@dataclass(frozen=True)
class Sweep:
    """A share of the total voting power, in per cent, that some votes have, from `first` to `last` in steps.

    who: a member's code, several joined by +, or a chair, such as "chair 17"
    start: the label of the scenario from whose register it starts
    """

    text: str
    who: str
    first: Decimal
    last: Decimal
    step: Decimal
    start: str = BASE

    @property
    def percents(self) -> list[str]:
        """The shares, as decimals with one number of places."""
        return [str(self.first + self.step * at) for at in range(int((self.last - self.first) / self.step) + 1)]

    def label(self, percent: str) -> str:
        """The label of a step."""
        return f"from {self.start}: " * (self.start != BASE) + f"{self.who} {plain(Decimal(percent))} %"


def plain(number: Decimal) -> str:
    """A decimal without zeros at its end."""
    return format(number.normalize(), "f")


def one_line(text: str) -> str:
    """A text with one blank between words."""
    return " ".join(text.split())


def scenario(label: str, commands: Asked) -> Scenario:
    """The scenario of a label and of commands."""
    given = commands.split(";") if isinstance(commands, str) else [str(it) for it in commands]
    texts = [it for it in given if it.strip()]
    if not label.strip():
        raise BadStudy("a scenario has no label")
    if not texts:
        raise BadStudy(f"the scenario {one_line(label)!r} has no command")
    try:
        return Scenario(one_line(label), tuple(map(plain_command, texts)))
    except BadStudy as why:
        raise BadStudy(f"scenario {one_line(label)!r}: {why}") from None


def scenario_of(text: str) -> Scenario:
    """The scenario of a text 'LABEL: command; command'. The last colon ends the label."""
    label, colon, commands = text.rpartition(":")
    if not colon:
        raise BadStudy(f"{text!r} isn't of the form 'LABEL: command; command'")
    return scenario(label, commands)


def sweep_of(text: str) -> Sweep:
    """The sweep of a text 'WHO FROM..TO by STEP %'; 'from LABEL:' may precede it."""
    found = SWEEP.fullmatch(one_line(text))
    if not found:
        raise BadStudy(f"{text!r} {SWEEP_FORM}")
    start, who = found.groups()[:2]
    first, last, step = map(Decimal, found.groups()[2:])
    if not first < last < 100 or step == 0 or (last - first) % step != 0:
        raise BadStudy(f"{text!r}: whole steps lead from FROM to TO, which is greater and below 100")
    if (last - first) / step >= MOST_STEPS:
        raise BadStudy(f"{text!r} has more than {MOST_STEPS} steps")
    return Sweep(one_line(text), who, first, last, step, start or BASE)


def each(read: Callable[[Any], T], given: Iterable[Any]) -> list[T]:
    """What is read of each item; BadStudy with all that is wrong."""
    found, problems = [], []
    for it in given:
        try:
            found.append(read(it))
        except BadStudy as why:
            problems.append(str(why))
    if problems:
        raise BadStudy("\n".join(problems))
    return found


def scenarios_of(given: Mapping[str, Asked] | Iterable[str | Scenario]) -> list[Scenario]:
    """The scenarios of a mapping from labels to commands, or of texts 'LABEL: command; command'."""
    if isinstance(given, Mapping):
        return each(lambda it: scenario(*it), given.items())
    texts = [given] if isinstance(given, str) else given
    return each(lambda it: it if isinstance(it, Scenario) else scenario_of(it), texts)


def csv_pairs(text: str) -> Iterator[tuple[str, object]]:
    """The places of a table's rows, and their cells."""
    reader = csv.reader(io.StringIO(text, newline=""), strict=True)
    try:
        header = next(reader, list[str]())
        if header != HEADER:
            raise BadStudy(f"row 1: the header of scenarios is label,commands, and not {','.join(header)[:60]!r}")
        rows = ((row, it) for row, it in enumerate(reader, 2) if it)
        yield from ((f"row {row}", dict(zip(HEADER, it)) if len(it) == len(HEADER) else it) for row, it in rows)
    except csv.Error as why:
        raise BadStudy(f"no CSV: {why}") from None


def toml_pairs(text: str) -> Iterator[tuple[str, object]]:
    """The places of the tables [[scenario]] of a TOML file, and these tables."""
    try:
        tomllib = import_module("tomllib")
    except ModuleNotFoundError:
        raise BadStudy("a file in TOML needs Python 3.11 or later: write a CSV file") from None
    try:
        given = tomllib.loads(text)
    except RecursionError:
        raise BadStudy("no TOML of scenarios: it is nested too deeply") from None
    except ValueError as why:
        raise BadStudy(f"no TOML: {str(why).splitlines()[0][:100]}") from None
    found = given.get("scenario")
    if set(given) != {"scenario"} or not isinstance(found, list):
        raise BadStudy("no TOML of scenarios: it has a table [[scenario]] for each, and nothing else")
    yield from ((f"scenario {at}", it) for at, it in enumerate(found, 1))


def scenario_in(pair: tuple[str, object]) -> Scenario:
    """The scenario at a place of a file."""
    place, given = pair
    if not isinstance(given, dict) or set(given) != set(HEADER):
        raise BadStudy(f"{place}: a scenario has a label and commands, with commands in quotes where they have a comma")
    label, commands = given["label"], given["commands"]
    texts = commands if isinstance(commands, list) else [commands]
    if not all(isinstance(it, str) for it in [label, *texts]):
        raise BadStudy(f"{place}: the label is a text, and commands are a text or a list of texts")
    try:
        return scenario(label, ";".join(texts))
    except BadStudy as why:
        raise BadStudy(f"{place}: {why}") from None


def scenarios_in(name: str, data: bytes) -> list[Scenario]:
    """The scenarios of a file: TOML where its name ends in .toml, else CSV with the columns label and commands."""
    try:
        text = data.decode("utf-8-sig")
        pairs = list(toml_pairs(text) if Path(name).suffix == ".toml" else csv_pairs(text))
        if not pairs:
            raise BadStudy("there is no scenario in the file")
        return each(scenario_in, pairs)
    except UnicodeDecodeError as why:
        raise BadStudy(f"{name}: no UTF-8 at byte {why.start}") from None
    except BadStudy as why:
        raise BadStudy("\n".join(f"{name}: {it}" for it in str(why).splitlines())) from None
