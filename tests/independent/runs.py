"""The runs of the program as docs/FORMATS.md describes them: from its words and an input's bytes to all that it prints,
and its status."""
from __future__ import annotations

from collections.abc import Callable, Iterator
from dataclasses import dataclass

from tests.independent.counts import CLAUSES, counts, quota
from tests.independent.machine import trace

from tests.independent.register import (
    Fault, Malformed, Register, Sheet, command_of, line_of, number_of, opening_of, records_of,
)  # fmt: skip

SERVED_READERS = 2


@dataclass(frozen=True)
class Answer:
    """The program's output, its words on standard error (None: some reason in unspecified words), its status."""

    printed: bytes
    reason: bytes | None
    status: int


def fraction(numerator: int, denominator: int) -> str:
    """A fraction that isn't reduced; it is absent if it would be divided by 0."""
    return f"{numerator}/{denominator}" if denominator else "-"


def reading(reader: int, sheet: Sheet, majority: str) -> list[str]:
    """The lines of a reading: the sheet's own, and one for each open chair by number."""
    weights = tuple(sheet.weights.values())
    found, coalitions = counts(weights, sheet.total, majority), 1 << len(weights)
    least, cast = quota(weights, sheet.total, majority), sum(weights)
    lines = [
        f"reading,{reader},{sheet.front},{majority},{len(weights)},{least},{cast},{sheet.total},"
        f"{found.winning},{coalitions}"
    ]
    for (chair, weight), swings in zip(sheet.weights.items(), found.swings):
        under = [coalitions // 2, sum(found.swings), found.winning, coalitions - found.winning]
        lines.append(f"chair,{chair},{weight},{swings}," + ",".join(fraction(swings, other) for other in under))
    return lines


@dataclass(frozen=True)
class Read:
    """A reading: its reader, and a majority."""

    reader: int
    majority: str


def request_of(record: int, fields: list[str], readers: int) -> Callable[[Register], None] | Read | None:
    """What a record asks for: a command, a reading by a reader at a majority, or a publication (None)."""
    try:
        match fields:
            case ["publish"]:
                return None
            case ["read", reader, majority] if majority in CLAUSES:
                if not 1 <= number_of(reader) <= readers:
                    raise Fault(record, "BadReader")
                return Read(int(reader), majority)
        return command_of(fields)
    except Malformed:
        raise Fault(record, "BadRecord") from None


def replay(given: bytes | None, readers: int, journal: int) -> Iterator[str]:
    """The lines of a replay, up to its fault."""
    records = records_of(given)
    register = Register(opening_of(records), journal)
    published = register.sheet()
    for record, fields in records:
        request = request_of(record, fields, readers)
        if request is None:
            published = register.sheet()
            yield f"published,{published.front}"
        elif isinstance(request, Read):
            yield from reading(request.reader, published, request.majority)
        else:
            yield line_of(register, request)


def serve(given: bytes | None, readers: int, journal: int) -> Iterator[str]:
    """The lines of a run on threads."""
    records = records_of(given)
    register = Register(opening_of(records), journal)
    asked = [request_of(record, fields, readers) for record, fields in records]
    for request in asked:
        if request is None:
            yield f"published,{register.accepted}"
        elif not isinstance(request, Read):
            yield line_of(register, request)
    for reader in range(1, readers + 1):
        yield f"reader,{reader},{sum(isinstance(it, Read) and it.reader == reader for it in asked)}"
    yield "audit,ok"


RUNS = {"replay": replay, "trace": trace, "serve": serve}


def limits_of(words: tuple[str, ...]) -> tuple[int, int]:
    """The number of readers and the journal's limit, from the words after `board`."""
    parts = [part for word in words[1:] for part in (word.split("=", 1) if word.startswith("--") else [word])]
    said = dict(zip(parts[::2], parts[1::2]))
    options = {"--journal"} if words[:1] == ("serve",) else {"--readers", "--journal"}
    if not words or words[0] not in RUNS or len(parts) != 2 * len(said) or not said.keys() <= options:
        raise Malformed(words)
    plain = {option: number.removeprefix("+") for option, number in said.items()}
    readers = SERVED_READERS if words[0] == "serve" else number_of(plain.get("--readers", "1"), 1, 4)
    return readers, number_of(plain.get("--journal", "1000000"), 1, 1_000_000)


def answer(words: tuple[str, ...], given: bytes | None, writable: bool) -> Answer:
    """The answer of `board` with these words to these bytes, or to an input that can't be read (None), if its output
    can be written or if it can't."""
    lines: list[str] = []
    name = ""
    try:
        readers, journal = limits_of(words)
        for line in RUNS[words[0]](given, readers, journal):
            lines.append(line)
    except Malformed:
        return Answer(b"", None, 2)
    except Fault as fault:
        lines.append(f"fault,{fault.record},{fault.name}")
        name = fault.name
    if lines and not writable:
        lines, name = [], "WriteFault"
    printed = "".join(line + "\n" for line in lines).encode()
    return Answer(printed, f"board: {name}\n".encode() if name else b"", 1 if name else 0)
