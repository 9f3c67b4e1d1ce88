"""Inputs of a replay or a trace: those of tests/cases, some at the limits, and files that are changed at random, from a
seed."""
from __future__ import annotations

import random
import re
from collections.abc import Callable
from dataclasses import dataclass

from tests.cases.case_files import Case, all_cases
from tests.independent.counts import CLAUSES
from tests.shared.commands import TOP

LONGEST = 4_194_304
READERS = 4
JOURNAL = 1_000_000
# A file with more bytes is not changed, since its runs take long.
MOST = 20_000
HEADER = b"member,votes\n"
RECORDS = [
    *b"open,N close,N move,CODE,N move,CODE,none votes,CODE,N suspend,CODE restore,CODE admit,CODE,N".split(),
    *b"withdraw,CODE publish publish".split(),
    *(f"read,1,{it}".encode() for it in CLAUSES),
    b"read,N,half",
]
BYTES = b',,,"""\r\n\n0123456789ABCDEFabcdef \xef\xbb\xbf\x00\xff'


@dataclass(frozen=True)
class Call:
    """An input of a replay or a trace, and the limits."""

    name: str
    text: bytes
    readers: int = 1
    journal: int = JOURNAL
    command: str = "replay"


def put_byte(some: random.Random, text: bytes) -> bytes:
    """Puts a byte between two others, or in the place of one."""
    at = some.randint(0, len(text))
    return text[:at] + bytes([some.choice(BYTES)]) + text[at + some.randint(0, 1) :]


def cut_out(some: random.Random, text: bytes) -> bytes:
    at = some.randint(0, len(text))
    return text[:at] + text[at + some.randint(1, 20) :]


def cut_end(some: random.Random, text: bytes) -> bytes:
    return text[: some.randint(0, len(text))]


def quote(some: random.Random, text: bytes) -> bytes:
    """Puts quotes round some bytes, often round a whole field."""
    start = some.choice([0, *(at + 1 for at, byte in enumerate(text) if byte in b",\n")])
    end = start + some.choice([some.randint(0, 12), len(re.split(b"[,\r\n]", text[start:])[0])])
    return text[:start] + b'"' + text[start:end] + b'"' + text[end:]


def end_by_cr(some: random.Random, text: bytes) -> bytes:
    return text.replace(b"\n", some.choice([b"\r", b"\r\n", b"\n\n"]), some.randint(1, 9))


def change_lines(some: random.Random, text: bytes) -> bytes:
    """Takes out a line, doubles one, or swaps two."""
    lines = text.splitlines(keepends=True) or [b""]
    at, other = some.randrange(len(lines)), some.randrange(len(lines))
    if some.random() < 0.3:
        del lines[at]
    elif some.random() < 0.5:
        lines.insert(other, lines[at])
    else:
        lines[at], lines[other] = lines[other], lines[at]
    return b"".join(lines)


def put_records(some: random.Random, text: bytes) -> bytes:
    """Puts records among those of the script."""
    lines = text.splitlines(keepends=True)
    codes = re.findall(rb"[A-Z]{3}", text) or [b"AAA"]
    first = lines.index(b"script\n") + 1 if b"script\n" in lines else len(lines)
    for _ in range(some.randint(1, 6)):
        number = some.choice([1, 2, 3, some.randint(0, 40)])
        record = some.choice(RECORDS).replace(b"N", b"%d" % number).replace(b"CODE", some.choice(codes))
        lines.insert(some.randint(first, len(lines)), record + b"\n")
    return b"".join(lines)


CHANGES: list[Callable[[random.Random, bytes], bytes]] = [
    put_records,
    put_byte,
    change_lines,
    end_by_cr,
    quote,
    cut_out,
    cut_end,
]
OFTEN = [16, 2, 4, 2, 2, 1, 1]


def mutated(seed: int, many: int) -> list[Call]:
    """Inputs of `replay`, most of them from successful runs, with one to four changes each, most of them after the
    first record, and with limits at random."""
    some = random.Random(seed)
    examples = [it.read_bytes() for it in sorted((TOP / "examples").glob("*.csv"))]
    texts = [it for it in [*(case.given for case in replays()), *examples] if len(it) <= MOST]
    well = [case.given for case in replays() if case.status == 0 and len(case.given) <= MOST]
    found = []
    for number in range(many):
        text = some.choice(well if some.random() < 0.8 else texts)
        for change in some.choices(CHANGES, OFTEN, k=some.randint(1, 4)):
            at = len(HEADER) if text.startswith(HEADER) and some.random() < 0.95 else 0
            text = text[:at] + change(some, text[at:])
        journal = some.choice([JOURNAL, JOURNAL, some.randint(1, 20)])
        found.append(Call(f"changed {number}", text, some.randint(1, READERS), journal))
    return found


def replays(command: str = "replay") -> list[Case]:
    """The cases of `replay` or of `trace`, except those whose words are refused or ask for help."""
    return [it for it in all_cases() if it.words[:1] == [command] and it.status != 2 and "--help" not in it.words]


def of_cases(command: str = "replay") -> list[Call]:
    """The calls that the cases of `replay` or of `trace` make."""
    found = []
    for it in replays(command):
        limits = {name.removeprefix("--"): int(value) for name, value in zip(it.words[1::2], it.words[2::2])}
        found.append(Call(it.name, it.given, **limits, command=command))
    return found


def at_limits() -> list[Call]:
    """Inputs without bytes, with the most that are allowed, and with one more; and one whose text is long."""
    begun = b"member,votes\nAAA,1\nscript\n"
    chairs = b"".join(b"open,%d\n" % chair for chair in range(1, 33))
    return [
        Call("no bytes", b""),
        Call("the longest input", begun + b"\n" * (LONGEST - len(begun))),
        Call("a byte too many", begun + b"\n" * (LONGEST + 1 - len(begun))),
        Call("a long text", begun + chairs + b"publish\n" + b"read,1,half\n" * 300),
    ]
