"""The call board_script of the compiled library: what it reads of inputs, and the bytes of each item.

read.c calls it, also with less room and with memory refused. The result is compared with the fault that the program
prints, and all that is read with a reading over the rules of tests/independent."""
from __future__ import annotations

import csv
import io
import struct
import subprocess
from collections.abc import Iterator, Sequence
from concurrent.futures import ProcessPoolExecutor
from dataclasses import dataclass
from functools import partial
from itertools import islice
from pathlib import Path
from random import Random

import pytest

from tests.cases.case_files import all_cases, readme_cases
from tests.independent.inputs import KINDS, dirtied
from tests.independent.register import BYTE_ORDER_MARK
from tests.script.reading import Reading, is_alone, reading
from tests.shared.commands import TOP, Say
from tests.shared.libraries import REFUSING, over_libraries
from tests.shared.sizes import drawn, seed

NUMBERS = {
    "": 0,
    "DuplicateMember": 11,
    "TooManyMembers": 12,
    "BadLimit": 13,
    "BadRecord": 17,
    "BadHeader": 21,
    "BadReader": 22,
    "NoScript": 28,
    "TooLong": 29,
}
# How many inputs are drawn, how many are changed, and how many are written in another way.
MANY = drawn(800, 3_000)
# What is changed of an input: its first bytes.
LONGEST = 200_000
SHOWN = 300
# How many inputs a process takes at a time.
TAKEN = 100


@dataclass(frozen=True)
class Input:
    """An input: its kind, its bytes and the number of readers."""

    kind: str
    given: bytes
    readers: int


@dataclass(frozen=True)
class Judged:
    """The kind of an input, how many members and items it has, and what is wrong with what was read of it."""

    kind: str
    records: int
    wrong: str


def readers_of(words: Sequence[str]) -> int:
    """The number of readers that a case asks for."""
    at = list(words).index("--readers") + 1 if "--readers" in words[:-1] else 0
    return int(words[at]) if at and words[at].isdecimal() else 1


def quoted(chance: Random, word: str) -> str:
    """A field with no quotes, with quotes around it or around its first part."""
    at = chance.choice([0, 0, len(word), chance.randint(0, len(word))])
    return f'"{word[:at]}"{word[at:]}' if at else word


def rewritten(chance: Random, text: bytes) -> bytes:
    """The same records with other quotes and line ends, with blank lines, and sometimes with a byte order mark."""
    rows = csv.reader(io.StringIO(text.removeprefix(BYTE_ORDER_MARK).decode("latin-1"), newline=""))
    ends = ["\n", "\r\n", "\r", "\n\n", "\r\r\n", "\r\n\n\r"]
    lines = [",".join(quoted(chance, word) for word in row if '"' not in word) for row in rows if row]
    lines = [line + chance.choice(ends) for line in lines]
    last = "".join(lines) if chance.random() < 0.5 else "".join(lines).rstrip("\r\n")
    mark = chance.choice([b"", b"", BYTE_ORDER_MARK])
    return mark + (chance.choice(["", *ends]) + last).encode("latin-1")


def whole_inputs() -> list[Input]:
    """The worked examples, and those of the folder `examples`."""
    found = [Input("cases", it.given, readers_of(it.words)) for it in [*all_cases(), *readme_cases(TOP)]]
    return found + [Input("cases", it.read_bytes(), 1) for it in sorted((TOP / "examples").glob("*.csv"))]


def drawn_inputs() -> Iterator[Input]:
    """Inputs of tests/independent."""
    kinds = [kind for kind, (_, share) in KINDS.items() for _ in range(share)]
    for place in range(MANY):
        kind = kinds[place * 37 % len(kinds)]
        one = KINDS[kind][0](Random(f"script/{seed()}/{place}"))
        if one.given is not None:
            yield Input(kind, one.given, readers_of(one.words))


def changed_inputs(whole: list[Input]) -> Iterator[Input]:
    """Inputs with bytes put in, taken out or quoted, and inputs with the same records, written in another way."""
    for place in range(MANY):
        chance = Random(f"mutated/{seed()}/{place}")
        it = chance.choice(whole)
        yield Input("mutated", dirtied(chance, it.given[:LONGEST], chance.randint(1, 4)), it.readers)
        chance = Random(f"rewritten/{seed()}/{place}")
        it = chance.choice(whole)
        yield Input("rewritten", rewritten(chance, it.given[:LONGEST]), it.readers)


def all_inputs() -> list[Input]:
    whole = whole_inputs()
    readers = [Input("readers", whole[3].given, it) for it in (0, 1, 4, 5, 255, 256, 257, 2**31, 2**32 - 1)]
    return [*whole, *readers, *drawn_inputs(), *changed_inputs(whole)]


def fault_of(program: Path, it: Input) -> tuple[str, int]:
    """The fault of a replay by the program, which refuses limits out of range before it reads."""
    words = [str(program), "replay", "--readers", str(it.readers)]
    ran = subprocess.run(words, input=it.given, capture_output=True)
    if ran.returncode == 2:
        return "BadLimit", 0
    last = ran.stdout.decode("latin-1").splitlines()[-1:] or [""]
    _, record, name = last[0].split(",") if last[0].startswith("fault,") else ("", "0", "")
    return name, int(record)


def said_of(lines: list[str]) -> Reading:
    """What read.c printed of an input, with the name of the number that the call returned."""
    answer, record, members, _, _ = map(int, lines[0].split())
    found = Reading(record=record, fault=next((it for it, number in NUMBERS.items() if number == answer), str(answer)))
    for code, votes in (line.split(",") for line in lines[1 : members + 1]):
        found.members.append((code, int(votes)))
    for number, kind, code, *parts in (line.split(",") for line in lines[members + 1 :]):
        found.items.append((int(number), int(kind), code, *map(int, parts)))
    return found


def parts_of(lines: Iterator[str]) -> Iterator[list[str]]:
    """The lines of each input, up to the end or to a line that isn't the first of an input."""
    for line in lines:
        if line.startswith("end "):
            return
        _, _, members, items, _ = map(int, line.split())
        yield [line, *islice(lines, members + items)]


def judged(program: Path, pair: tuple[Input, list[str]]) -> Judged:
    """Whether what was read of an input is right, and each item's bytes alone are its record."""
    it, lines = pair
    found, wanted, fault = said_of(lines), reading(it.given, it.readers), fault_of(program, it)
    alone = all(is_alone(it.given, item, it.readers) for item in found.items)
    is_right = found == wanted and (found.fault, found.record) == fault and alone
    why = f"{it.given[:SHOWN]!r}: {found.fault} at {found.record}, by the program {fault[0]} at {fault[1]}"
    return Judged(it.kind, len(found.members) + len(found.items), "" if is_right else why)


@dataclass(frozen=True)
class Batch:
    """All inputs, the lines that read.c printed and its status, and what is wrong with what it read."""

    inputs: list[Input]
    lines: list[str]
    status: int
    judged: list[Judged]


@pytest.fixture(scope="module")
def batch(program: Path, tmp_path_factory: pytest.TempPathFactory) -> Batch:
    inputs = all_inputs()
    made = over_libraries(Path(__file__).parent / "read.c", tmp_path_factory.mktemp("read") / "read", *REFUSING)
    given = b"".join(struct.pack("<II", it.readers, len(it.given)) + it.given for it in inputs)
    ran = subprocess.run([made, "batch"], input=given, capture_output=True)
    lines = ran.stdout.decode("latin-1").splitlines()
    with ProcessPoolExecutor() as pool:
        found = list(pool.map(partial(judged, program), zip(inputs, parts_of(iter(lines))), chunksize=TAKEN))
    return Batch(inputs, lines, ran.returncode, found)


def test_the_batch_ends(batch: Batch) -> None:
    # Catches: an input at which read.c finds a wrong answer with less room or refused memory, or kept memory.
    assert (batch.status, batch.lines[-1:]) == (0, [f"end {len(batch.inputs)}"])
    assert len(batch.judged) == len(batch.inputs)


KINDS_HERE = ["cases", "readers", *KINDS, "mutated", "rewritten"]


@pytest.mark.parametrize("kind", KINDS_HERE)
def test_inputs(batch: Batch, kind: str, record_property: Say) -> None:
    # Catches: a member, an item, its bytes or a fault that isn't what the program and the independent reader read.
    found = [it for it in batch.judged if it.kind == kind]
    record_property("inputs", f"{len(found)}, with {sum(it.records for it in found)} members and items")
    wrong = [it.wrong for it in found if it.wrong]
    assert len(found) == sum(it.kind == kind for it in batch.inputs) > 0
    assert not wrong, f"{len(wrong)} of {len(found)} inputs\n" + "\n".join(wrong[:10])
