"""The inputs of the tests, and what the program and the libraries that are proved answer to them."""
from __future__ import annotations

import random
import struct
from functools import cache
from hashlib import sha256
from pathlib import Path

from tests.shared.boards import boards
from tests.shared.commands import TOP, printed
from tests.shared.inputs import (
    CHANGES,
    JOURNAL,
    OFTEN,
    READERS,
    Call,
    at_limits,
    mutated,
    of_cases,
    put_records,
    replays,
)
from tests.shared.kept import Kept
from tests.shared.libraries import over_libraries
from tests.shared.runs import Run, all_by_program
from tests.shared.sizes import drawn, seed

INPUTS, SCHEDULES, BOARDS = drawn(500, 3_000), drawn(200, 1_000), drawn(300, 1_500)
EVENTS = b"writer,N reader,1,N reader,1,N publish submit,open,1 submit,move,AAA,1 submit,votes,AAA,N".split()


def put_events(some: random.Random, text: bytes) -> bytes:
    """Puts events among those of a schedule."""
    lines = text.splitlines(keepends=True)
    first = lines.index(b"script\n") + 1 if b"script\n" in lines else len(lines)
    for _ in range(some.randint(1, 6)):
        steps = some.choice([1, 5, 36, some.randint(0, 1_001)])
        event = some.choice(EVENTS).replace(b"N", b"%d" % steps)
        lines.insert(some.randint(first, len(lines)), event + b"\n")
    return b"".join(lines)


def changed_schedules() -> list[Call]:
    """Schedules of the worked examples without a fault, each with events put in, and many changed in other ways."""
    some = random.Random(seed())
    changes = [it for it in CHANGES if it is not put_records]
    texts = [it.given for it in replays("trace") if it.status == 0]
    found = []
    for number in range(SCHEDULES):
        text = put_events(some, some.choice(texts))
        for change in some.choices(changes, OFTEN[1:], k=some.choice([0, 0, 1, 2])):
            text = change(some, text)
        found.append(Call(f"schedule {number}", text, some.randint(1, READERS), some.choice([JOURNAL, 3]), "trace"))
    return found


@cache
def inputs(command: str) -> list[Call]:
    """The inputs of a command: those of the worked examples first, then those at the limits, and changed ones."""
    limits = [Call(f"{it.name} of {command}", it.text, it.readers, it.journal, command) for it in at_limits()]
    return [*of_cases(command), *limits, *(mutated(seed(), INPUTS) if command == "replay" else changed_schedules())]


@cache
def boards_drawn() -> list[bytes]:
    """Boards as tests/targets/counts.c reads them."""
    return [struct.pack(f"<{len(it)}Q", *it) for it in boards(seed(), BOARDS)]


def batch(calls: list[Call]) -> bytes:
    """Inputs as tests/script/read.c reads them."""
    return b"".join(struct.pack("<2I", it.readers, len(it.text)) + it.text for it in calls)


class Answers:
    """What the program and the libraries that are proved answer."""

    def __init__(self, program: Path, kept: Kept) -> None:
        self.program, self.kept = program, kept

    def native(self, source: str, words: list[str], given: bytes, *flags: str) -> bytes:
        """What a program in C of the other tests writes over the libraries."""
        stem = Path(source).stem
        made = self.kept.folder / f"{stem}.native"
        program = self.kept(stem, lambda: over_libraries(TOP / "tests" / source, made, *flags))
        name = "-".join([stem, *words, sha256(given).hexdigest()[:16]])
        return self.kept(name, lambda: printed([program, *words], given))

    def runs(self, calls: list[Call]) -> list[Run]:
        """The runs of the program."""
        every = inputs(calls[0].command)
        made = self.kept(calls[0].command, lambda: all_by_program(self.program, every))
        found = {call.name: run for call, run in zip(every, made, strict=True)}
        return [found[it.name] for it in calls]
