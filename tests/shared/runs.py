"""Replays and traces of inputs: by the program, from C by board_replay and board_trace, by the WebAssembly module."""
from __future__ import annotations

import base64
import json
import os
import re
import struct
from concurrent.futures import ThreadPoolExecutor
from dataclasses import dataclass
from functools import cache
from pathlib import Path

from tests.shared.commands import TOP, Words, ended, printed
from tests.shared.inputs import Call


@dataclass(frozen=True)
class Run:
    """The text of a run, and the number of the fault that ended it and of its record: 0 if there is none."""

    text: bytes
    fault: int
    record: int


@cache
def faults() -> dict[bytes, int]:
    """The numbers of the faults, by name."""
    text = (TOP / "docs" / "FORMATS.md").read_text()
    return {name.encode(): int(number) for number, name in re.findall(r"^\| (\d+) \| (\w+) \|", text, re.MULTILINE)}


def by_program(program: Path, call: Call) -> Run:
    """The run of the program. Its status, its standard error and its last line must report the same fault."""
    words = [str(program), call.command, "--readers", str(call.readers), "--journal", str(call.journal)]
    done = ended(words, call.text)
    if done.status == 0:
        assert not done.complaint, call.name
        return Run(done.output, 0, 0)
    first, record, name = done.output.splitlines()[-1].split(b",")
    assert (done.status, done.complaint, first) == (1, b"board: " + name + b"\n", b"fault"), call.name
    return Run(done.output, faults()[name], int(record))


def all_by_program(program: Path, calls: list[Call]) -> list[Run]:
    with ThreadPoolExecutor(os.cpu_count()) as pool:
        return list(pool.map(lambda it: by_program(program, it), calls))


def by_c(words: Words, calls: list[Call], wanted: list[Run]) -> list[Run]:
    """The runs of replays.c, each with as much room as its text must have."""
    given = [
        struct.pack("<4Q", len(call.text), call.readers, call.journal, len(want.text)) + call.text
        for call, want in zip(calls, wanted, strict=True)
    ]
    answers = printed(words, b"".join(given))
    found, at = list[Run](), 0
    while at < len(answers):
        fault, record, length = struct.unpack_from("<BIQ", answers, at)
        at += struct.calcsize("<BIQ") + length
        found.append(Run(answers[at - length : at], fault, record))
    return found


def by_module(words: Words, calls: list[Call]) -> list[Run]:
    """The runs of calls.mjs."""
    given = [{"text": base64.b64encode(it.text).decode(), "readers": it.readers, "journal": it.journal} for it in calls]
    answers = json.loads(printed(words, json.dumps(given).encode()))
    return [Run(it["text"].encode(), it["fault"], it["record"]) for it in answers]


def check_same(calls: list[Call], found: list[Run], wanted: list[Run]) -> None:
    """Two runs of each input are the same."""
    differ = [call for call, run, want in zip(calls, found, wanted, strict=True) if run != want]
    assert not differ, f"{len(differ)} of {len(calls)} runs differ, the first: {differ[0]}"
