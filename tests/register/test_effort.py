"""How much the program computes, in instructions: they are the same on every machine and at every load."""
from __future__ import annotations

import re
import subprocess
from pathlib import Path

import pytest

CHAIRS, READINGS = 20, 20


def script(between: list[str]) -> bytes:
    """Readings of one sheet, with records after each of them."""
    codes = [f"AA{chr(ord('A') + it)}" for it in range(CHAIRS)]
    records = ["member,votes", *(f"{code},{1000 + 37 * at * at}" for at, code in enumerate(codes)), "script"]
    records += [f"open,{it + 1}" for it in range(CHAIRS)]
    records += [f"move,{code},{at + 1}" for at, code in enumerate(codes)]
    return "\n".join([*records, "publish", *READINGS * ["read,1,quorum", *between], ""]).encode()


def instructions(program: Path, given: bytes) -> int:
    words = ["valgrind", "--tool=callgrind", "--callgrind-out-file=/dev/null", str(program), "replay"]
    done = subprocess.run(words, input=given, stdout=subprocess.DEVNULL, stderr=subprocess.PIPE, check=True)
    return int(re.findall(rb"Collected : (\d+)", done.stderr)[0])


@pytest.mark.parametrize("record", ["open,1", "votes,AAA,5"])
def test_a_sheet_is_counted_once(program: Path, record: str) -> None:
    # Catches: a published sheet that is counted again after a command, which changes no published sheet.
    assert instructions(program, script([record])) < 2 * instructions(program, script([]))
