#!/usr/bin/env python3
"""The list of what is promised, promised.txt: each promise with a sum of it, and the version that promised it so.

    tests/promises/promised.py         writes the list again

A line `- NAME` promises the worked case NAME of tests/cases, too. A promise that is there with another sum, or that has
gone, is written only if the first number of the version is another than that of the version before: README.md says
why."""
from __future__ import annotations

import hashlib
import re
import sys
from dataclasses import dataclass
from pathlib import Path

HERE = Path(__file__).resolve().parent
TOP = HERE.parents[1]
sys.path.insert(0, str(TOP))
from tests.cases.case_files import Case, all_cases, cases_of  # noqa: E402

LIST = HERE / "promised.txt"
DIGITS = 12
# What a user keeps, or has written: files that are promised as they are, or with what they print.
KEPT = ["c/*.c", "c/*.txt", "packages/*", "studies/*", "tables/*"]


@dataclass(frozen=True)
class Promised:
    """A promise of the list: since when it is as it is, and its sum."""

    since: str
    sum: str


def own_cases() -> list[Case]:
    return [case for file in sorted(HERE.glob("*.txt")) if file != LIST for case in cases_of(file)]


def sum_of(data: bytes) -> str:
    return hashlib.sha256(data).hexdigest()[:DIGITS]


def case_sum(it: Case) -> str:
    return sum_of(repr((it.words, it.given, it.printed, it.complained, it.status)).encode())


def versions() -> list[str]:
    """The versions of CHANGELOG.md, the newest first."""
    return re.findall(r"^## ([0-9.]+)", (TOP / "CHANGELOG.md").read_text(), re.MULTILINE)


def first(version: str) -> int:
    return int(version.partition(".")[0])


def written() -> dict[str, Promised]:
    """The promises of the list, by name."""
    lines = (line.split() for line in LIST.read_text().splitlines() if line[:1] not in ("", "#"))
    return {words[-1]: Promised(words[0], words[1] if len(words) == 3 else "") for words in lines}


def listed_cases() -> list[Case]:
    """The worked cases of tests/cases that the list names."""
    names = written()
    return [case for case in all_cases() if case.name in names]


def found() -> dict[str, str]:
    """The sums of what is promised, by name."""
    sums = {case.name: case_sum(case) for case in [*own_cases(), *listed_cases()]}
    files = (file for pattern in KEPT for file in sorted(HERE.glob(pattern)))
    return sums | {str(file.relative_to(HERE)): sum_of(file.read_bytes()) for file in files}


def broken() -> dict[str, str]:
    """The promises that are no longer what the list says, and how."""
    sums = found()
    changed = {name: "has changed" for name, it in written().items() if it.sum and sums.get(name, it.sum) != it.sum}
    return changed | {name: "has gone" for name in written() if name not in sums}


def main() -> int:
    old, sums, (now, before, *_) = written(), found(), versions()
    kept = {name: why for name, why in broken().items() if old[name].sum and first(now) == first(before)}
    for name, why in kept.items():
        print(f"{name} {why}, and is promised since {old[name].since}: that asks for another version than {now}")
    if kept:
        return 1
    head = [line for line in LIST.read_text().splitlines() if line.startswith("#")]
    same = {name: it for name, it in old.items() if sums.get(name) == it.sum}
    lines = [f"{same[name].since if name in same else now} {it} {name}" for name, it in sorted(sums.items())]
    LIST.write_text("\n".join([*head, *lines, ""]))
    return 0


if __name__ == "__main__":
    sys.exit(main())
