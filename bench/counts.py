"""Runs the programs that are timed, and reads what they print.

Programs that count boards print lines: a board, a part of the work, the least nanoseconds of a count, and a number made
of the counts; or a board, the word `counts` and numbers. Programs that count the same must print the same numbers."""
from __future__ import annotations

import os
import resource
import subprocess
import sys
from collections.abc import Callable, Iterator
from pathlib import Path

from tables import BOARDS, micros

# The board and the part that is timed, with the nanoseconds; and the counts.
Nanos = dict[tuple[str, str], int]
Counts = dict[tuple[str, str], list[str]]


def printed(*words: str | Path) -> str:
    return subprocess.run(list(words), check=True, stdout=subprocess.PIPE, text=True).stdout


def seconds_of_children() -> float:
    """The processor time in seconds of everything run so far, to the microsecond. GNU `time` prints hundredths."""
    used = resource.getrusage(resource.RUSAGE_CHILDREN)
    return used.ru_utime + used.ru_stime


def times_in(lines: str) -> tuple[Counts, Nanos]:
    """The counts of one run, and the nanoseconds of each part."""
    counts: Counts = {}
    nanos: Nanos = {}
    for line in lines.splitlines():
        board, part, *rest = line.split()
        if part != "counts":
            nanos[board, part] = int(rest.pop(0))
        counts[board, part] = rest
    return counts, nanos


def rounds(each: int) -> Iterator[None]:
    """Runs `each` rounds on each processor."""
    processors = os.sched_getaffinity(0)
    for processor in sorted(processors) * each:
        os.sched_setaffinity(0, {processor})
        yield
    os.sched_setaffinity(0, processors)


def least_times(each: int, *runs: Callable[[], str]) -> list[Nanos]:
    """The least time of each part by each program, which run in turn. Programs that count the same must agree."""
    least: list[Nanos] = [{} for _ in runs]
    for _ in rounds(each):
        said: Counts = {}
        for run, kept in zip(runs, least):
            counts, nanos = times_in(run())
            for key, count in counts.items():
                if said.setdefault(key, count) != count:
                    sys.exit(f"{sys.argv[0]}: the counts of {key} differ: {said[key]} and {count}")
            kept.update({key: min(it, kept.get(key, it)) for key, it in nanos.items()})
    return least


def ratio(ours: Nanos, theirs: Nanos, key: tuple[str, str]) -> float:
    return ours[key] / theirs[key]


def cells(ours: Nanos, theirs: Nanos, part: str) -> list[str]:
    """For each board the ratio, and both times in us; nothing if that part of it isn't timed."""
    return [
        f"{ratio(ours, theirs, key):.2f}: {micros(ours[key])}, {micros(theirs[key])}" if key in ours else ""
        for key in ((board, part) for board in BOARDS)
    ]
