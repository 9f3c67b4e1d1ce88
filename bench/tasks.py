"""The tasks of bench/tasks.c by the package for Python, and the boards by one call, timed by the clock: tasks.py BOARDS
SCRIPT COMMANDS"""
from __future__ import annotations

import sys
import time
from collections.abc import Callable
from pathlib import Path

import numpy
from voting_board import MAJORITIES, Register, indices_of_all, indices_of_many

CHAIRS, ROUNDS = 24, 3


def timed(name: str, clock: Callable[[], int], work: Callable[[], int]) -> None:
    """Prints the least time of several rounds, and the last one's sum."""
    least, answer = 2**63, 0
    for _ in range(ROUNDS):
        begun = clock()
        answer = work()
        least = min(least, clock() - begun)
    print(name, least, answer, flush=True)


def carry_out(script: Path, commands: list[tuple[str, int]]) -> int:
    """The sum of the winning coalitions after each command."""
    register, omegas = Register.from_script(script), 0
    for code, votes in commands:
        register.set_votes(code, votes)
        omegas += register.indices("half").omega
    return omegas


def main() -> None:
    boards = numpy.fromfile(sys.argv[1], numpy.uint64).reshape(-1, CHAIRS)
    script, lines = Path(sys.argv[2]), Path(sys.argv[3]).read_text().splitlines()
    commands = [(code, int(votes)) for code, votes in map(str.split, lines)]
    rows = boards.tolist()
    timed("boards", time.process_time_ns, lambda: sum(it.omega for row in rows for it in indices_of_all(row).values()))
    timed("commands", time.process_time_ns, lambda: carry_out(script, commands))
    timed("many", time.perf_counter_ns, lambda: int(indices_of_many(boards, MAJORITIES).omega.sum()))


main()
