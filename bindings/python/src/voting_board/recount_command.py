"""The command board-recount: counts the readings of a script again, over all coalitions, and compares."""
from __future__ import annotations

import argparse
import random
import sys
import time

from .command_line import ended, read_bytes, show
from .names import VERSION
from .replays import replay

EPILOG = """For example:

  board-recount --draw 1 > drawn.csv
  board-recount drawn.csv

A board of 24 chairs takes seconds; each chair more doubles that. It needs numpy.

Status: 0 where all numbers agree; 1 where one doesn't, or the script has a fault; 2 where the command line is wrong."""


def words() -> argparse.ArgumentParser:
    """The arguments of the command."""
    parser = argparse.ArgumentParser(
        prog="board-recount",
        description="Counts the readings of a script of `board replay` again, over all coalitions, and compares.",
        epilog=EPILOG,
        formatter_class=argparse.RawDescriptionHelpFormatter,
    )
    add = parser.add_argument
    add("--version", action="version", version=f"board-recount {VERSION}")
    add("script", metavar="SCRIPT", nargs="?", default="-", help="the script, in place of standard input")
    add("--draw", metavar="SEED", type=int, help="print the script of a drawn board instead")
    add("--chairs", metavar="N", type=int, choices=range(1, 33), default=24, help="of a drawn board (24)")
    return parser


def make(given: argparse.Namespace) -> None:
    """Draws a board, or recounts a script."""
    from .recounts import differences_of, drawn_script

    if given.draw is not None:
        show(drawn_script(random.Random(given.draw), given.chairs), end="")
        return
    run, different = replay(read_bytes(given.script), readers=4), 0
    if run.fault:
        raise ValueError(f"record {run.fault.record}: {run.fault.name} ({run.fault.number}), {run.fault.reason}")
    for number, reading in enumerate(run.readings, 1):
        begun, problems = time.monotonic(), differences_of(reading)
        different += bool(problems)
        coalitions = f"{len(reading.weights)} chairs, {reading.coalitions:,} coalitions"
        said = "; ".join(problems) or "quota, winning coalitions and all swings agree"
        show(f"reading {number} at {reading.majority}: {coalitions}: {said} ({time.monotonic() - begun:.1f} s)")
    if different:
        sys.exit(1)


def main() -> int:
    """Runs the command."""
    return ended(words(), make)


if __name__ == "__main__":
    sys.exit(main())
