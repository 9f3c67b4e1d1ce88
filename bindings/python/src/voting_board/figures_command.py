"""The command board-figures: the readings of a script as a table, and as figures."""
from __future__ import annotations

import argparse
import sys
from collections.abc import Iterator
from hashlib import sha256
from pathlib import Path

from .answers import counted
from .command_line import TABLE, add_figure_words, check_names, command_words, ended, out_name, read_bytes, say
from .files import csv_text, place_of, write_files
from .library import path_of
from .names import VERSION
from .replays import Replay, replay, replay_text
from .results import Accepted, Reading, Refusal
from .study_files import BOARD, FRACTIONS, TO_CHECK, cells_of, file_line, one_line, pairs_of

EPILOG = """For example:

  board-figures examples/twenty-four-chairs.csv out/power

The script is carried out, as `board replay` does. OUT.csv has a row for each reading and chair, with exact fractions. A
reading that doesn't see all commands accepted before it is stale, and `pending` says how many it doesn't see.

Status: 0 where the files were written; 1 where the script has a fault, a file can't be written, or --strict finds a
refused command or a stale reading, and then nothing was written; 2 where the command line is wrong."""
HEAD = ("reading", "reader", "front", "pending", "majority", *BOARD, "chair", "name", "weight", "swings")
#: The columns of OUT.csv.
READING_COLUMNS = (*HEAD, *(f"{it}{end}" for it in FRACTIONS for end in ("_numerator", "_denominator", "")))


def words() -> argparse.ArgumentParser:
    """The arguments of the command."""
    parser = argparse.ArgumentParser(
        prog="board-figures",
        description="Makes a table, OUT.csv, and figures of the readings of a script of `board replay`.",
        epilog=EPILOG,
        formatter_class=argparse.RawDescriptionHelpFormatter,
    )
    parser.add_argument("--version", action="version", version=f"board-figures {VERSION}")
    parser.add_argument("script", metavar="SCRIPT", help="the script; - is standard input")
    parser.add_argument("out", metavar="OUT", type=out_name, help="the name of the table, without .csv")
    parser.add_argument("--strict", action="store_true", help="end with 1 at a refused command or a stale reading")
    add_figure_words(parser)
    return parser


def readings_of(run: Replay, is_strict: bool) -> Iterator[tuple[Reading, int]]:
    """The readings of a run, each with the number of accepted commands that it doesn't see."""
    if run.fault:
        raise ValueError(f"record {run.fault.record}: {run.fault.name} ({run.fault.number}), {run.fault.reason}")
    accepted, problems = 0, []
    for it in run:
        if isinstance(it, Accepted):
            accepted = it.number
        elif isinstance(it, Refusal):
            why = f"{it.name} ({it.number}), {it.reason}"
            problems.append(f"record {it.record}: {str(it.command)!r} was refused: {why}")
        elif isinstance(it, Reading):
            if pending := accepted - it.front:
                problems.append(f"record {it.record}: a stale reading, which doesn't see {counted(pending, 'command')}")
            yield it, pending
    if problems and is_strict:
        raise ValueError("\n".join(problems))


def rows_of(number: int, reading: Reading, pending: int) -> Iterator[list[str]]:
    """The rows of a reading."""
    board = (len(reading.numbers), reading.quota, reading.cast, reading.total, reading.omega, reading.coalitions)
    head = [str(it) for it in (number, reading.reader, reading.front, pending, reading.majority, *board)]
    for (chair, pairs), weight, swings in zip(pairs_of(reading).items(), reading.weights, reading.swings):
        cells = [cell for pair in pairs for cell in cells_of(pair, None)[:3]]
        yield [*head, str(chair), "", str(weight), str(swings), *cells]


def said_of(readings: list[tuple[Reading, int]]) -> str:
    """A sentence on the readings."""
    majorities = ", ".join(dict.fromkeys(it.majority for it, _ in readings))
    readers = counted(len({it.reader for it, _ in readings}), "reader")
    chairs = counted(len({chair for it, _ in readings for chair in it.numbers}), "chair")
    return f"{counted(len(readings), 'reading')} of {readers}, at {majorities}; {chairs}"


def make(given: argparse.Namespace) -> None:
    """Carries the script out, and writes its files."""
    table = Path(f"{given.out}.csv")
    check_names([table, *([] if given.script == "-" else [Path(given.script)])])
    place, data = place_of(table, TABLE), read_bytes(given.script)
    readings = list(readings_of(replay(data, readers=4), given.strict))
    if not readings:
        raise ValueError("the script has no reading")
    library, text = Path(path_of()), replay_text(data, readers=4)[0]
    lines = [f"counted by board {VERSION}", file_line("library", library.name, library.read_bytes())]
    lines += [file_line("script", given.script, data), f"lines sha256 {sha256(text.encode()).hexdigest()}", TO_CHECK]
    lines += [command_words("board-figures", sys.argv[1:], [given.script, given.out, given.figures])]
    lines = [*map(one_line, [*lines, f"read: {said_of(readings)}"])]
    rows = (row for at, it in enumerate(readings, 1) for row in rows_of(at, *it))
    files = {place: csv_text(lines, READING_COLUMNS, rows).encode()}
    if given.figures:
        from .figures import figure_files, reading_figures

        found = reading_figures([it for it, _ in readings])
        files |= figure_files(found, given.figures / Path(given.out).name, given.figure_titles == "in", lines)
    write_files(files)
    say("board-figures", [said_of(readings)])


def main() -> int:
    """Runs the command."""
    return ended(words(), make)


if __name__ == "__main__":
    sys.exit(main())
