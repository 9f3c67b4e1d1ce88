"""Files of studies: a finished file takes its place at once or not at all, and only over a file of its own kind."""
from __future__ import annotations

import csv
import io
import os
import re
import shutil
from collections.abc import Iterable, Mapping, Sequence
from pathlib import Path

from .amounts import BadStudy

#: How a cell begins that a spreadsheet takes for a formula, unless it is a number. board.html has the same rules.
FORMULA, PLAIN_NUMBER = frozenset("=+-@\t\r＝＋－＠"), re.compile(r"[+-]?[0-9.,]+")
#: Where a cell begins like that if a comma, a semicolon or a tab separates cells. Numbers and per cents may follow.
INSIDE = re.compile(r"""([,;\t]\s*)(?=["=+\-@＝＋－＠])(?![+-][0-9.,]+ ?%?(?:[,;\t'"\s]|$))""")


def plain_line(text: str) -> str:
    """A text in which no cell is a formula, whichever of comma, semicolon and tab separates cells."""
    return INSIDE.sub(r"\1'", text)


def plain_cell(cell: str) -> str:
    """A cell that no spreadsheet takes for a formula."""
    text = plain_line(cell)
    return f"'{text}" if text[:1] in FORMULA and not PLAIN_NUMBER.fullmatch(text) else text


def csv_text(lines: Iterable[str], columns: Sequence[str], rows: Iterable[Sequence[str]]) -> str:
    """A table: comments, a header, and rows. A cell with a #, a semicolon or a tab is in quotes: it is no comment, and
    no separator divides it."""
    text = io.StringIO()
    write = csv.writer(text, lineterminator="\n").writerow
    quoted = csv.writer(text, lineterminator="\n", quoting=csv.QUOTE_ALL).writerow
    for row in (columns, *rows):
        cells = [plain_cell(it) for it in row]
        (quoted if re.search("[#;\t]", "".join(cells)) else write)(cells)
    return "".join(f"# {plain_line(line)}\n" for line in lines) + text.getvalue()


def resolved(path: Path) -> Path:
    """Where links lead."""
    try:
        return path.resolve()
    except (OSError, RuntimeError):
        raise BadStudy(f"{path}: its links lead in a circle") from None


def place_of(path: Path, mark: str) -> Path:
    """The place of a file to be written: where a link leads, in a folder that is there, and over no file of others.

    mark: a regular expression of what these commands write into such a file
    """
    place = resolved(path)
    if not place.parent.is_dir():
        raise BadStudy(f"{path}: there is no folder {path.parent}")
    if not place.exists():
        return place
    if not place.is_file():
        raise BadStudy(f"{path} is there already and is no file")
    if not re.match(mark.encode(), place.read_bytes(), re.DOTALL):
        raise BadStudy(f"{path} is there already and isn't such a file: choose another name")
    return place


def check_same(path: Path, data: bytes) -> None:
    """Checks that a file isn't there with other bytes."""
    if path.exists() and path.read_bytes() != data:
        raise BadStudy(f"{path} is there already with another script: choose another name, or give --force")


class HalfWritten(BadStudy):
    """A file can't be put in its place, after others were."""


def put_in_place(part: Path, place: Path, written: Sequence[Path]) -> None:
    """Moves a file to its place, after those that were written."""
    try:
        os.replace(part, place)
    except OSError as why:
        if not written:
            raise
        names = ", ".join(it.name for it in written)
        raise HalfWritten(f"{place}: {why.strerror}; only these were written: {names}") from None


def write_files(texts: Mapping[Path, bytes]) -> None:
    """Writes each file beside its place, and moves them there once all are whole."""
    parts = {place: place.with_name(f".{os.urandom(8).hex()}.part") for place in texts}
    made: list[Path] = []
    try:
        for place, data in texts.items():
            with open(parts[place], "xb") as file:
                made.append(parts[place])
                file.write(data)
            if place.exists():
                shutil.copymode(place, parts[place])
        for place, part in parts.items():
            put_in_place(part, place, [it for it in parts if parts[it] not in made])
            made.remove(part)
    finally:
        for part in made:
            part.unlink()
