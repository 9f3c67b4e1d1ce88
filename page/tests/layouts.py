"""A table of 24 chairs and 190 members by chance, printed in the layouts in which the Fund's table goes around."""
from __future__ import annotations

from collections.abc import Callable
from dataclasses import dataclass
from html import escape
from random import Random

import inputs
from oracle import TOP

COUNTRIES = (TOP / "page" / "src" / "tables" / "countries.txt").read_text().splitlines()
SYLLABLES = "bar lin mo ta ves ker du ran so pel gri na hol wen".split()
Row = list[str]


@dataclass(frozen=True)
class Block:
    """A chair: its Director and alternate, and the names and votes of its members."""

    director: str
    alternate: str
    members: list[tuple[str, int]]

    @property
    def votes(self) -> int:
        return sum(votes for _, votes in self.members)


def drawn_board(some: Random) -> list[Block]:
    """Chairs of one member each, and of several; all of the members are countries."""
    countries = [line.split(":")[1].split(";")[0].title() for line in some.sample(COUNTRIES, 190)]
    people = list(dict.fromkeys("".join(some.sample(SYLLABLES, 3)).title() for _ in range(400)))[:48]
    ends = [*range(1, 8), *sorted(some.sample(range(9, 189, 2), 16)), 190]
    found = list[Block]()
    for first, last in zip([0, *ends], ends):
        most = 900_000 if last - first == 1 else 90_000
        members = [(it, 1_000 + some.randrange(most)) for it in countries[first:last]]
        found.append(Block(people.pop(), people.pop(), members))
    return found


def rows_of(board: list[Block], alternates: bool = False, filled: bool = False) -> list[Row]:
    """Director, member, votes, and the chair's total in its first row; a second name is the alternate's."""
    found = list[Row]()
    for it in board:
        for at, (name, votes) in enumerate(it.members):
            second = it.alternate if alternates and at == 1 else ""
            director = it.director if filled or not at else second
            found.append([director, name, f"{votes:,}", "" if at else f"{it.votes:,}"])
    return found


HEAD = ["Director", "Casting votes of", "Votes by country", "Total votes"]
PAIRS = ["Director Alternate", *HEAD[1:]]


def text_of(rows: list[Row], mark: str = "\t") -> bytes:
    quoted = (mark.join(f'"{it}"' if mark in it else it for it in row) for row in rows)
    return "".join(f"{row}\n" for row in quoted).encode()


def with_subtotals(board: list[Block]) -> bytes:
    rows = [HEAD[:3]]
    for it in board:
        rows += [row[:3] for row in rows_of([it])] + [["", "Total", f"{it.votes:,}"]] * (len(it.members) > 1)
    return text_of(rows)


def with_headings(board: list[Block]) -> bytes:
    rows = [["Member", "Votes"]]
    for it in board:
        rows += [[it.director, ""], *([name, f"{votes:,}"] for name, votes in it.members)]
    return text_of(rows)


def semicolons(board: list[Block]) -> bytes:
    rows = [[it.replace(",", ".") for it in row] for row in rows_of(board)]
    return text_of([HEAD, *rows], ";").decode().replace("bar", "bár").encode("cp1252")


def page_of(rows: list[str]) -> bytes:
    head = "".join(f"<th>{it}</th>" for it in HEAD)
    return f"<!DOCTYPE html><body><h1>Board</h1><table><tr>{head}</tr>{''.join(rows)}</table>".encode()


def cell(text: str, span: int = 1) -> str:
    words = "<br>".join(escape(it) for it in text.split("\n"))
    return f'<td rowspan="{span}">{words}</td>' if span > 1 else f"<td>{words}</td>"


def spanned(board: list[Block]) -> bytes:
    rows = list[str]()
    for it in board:
        for at, (name, votes) in enumerate(it.members):
            many = len(it.members)
            first, last = (cell(it.director, many), cell(f"{it.votes:,}", many)) if not at else ("", "")
            rows.append(f"<tr>{first}{cell(name)}{cell(f'{votes:,}')}{last}</tr>")
    return page_of(rows)


def bare(board: list[Block]) -> bytes:
    return page_of([f"<tr>{''.join(map(cell, row))}</tr>" for row in rows_of(board)])


def broken(board: list[Block]) -> bytes:
    """A row for each chair, with its members as lines of a cell."""
    rows = list[str]()
    for it in board:
        names, votes = ("\n".join(lines) for lines in zip(*((name, f"{many:,}") for name, many in it.members)))
        rows.append(f"<tr>{cell(it.director)}{cell(names)}{cell(votes)}{cell(f'{it.votes:,}')}</tr>")
    return page_of(rows)


def workbook(board: list[Block], is_merged: bool) -> bytes:
    rows: list[list[inputs.Cell]] = [[*HEAD]]
    merged = list[str]()
    for it in board:
        first = len(rows) + 1
        rows += [[it.director if not at else None, name, votes] for at, (name, votes) in enumerate(it.members)]
        rows[first - 1].append(it.votes)
        merged += [f"A{first}:A{len(rows)}"] * (len(it.members) > 1)
    return inputs.xlsx_of({"Votes": rows}, {"Votes": merged if is_merged else []})


# The layouts by their names, which are those of files.
LAYOUTS: dict[str, Callable[[list[Block]], bytes]] = {
    "tabs.txt": lambda board: text_of([HEAD, *rows_of(board)]),
    "alternates.txt": lambda board: text_of([PAIRS, *rows_of(board, alternates=True)]),
    "subtotals.txt": with_subtotals,
    "commas.csv": lambda board: "\ufeff".encode() + text_of([HEAD, *rows_of(board, filled=True)], ","),
    "semicolons.csv": semicolons,
    "headings.txt": with_headings,
    "spanned.html": spanned,
    "bare.html": bare,
    "lines.html": broken,
    "merged.xlsx": lambda board: workbook(board, True),
    "plain.xlsx": lambda board: workbook(board, False),
}
