"""The page's example in the layouts of printed tables: rows of cells, from which programs make their files."""
from __future__ import annotations

import csv
from dataclasses import dataclass
from pathlib import Path
from typing import Union

TOP = Path(__file__).resolve().parents[2]
Cell = Union[str, int, float]
ALTERNATES = "Acker Bruhn Curtis Dietz Emery Falk Groen Hauge Iversen Jansen Kern Lund".split()


@dataclass(frozen=True)
class Chair:
    name: str
    alternate: str
    members: list[tuple[str, int]]

    @property
    def votes(self) -> int:
        return sum(votes for _, votes in self.members)


def board() -> list[Chair]:
    """The chairs of the example with their members."""
    chairs: dict[int, Chair] = {}
    with (TOP / "examples" / "members.csv").open(encoding="utf-8") as file:
        for row in csv.DictReader(file):
            if row["chair"]:
                number = int(row["chair"])
                alternate = f"{ALTERNATES[number % 12]} {number}"
                chair = chairs.setdefault(number, Chair(row["chair_name"], alternate, []))
                chair.members.append((row["name"], int(row["votes"])))
    return [chairs[it] for it in sorted(chairs)]


def wanted() -> list[tuple[str, int, str]]:
    """Each member with its votes and its chair, in the order of their names."""
    return sorted((name, votes, chair.name) for chair in board() for name, votes in chair.members)


def share(votes: int) -> float:
    return round(100 * votes / sum(it.votes for it in board()), 2)


def apart() -> list[list[Cell]]:
    """Layout A: alternates in a column of their own, and the totals of chairs in another one."""
    rows: list[list[Cell]] = [
        ["Director", "Alternate", "Casting votes of", "Votes by country", "Total votes", "Per cent of total"]
    ]
    for chair in board():
        for at, (name, votes) in enumerate(chair.members):
            first: list[Cell] = [chair.name, chair.alternate] if at == 0 else ["", ""]
            last: list[Cell] = [chair.votes, share(chair.votes)] if at == 0 else ["", ""]
            rows.append([*first, name, votes, *last])
    return rows


def below() -> list[list[Cell]]:
    """Layout B: alternates below Directors, as the Fund prints them."""
    rows: list[list[Cell]] = [["Director / Alternate", "Casting votes of", "Votes by country", "Total votes"]]
    for chair in board():
        for at, (name, votes) in enumerate(chair.members):
            own = (chair.name, chair.alternate)[at] if at < 2 else ""
            rows.append([own, name, votes, chair.votes if at == 0 else ""])
    return rows


LAYOUTS = {"A": apart, "B": below}
