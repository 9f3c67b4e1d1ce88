"""A table of members, and the input of `board replay` that it becomes."""
from __future__ import annotations

from dataclasses import dataclass, field
from typing import Optional

from voting_board import Register
from voting_board.names import MEMBER_VOTES as MOST_VOTES
from voting_board.strict import read_table as read_strict

__all__ = ["MOST_VOTES", "Member", "MemberTable", "input_lines", "read_table", "register_of"]


@dataclass(frozen=True)
class Member:
    """A row of the table; the chair is None where the member sits in none."""

    line: int
    code: str
    votes: int
    chair: Optional[int]
    name: str


@dataclass
class MemberTable:
    """The members in the table's order, and the names of chairs that the table has."""

    members: list[Member] = field(default_factory=list)
    chair_names: dict[int, str] = field(default_factory=dict)

    def chairs(self) -> list[int]:
        """The chairs that have members, by number."""
        return sorted({member.chair for member in self.members if member.chair is not None})

    def rows(self) -> list[dict[str, object]]:
        """The rows as the package takes them."""
        return [
            {
                "code": it.code,
                "name": it.name,
                "votes": it.votes,
                "chair": it.chair,
                "chair_name": self.chair_names.get(it.chair or 0),
            }
            for it in self.members
        ]


def read_table(data: bytes) -> MemberTable:
    """The members of a strict table."""
    found = read_strict(data)
    return MemberTable([Member(it.row, it.code, it.votes, it.chair, it.name) for it in found.members], found.names)


def input_lines(table: MemberTable) -> list[str]:
    """The input of `board replay` without a publication: members, an `open` for each chair, a `move` for each seat."""
    return [
        "member,votes",
        *(f"{member.code},{member.votes}" for member in table.members),
        "script",
        *(f"open,{chair}" for chair in table.chairs()),
        *(f"move,{member.code},{member.chair}" for member in table.members if member.chair is not None),
    ]


def register_of(table: MemberTable) -> Register:
    """The register of a table, by the package for Python."""
    return Register(table.rows())
