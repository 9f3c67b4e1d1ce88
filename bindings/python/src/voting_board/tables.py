"""Members in a table: a data frame, a mapping from columns to lists, or rows with named parts."""
from __future__ import annotations

from collections.abc import Iterable, Mapping
from dataclasses import dataclass, fields, is_dataclass
from typing import Any, ClassVar, NamedTuple, Optional, Protocol, Union

from .names import ALLOWED, BAD_CHAIR, BAD_SHEET, COLUMNS, DUPLICATE_MEMBER
from .refusals import Refused
from .values import board_votes_of, chair_of, code_of, is_bool, items_of, votes_of, wrong_type

#: What a row has in a column that it leaves out.
LEFT_OUT = {"code": None, "name": None, "chair": None, "chair_name": None, "suspended": False}
LIST = "a list or an array"
ROWS = "a data frame, a mapping from columns to lists, or rows with named parts"


class Frame(Protocol):
    """A data frame, such as one of pandas."""

    @property
    def columns(self) -> Any:
        ...

    def __getitem__(self, column: str, /) -> Any:
        ...


class DataclassRow(Protocol):
    """A row that is a dataclass."""

    __dataclass_fields__: ClassVar[dict[str, Any]]


class NamedRow(Protocol):
    """A row that is a named tuple."""

    def _asdict(self) -> dict[str, Any]:
        ...


Row = Union[Mapping[str, object], DataclassRow, NamedRow]
#: A table whose columns are named code, name, votes, chair, chair_name and suspended.
Table = Union[Frame, Mapping[str, object], Iterable[Row]]


class Seated(NamedTuple):
    """A member in a row of a table."""

    code: Optional[str]
    votes: int
    chair: Optional[int] = None
    suspended: bool = False


@dataclass(frozen=True)
class Members:
    """The members of a table, and the names of chairs by number."""

    rows: list[Seated]
    names: dict[int, str]


def is_table(given: object) -> bool:
    """Whether members are a table, and not a mapping from codes to votes."""
    if not isinstance(given, Mapping):
        return True
    return any(it in COLUMNS for it in given) or any(hasattr(it, "__len__") for it in given.values())


def columns_of(table: Any) -> dict[str, list[Any]]:
    """The cells of each column of a table, by the column's name."""
    if hasattr(table, "columns") and hasattr(table, "__getitem__"):
        names = list(table.columns)
        for name in names:
            check_column(name, names.count(name))
        return {name: items_of(table[name], f"the column {name!r} is", LIST) for name in names}
    if isinstance(table, Mapping):
        for name in table:
            check_column(name)
        return {name: items_of(cells, f"the column {name!r} is", LIST) for name, cells in table.items()}
    return columns_of_rows(items_of(table, "the table is", ROWS))


def check_column(name: object, times: int = 1) -> None:
    """Refuses a column of an unknown name, and one that is there twice."""
    if not isinstance(name, str) or name not in COLUMNS:
        raise ValueError(f"unknown column {name!r}: {ALLOWED['columns']}")
    if times > 1:
        raise ValueError(f"the column {name!r} is there {times} times")


def columns_of_rows(rows: list[Any]) -> dict[str, list[Any]]:
    """The columns of a table that is given by rows. A row may leave out what is optional."""
    parts = [parts_of(row, place) for place, row in enumerate(rows, 1)]
    for name in (name for row in parts for name in row):
        check_column(name)
    names = dict.fromkeys(name for row in parts for name in row)
    for place, row in enumerate(parts, 1):
        for name in names:
            if name not in row and name not in LEFT_OUT:
                raise ValueError(f"row {place}: no {name!r}")
    return {name: [row.get(name, LEFT_OUT.get(name)) for row in parts] for name in names}


def parts_of(row: Any, place: int) -> Mapping[str, Any]:
    """The parts of a row by name. A row without names is refused: its order isn't known."""
    if isinstance(row, Mapping):
        return row
    if hasattr(row, "_asdict"):
        named: dict[str, Any] = row._asdict()
        return named
    if is_dataclass(row) and not isinstance(row, type):
        return {field.name: getattr(row, field.name) for field in fields(row)}
    raise wrong_type(row, f"row {place} is", "a row has names: a dict, a dataclass or a named tuple")


def is_missing(cell: Any) -> bool:
    """Whether a cell is empty: None, or what numpy and pandas have in its place."""
    return cell is None or type(cell).__name__ in ("NAType", "NaTType") or (isinstance(cell, float) and cell != cell)


def members_of(table: Table, needed: tuple[str, str]) -> Members:
    """The members of a table for a register, which needs codes, or for a board. A table without columns has none."""
    columns = columns_of(table)
    lengths = {name: len(cells) for name, cells in columns.items()}
    for name in needed if columns else ():
        if name not in columns:
            raise ValueError(
                f"no column {name!r}: a {'register' if 'code' in needed else 'board'} needs {needed[0]} "
                f"and {needed[1]}, and {ALLOWED['columns']}"
            )
    if len(set(lengths.values())) > 1:
        raise ValueError(f"columns of unequal length: {', '.join(f'{name} {it}' for name, it in lengths.items())}")
    return read(columns, "code" in needed)


def read(columns: dict[str, list[Any]], is_register: bool) -> Members:
    """The members of a table's columns."""
    rows: list[Seated] = []
    found = Members(rows, {})
    codes: dict[str, int] = {}
    named: dict[int, int] = {}
    for place in range(1, len(columns.get("votes", ())) + 1):
        cells = {name: column[place - 1] for name, column in columns.items()}
        try:
            row = seated_of(cells, f"row {place}: ", is_register)
            if row.code is not None and codes.setdefault(row.code, place) != place:
                there = f"is there already, in row {codes[row.code]}"
                raise Refused(DUPLICATE_MEMBER, f"row {place}: the code {row.code!r} {there}")
            if row.chair is not None and not is_missing(cells.get("chair_name")):
                add_name(found.names, named, row.chair, cells["chair_name"], place, is_register)
        except Refused as why:
            why.row = place
            raise
        rows.append(row)
    return found


def seated_of(cells: dict[str, Any], where: str, is_register: bool) -> Seated:
    """The member in the cells of a row."""
    code = cells.get("code")
    if is_register or code is not None:
        code = code_of(code, f"{where}the code is")
    name = cells.get("name")
    if not is_missing(name) and not isinstance(name, str):
        raise wrong_type(name, f"{where}the name is", ALLOWED["name"])
    votes = (votes_of if is_register else board_votes_of)(cells["votes"], f"{where}the votes are")
    chair = cells.get("chair")
    if is_missing(chair):
        chair = None
    else:
        chair = chair_of(chair, f"{where}the chair is", BAD_CHAIR if is_register else BAD_SHEET)
    suspended = cells.get("suspended", False)
    if not is_bool(suspended):
        raise wrong_type(suspended, f"{where}suspended is", ALLOWED["suspended"])
    return Seated(code, votes, chair, bool(suspended))


def add_name(
    names: dict[int, str], named: dict[int, int], chair: int, name: object, place: int, is_register: bool
) -> None:
    """Adds the name of a chair, which may have one name alone."""
    if not isinstance(name, str):
        raise wrong_type(name, f"row {place}: the chair_name is", ALLOWED["name"])
    if names.setdefault(chair, str(name)) != name:
        number = BAD_CHAIR if is_register else BAD_SHEET
        there = f"in row {named[chair]} it is {names[chair]!r}"
        raise Refused(number, f"row {place}: the name of chair {chair} is {name!r}, and {there}")
    named.setdefault(chair, place)
