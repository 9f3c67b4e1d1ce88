"""The strict table of members, a CSV file whose every cell is clean. Nothing is guessed: another table is refused."""
from __future__ import annotations

import csv
import io
import re
import unicodedata
from collections import Counter
from collections.abc import Container, Iterable, Iterator, Sequence
from dataclasses import dataclass, field, replace
from functools import cache
from hashlib import sha256
from pathlib import Path
from typing import Optional, Union

from .cells import BLANKS, ERRORS, FALSE, RAISED, TRUE, UNSEEN
from .countries import CODES
from .names import CHAIRS, COLUMNS, MEMBER_VOTES, MEMBERS
from .registers import Register

ENCODINGS = ("utf-8", "cp1252", "latin-1", "utf-16")
CLEANED = "open the table in board.html, which cleans it and saves a table that is read here"
NUMBER = re.compile("0|[1-9][0-9]{0,19}")
#: The marks of a footnote at the end of a name, and names that a total or an empty chair has.
MARKED = re.compile(rf"[*†‡§{RAISED}]$|[(\[][0-9a-z][)\]]$|\s[0-9a-z][/)]$")
NO_MEMBER = re.compile(r"(grand |sub-?)?totals?\b|.*\btotals?$|sum( of .*)?$|none$|vacant$|[-–—]$")
#: Names of several members together, as board.html has them too.
_GROUPS = r"asean|brics\+?|cemac|waemu|wamu|eccu|ecb|eu-?[0-9]{0,2}|g-?[0-9]{1,2}|gcc|ldcs?|lics?|oecd|opec"
_PLACES = "africa|asia|caribbean|europe|oceania|pacific|western hemisphere|middle east|north africa|central asia"
_SIDES = "sub-?saharan|north(?:ern)?|central|eastern|western|southern|latin|middle|emerging|developing|advanced|euro"
AGGREGATE = re.compile(
    rf"(?:of which|memo(?:randum)?\b|aggregates?\b|(?:the )?(?:{_GROUPS})$|(?:region|group)\b"
    rf"|(?:(?:{_SIDES}),? (?:and )?)?(?:{_PLACES})(?: and (?:the )?(?:{_PLACES}))*$|(?:south|latin) (?:asia|america)"
    r"|.*\b(?:countries|economies|monetary union|european union|euro area|euro zone|nations)$)"
)
ERROR = re.compile("|".join(ERRORS), re.IGNORECASE)
#: The first bytes of files that aren't texts, and what they are.
KINDS = {b"PK": "a workbook or another zip file", b"\xd0\xcf\x11\xe0": "a file of an old Office", b"%PDF": "a PDF"}
#: In a table with fewer members a person sees that all votes are 0. board.html has the same.
LEAST_MEMBERS = 10
LETTERS = "ABCDEFGHIJKLMNOPQRSTUVWXYZ"
#: Words that names of countries are compared without, and short forms of words, as tools/countries.py has them.
LEFT_OUT = {"the", "of", "and", "de", "d", "republic", "rep", "kingdom", ""}
SHORT = {"dem": "democratic", "st": "saint", "fed": "federated", "is": "islands"}


class BadTable(ValueError):
    """A table that isn't strict. Each line of the message has a row, and the last one says what helps.

    problems: the sentences, in the order of the rows
    """

    def __init__(self, problems: Sequence[str]) -> None:
        super().__init__("\n".join([*problems, CLEANED]))
        self.problems = tuple(problems)

    def __reduce__(self) -> tuple[type[BadTable], tuple[object, ...]]:
        return type(self), (self.problems,)


@dataclass(frozen=True)
class StrictMember:
    """A row of a strict table. Its chair is None if the member sits in none."""

    row: int
    code: str
    name: str
    votes: int
    chair: Optional[int]
    suspended: bool


@dataclass(frozen=True)
class StrictTable:
    """A strict table that was read.

    members: the members, in the order of the rows
    names: the names of chairs by number
    notices: sentences on how it was read
    columns: its columns
    hash: the SHA-256 of its bytes
    """

    members: tuple[StrictMember, ...]
    names: dict[int, str]
    notices: tuple[str, ...]
    columns: tuple[str, ...]
    hash: str

    def register(self) -> Register:
        """The register of the members."""
        parts = ("code", "votes", "chair", "suspended")
        rows = [
            {part: getattr(it, part) for part in parts} | {"chair_name": self.names.get(it.chair or 0)}
            for it in self.members
        ]
        return Register(rows)


@dataclass
class Rows:
    """The members of rows so far, and what is wrong."""

    columns: Sequence[str]
    is_saved: bool
    found: list[StrictMember] = field(default_factory=list)
    names: dict[int, str] = field(default_factory=dict)
    problems: list[str] = field(default_factory=list)
    first: dict[tuple[str, str], int] = field(default_factory=dict)

    def wrong(self, row: int, what: str) -> None:
        self.problems.append(f"row {row}: {what}")

    def add(self, row: int, cells: Sequence[str]) -> None:
        """Adds a row, or what is wrong with it."""
        before = len(self.problems)
        if len(cells) != len(self.columns):
            return self.wrong(row, f"{len(cells)} cells, and {len(self.columns)} columns: {cells[0]!r}")
        given = dict(zip(self.columns, cells))
        for column, cell in given.items():
            needed = column == "name" and not cell and "code" not in self.columns
            if what := "is empty" if needed else problem_of(column, cell, self.is_saved):
                self.wrong(row, f"the {column} {cell[:60]!r} {what}")
        self.check_repeated(row, given)
        self.check_chair_name(row, given)
        if len(self.problems) == before:
            chair = int(given["chair"]) if given["chair"] else None
            suspended = given.get("suspended", "").lower() in TRUE
            code, name = given.get("code", ""), given.get("name", "")
            self.found.append(StrictMember(row, code, name, int(given["votes"]), chair, suspended))

    def check_repeated(self, row: int, given: dict[str, str]) -> None:
        for column in ["code"] if self.is_saved else ["code", "name"]:
            cell = given.get(column, "").casefold()
            there = self.first.setdefault((column, cell), row)
            if cell and there != row:
                self.wrong(row, f"the {column} {given[column]!r} is in row {there} already")

    def check_chair_name(self, row: int, given: dict[str, str]) -> None:
        name, chair = given.get("chair_name", ""), given["chair"]
        if name and not chair:
            self.wrong(row, f"the chair_name {name!r} has no chair")
        elif name and NUMBER.fullmatch(chair) and self.names.setdefault(int(chair), name) != name:
            self.wrong(row, f"the chair_name {name!r} isn't {self.names[int(chair)]!r}, which chair {chair} has above")


def problem_of(column: str, cell: str, is_saved: bool) -> str:
    """What is wrong with a cell; empty if nothing is."""
    if column == "code":
        return "" if re.fullmatch("[A-Z]{3}", cell) else "isn't three letters from A to Z"
    if column == "votes":
        is_right = NUMBER.fullmatch(cell) and int(cell) <= MEMBER_VOTES
        return "" if is_right else f"isn't a whole number from 0 to {MEMBER_VOTES}, written in digits alone"
    if column == "chair":
        is_right = not cell or (NUMBER.fullmatch(cell) and 1 <= int(cell) <= CHAIRS)
        return "" if is_right else f"isn't a whole number from 1 to {CHAIRS}, or empty"
    if column == "suspended":
        return "" if cell.lower() in TRUE + FALSE else "isn't true or false"
    return problem_of_word(cell) or ("" if is_saved else problem_of_name(column, cell))


def problem_of_word(cell: str) -> str:
    """What is wrong with a cell whatever the table: a word for a missing value, or a spreadsheet's error."""
    if cell.strip() and cell.strip().strip(UNSEEN) in ("", *BLANKS):
        return "stands for a missing value: leave the cell empty"
    # A name may begin with a number sign; errors have no small letters behind it.
    is_error = ERROR.fullmatch(cell) and (not cell.startswith("#") or cell == cell.upper())
    is_truth = cell.lower() in TRUE + FALSE and (cell == cell.upper() or cell.lower() in ("true", "false"))
    return "is a spreadsheet's error" if is_error or is_truth else ""


def problem_of_name(column: str, cell: str) -> str:
    """What is wrong with a name."""
    if cell != cell.strip() or re.search(r"[\r\n\t]", cell):
        return "has blanks around it, or a line end in it"
    if MARKED.search(cell):
        return "ends in a footnote's mark"
    if NO_MEMBER.match(cell.casefold()):
        return "is the name of a total or of an empty place"
    if column == "name" and AGGREGATE.match(cell.casefold()):
        return "is the name of several members together"
    if re.search("suspen[ds]", cell.casefold()):
        return "speaks of a suspension, which is for the column suspended"
    return ""


def text_of(data: bytes, encoding: str) -> str:
    """The text of a file."""
    kind = next((words for start, words in KINDS.items() if data.startswith(start)), "")
    if kind:
        raise BadTable([f"row 1: this is {kind}, and no text"])
    try:
        return data.decode(encoding).removeprefix("\ufeff")
    except UnicodeDecodeError as why:
        row = data[: why.start].count(b"\n") + 1
        bad = data[why.start : why.start + 1].hex()
        raise BadTable([f"row {row}: the byte {bad} isn't {encoding}: --encoding names another encoding"]) from None


def records_of(text: str) -> Iterator[tuple[int, list[str]]]:
    """The rows of a text that aren't empty, each with its number, counted as a spreadsheet does."""
    row = 0
    try:
        for row, cells in enumerate(csv.reader(io.StringIO(text, newline=""), strict=True), 1):
            if cells:
                yield row, cells
    except csv.Error as why:
        raise BadTable([f"row {row + 1}: {why}"]) from None


def check_columns(row: int, columns: Sequence[str]) -> None:
    """Checks a header."""
    allowed = "the columns are code or name, votes, chair, and if there chair_name and suspended"
    unknown = [it for it in columns if it not in COLUMNS]
    twice = [it for it in columns if columns.count(it) > 1]
    missing = [it for it in ("votes", "chair") if it not in columns]
    missing += ["code"] * (not {"code", "name"} & set(columns))
    if unknown:
        raise BadTable([f"row {row}: the column {unknown[0][:60]!r} is unknown: {allowed}"])
    if twice:
        raise BadTable([f"row {row}: the column {twice[0]!r} is there twice"])
    if missing:
        raise BadTable([f"row {row}: no column {missing[0]!r}: {allowed}"])


def sums_of(members: Sequence[StrictMember]) -> Iterator[tuple[StrictMember, str]]:
    """The rows that equal the sum of all others, of all rows above, or of the rows since the last such row. A row with
    the same votes, such as a total that stands twice, isn't among the others."""
    whole, times, start = sum(it.votes for it in members), Counter(it.votes for it in members), 0
    for at, it in enumerate(members):
        since = members[start:at]
        if not it.votes:
            continue
        if len(members) - times[it.votes] > 1 and (times[it.votes] + 1) * it.votes == whole:
            yield it, "all others"
        elif len(since) > 1 and sum(one.votes for one in since) == it.votes:
            yield it, f"rows {since[0].row} to {since[-1].row}"
            start = at + 1
        elif at > 1 and sum(one.votes for one in members[:at]) == it.votes:
            yield it, "all rows above"


def merged(members: Sequence[StrictMember]) -> list[StrictMember]:
    """The rows without a chair, where the table may have had merged cells: each chair is in one row, or most rows with
    a chair have one without right below."""
    filled = [at for at, it in enumerate(members) if it.chair is not None]
    blank = [it for it in members[filled[0] :] if it.chair is None] if filled else []
    heads = [at for at in filled if at + 1 < len(members) and members[at + 1].chair is None]
    is_each_once = len({members[at].chair for at in filled}) == len(filled)
    return blank if blank and (is_each_once or 2 * len(heads) > len(filled)) else []


def loose(members: Sequence[StrictMember]) -> Iterator[tuple[StrictMember, str]]:
    """The rows without a chair that may be the sum of other members: those without a code if the others have a chair,
    and those with more votes than any member in one."""
    seated = [it.votes for it in members if it.chair is not None]
    free = [it for it in members if it.chair is None]
    for it in free if seated else ():
        if it.votes > max(seated):
            yield it, f"has no chair, and its {it.votes} votes are more than those of any member in one"
        elif not it.code and len(free) <= len(seated):
            yield it, "has no chair, and the others have one: a member in none, or the sum of others"


def doubts_of(members: Sequence[StrictMember]) -> dict[int, str]:
    """What isn't clean in the table as a whole, by rows."""
    doubts = {
        it.row: f"the {it.votes} votes of {it.code or it.name!r} equal the sum of {what}, as a total's do"
        for it, what in sums_of(members)
    }
    for it in merged(members):
        who = repr(it.code or it.name)
        doubts.setdefault(it.row, f"{who} has no chair, below a row that has one, as in a table with merged cells")
    if len(members) >= LEAST_MEMBERS and not any(it.votes for it in members):
        doubts[members[0].row] = "all votes are 0, as in a workbook whose formulas no spreadsheet has counted"
    for it, what in loose(members):
        doubts.setdefault(it.row, f"{it.code or it.name!r} {what}")
    return doubts


def plain_of(name: str) -> str:
    """A name in small letters without accents."""
    letters = unicodedata.normalize("NFD", name)
    return "".join(it for it in letters if not unicodedata.category(it).startswith("M")).lower()


def key_of(name: str) -> str:
    """What the spellings of a country's name have in common: its words in order of the alphabet."""
    words = re.split("[^a-z]+", re.sub("[.'\u2019]", "", plain_of(name)))
    return " ".join(sorted({SHORT.get(it, it) for it in words} - LEFT_OUT))


@cache
def country_codes() -> dict[str, str]:
    """The ISO codes of countries by the keys of their names."""
    pairs = (line.split(":") for line in CODES.splitlines())
    return {key: code for code, keys in pairs for key in keys.split(";")}


def member_key(name: str) -> str:
    """What the same member's names have in common: the country's code, or the letters without accents and capitals."""
    return country_codes().get(key_of(name)) or " ".join(plain_of(name).split())


def free_codes(used: Container[str]) -> Iterator[str]:
    """Codes that no country ever gets, without those that are used."""
    codes = (f"X{second}{third}" for second in LETTERS for third in LETTERS)
    return (it for it in codes if it != "XKX" and it not in used)


def made_codes(names: Iterable[str]) -> Iterator[str]:
    """Codes of names, each once: a country's ISO code, and else a code that no country has. board.html has the same."""
    known, used = country_codes(), set[str]()
    own = [known.get(key_of(name), "") for name in names]
    for at, code in enumerate(own):
        own[at] = "" if code in used else code
        used.add(code)
    free = free_codes(used)
    return (code or next(free) for code in own)


def with_codes(members: Sequence[StrictMember]) -> tuple[list[StrictMember], str]:
    """The members with codes made from their names, and a sentence on them."""
    coded = [replace(it, code=code) for it, code in zip(members, made_codes(it.name for it in members))]
    made = "; ".join(f"{it.code} {it.name}" for it in coded)
    return coded, f"The table has no codes: they were made from the names (a country's by ISO 3166): {made}"


def check_rows(rows: Rows, last: int) -> None:
    """Checks the number of members."""
    if len(rows.found) > MEMBERS:
        rows.wrong(rows.found[MEMBERS].row, f"a member too many: there are {MEMBERS} at most")
    if not rows.found and not rows.problems:
        rows.wrong(last, "there is no member below the header")


def total_words(votes: int, total: int) -> str:
    """What is wrong with the sum of the votes, by the published total."""
    words = f"the votes below add up to {votes:,}, and the published total is {total:,}"
    more = f". If the table leaves members out, add a row for them, with {total - votes:,} votes and no chair"
    return words + more * (votes < total)


def read_table(
    given: Union[bytes, Path], *, encoding: str = "utf-8", header_row: int = 1, total: Optional[int] = None
) -> StrictTable:
    """Reads a strict table: CSV with the columns code or name, votes, chair, and if there chair_name and suspended.

    given: the bytes of a file, or its path
    encoding: "utf-8", "cp1252", "latin-1" or "utf-16"
    header_row: the row of the header, from 1
    total: the published total of all votes, which is compared

    Raises `BadTable`, which names each row that isn't clean. A row that equals the sum of all others, or of the rows
    since the last such row, is refused as a total. A table with all six columns, as board.html saves it, was asked
    about there: it is read as it stands, and such a row is in the notices.
    """
    data = given if isinstance(given, bytes) else Path(given).read_bytes()
    records = [it for it in records_of(text_of(data, encoding)) if it[0] >= header_row]
    if not records or records[0][0] != header_row:
        raise BadTable([f"row {header_row}: there is no header"])
    columns = records[0][1]
    check_columns(header_row, columns)
    is_saved = tuple(columns) == COLUMNS
    rows = Rows(columns, is_saved)
    for row, cells in records[1:]:
        rows.add(row, cells)
    check_rows(rows, header_row)
    doubts = {} if rows.problems else doubts_of(rows.found)
    if doubts and not is_saved:
        rows.problems += [f"row {row}: {what}" for row, what in doubts.items()]
    votes = sum(it.votes for it in rows.found)
    if not rows.problems and total not in (None, votes):
        rows.wrong(header_row, total_words(votes, total or 0))
    if rows.problems:
        raise BadTable(rows.problems)
    notices = [f"Rows above the header were skipped: {header_row - 1}"] * (header_row > 1)
    notices += [f"The table was read as {encoding}"] * (encoding != "utf-8")
    notices += [f"Row {row}: {what}; board.html saved it as a member's" for row, what in doubts.items()]
    members = rows.found
    if "code" not in columns:
        members, notice = with_codes(members)
        notices.append(notice)
    return StrictTable(tuple(members), rows.names, tuple(notices), tuple(columns), sha256(data).hexdigest())
