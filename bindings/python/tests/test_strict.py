"""Strict tables: what is read, what is refused with its row, and the corpus of the page's reader."""
from __future__ import annotations

import re
from dataclasses import dataclass
from pathlib import Path

import pytest
from voting_board.strict import BadTable, StrictTable, read_table

CASES = Path(__file__).resolve().parents[3] / "page" / "tables" / "cases"


@dataclass(frozen=True)
class Case:
    """A case of the corpus: its table, the members that are wanted, and whether the page asks or refuses."""

    title: str
    table: bytes
    members: list[str] | None
    is_clean: bool


def plain(text: str) -> str:
    return re.sub(r"\{U\+([0-9A-F]{4})\}", lambda it: chr(int(it[1], 16)), text.replace("→", "\t"))


def case_of(file: str, text: str) -> Case:
    title, *parts = re.split(r"\n-- ", text)
    found = {it.split("\n", 1)[0]: it.split("\n", 1)[1] for it in parts}
    lines = [it for it in found.get("members", "").split("\n") if it and not it.startswith("# ")]
    table = plain(re.sub("\n+$", "\n", found["table"]))
    data = table.encode("utf-8", "surrogatepass")
    is_clean = not {"questions", "faults", "unreadable"} & set(found)
    members = list(map(plain, lines)) if "members" in found else None
    return Case(f"{file}: {title.splitlines()[0]}", data, members, is_clean)


def corpus() -> list[Case]:
    """The cases that are texts: a workbook can't be a strict table."""
    texts = [(it.name, f"\n{it.read_text()}".split("\n== ")[1:]) for it in sorted(CASES.glob("*.txt"))]
    return [case_of(name, text) for name, all_of in texts for text in all_of if "\n-- table\n" in text]


def rows_of(table: StrictTable) -> list[str]:
    def cell(text: str) -> str:
        return '"' + text.replace('"', '""') + '"' if re.search('[",\r\n]', text) else text

    return [
        ",".join(
            [
                it.code,
                cell(it.name),
                str(it.votes),
                str(it.chair or ""),
                cell(table.names.get(it.chair or 0, "")),
                str(it.suspended).lower(),
            ]
        )
        for it in table.members
    ]


@pytest.mark.parametrize("case", corpus(), ids=lambda it: it.title)
def test_corpus(case: Case) -> None:
    # Catches: a table that gives another register than the page's, or is refused without a row.
    try:
        table = read_table(case.table)
    except BadTable as why:
        assert all(re.match(r"row [0-9]+: ", it) for it in why.problems), why
        return
    assert rows_of(table) == case.members
    assert case.is_clean, "the page asks about it"


def words(kind: str) -> list[str]:
    """The cells of a kind in the page's table of words."""
    text = (CASES.parent / "words.txt").read_text()
    return [it.split("\t")[1] for it in text.split("\n") if it.startswith(f"{kind}\t")]


@pytest.mark.parametrize("header", ["name,votes,chair,chair_name", "code,name,votes,chair,chair_name,suspended"])
def test_words(header: str) -> None:
    # Catches: a missing value or a spreadsheet's error that is a chair's or a member's name, in a saved table, too.
    def table(name: str, chair_name: str) -> str:
        row = {"code": "AAA", "name": f'"{name}"', "votes": "9", "chair": "1", "chair_name": f'"{chair_name}"'}
        return f"{header}\n{','.join(row.get(it, 'false') for it in header.split(','))}\n"

    assert len(words("missing")) > 10 and len(words("error")) > 10
    for kind, said in (("missing", "stands for a missing value"), ("error", "is a spreadsheet's error")):
        for cell in words(kind):
            assert any(said in it for it in said_of(table("Alpha", cell))), cell
            assert any(said in it for it in said_of(table(cell, "Hills"))), cell
    for cell in words("kept"):
        found = read_table(table("Alpha", cell).encode())
        assert found.names == {1: cell}


@pytest.mark.parametrize("true, false", [("true", "false"), ("TRUE", "FALSE"), ("True", "False"), ("WAHR", "FALSCH")])
def test_suspensions(true: str, false: str) -> None:
    # Catches: board.html's table saved again by a spreadsheet or by pandas, which write true and false otherwise.
    header = "code,name,votes,chair,chair_name,suspended"
    found = read_table(f"{header}\nAAA,Alpha,9,1,,{true}\nBBB,Beta,8,2,,{false}\n".encode())
    assert [it.suspended for it in found.members] == [True, False]


@pytest.mark.parametrize("start, what", [(b"PK\x03\x04", "a workbook"), (b"%PDF-1.4", "a PDF")])
def test_files_that_are_no_texts(start: bytes, what: str) -> None:
    # Catches: a workbook for which another encoding is advised.
    with pytest.raises(BadTable, match=f"row 1: this is {what}"):
        read_table(start + b"\x81\x00")


def test_what_a_table_says_besides() -> None:
    # Catches: a suspension that is a part of a name, a group among members, and a sum of others without a chair.
    suspended = said_of("code,name,votes,chair\nAAA,Alpha (voting rights suspended),9,1\n")
    assert "speaks of a suspension" in suspended[0]
    for name in ("G7", "Euro area", "of which: EU", "Emerging and developing economies"):
        assert "is the name of several members together" in said_of(f"code,name,votes,chair\nAAA,{name},9,1\n")[0]
    assert (
        "more than those of any member" in said_of("code,votes,chair\nAAA,9,1\nBBB,8,1\nDDD,6,2\nEEE,5,2\nCCC,10,\n")[0]
    )
    assert "or the sum of others" in said_of("name,votes,chair\nJapan,9,1\nChad,8,1\nFiji,3,2\nMali,3,2\nClub,2,\n")[0]
    assert read_table(b"name,votes,chair\nSouth Africa,9,1\nCentral African Republic,8,2\n").members[0].code == "ZAF"


PLAIN = "code,votes,chair\nAAA,40,1\nBBB,25,2\nCCC,16,2\nDDD,9,\n"


def said_of(text: str, **how: object) -> list[str]:
    with pytest.raises(BadTable) as why:
        read_table(text.encode(), **how)  # type: ignore[arg-type]
    assert str(why.value).endswith("board.html, which cleans it and saves a table that is read here")
    return list(why.value.problems)


def test_register() -> None:
    register = read_table(PLAIN.encode(), total=90).register()
    assert {code: (it.votes, it.chair) for code, it in register.members.items()} == {
        "AAA": (40, 1),
        "BBB": (25, 2),
        "CCC": (16, 2),
        "DDD": (9, None),
    }
    short = "row 1: the votes below add up to 90, and the published total is 91. If the table leaves members out, "
    assert said_of(PLAIN, total=91) == [f"{short}add a row for them, with 1 votes and no chair"]


@pytest.mark.parametrize(
    "old, new, said",
    [
        ("AAA,40", "AAA,40.0", "row 2: the votes '40.0' isn't a whole number"),
        ("AAA,40", "AAA,040", "row 2: the votes '040' isn't"),
        ("AAA,40", "aaa,40", "row 2: the code 'aaa' isn't three letters"),
        ("BBB,25,2", "BBB,25,33", "row 3: the chair '33' isn't a whole number from 1 to 32"),
        ("BBB,25,2", "BBB,25", "row 3: 2 cells, and 3 columns: 'BBB'"),
        ("BBB,25", "AAA,25", "row 3: the code 'AAA' is in row 2 already"),
        ("DDD,9", "DDD,81", "row 5: the 81 votes of 'DDD' equal the sum of all others"),
        ("CCC,16,2", "CCC,16,", "row 4: 'CCC' has no chair, below a row that has one"),
        ("code,votes", "code,Votes", "row 1: the column 'Votes' is unknown"),
        ("code,votes", "kode,votes", "row 1: the column 'kode' is unknown"),
    ],
)
def test_refused(old: str, new: str, said: str) -> None:
    # Catches: a cell that is mended, or a total or merged cells that make another register.
    assert any(it.startswith(said) for it in said_of(PLAIN.replace(old, new)))


def test_subtotals() -> None:
    # Catches: a subtotal that is read as a member, so that votes count twice.
    rows = "AAA,10,1\nBBB,20,1\nSUA,30,1\nCCC,5,2\nDDD,6,2\nSUB,11,2\n"
    assert [it[:6] for it in said_of(f"code,votes,chair\n{rows}")] == ["row 4:", "row 7:"]
    rows = "TOA,30,1\nTOB,30,\nAAA,20,1\nBBB,10,2\n"
    assert [it[:6] for it in said_of(f"code,votes,chair\n{rows}")] == ["row 2:", "row 3:"]
    saved = "code,name,votes,chair,chair_name,suspended\nAAA,,2,1,,false\nBBB,,1,2,,false\nCCC,Total,3,2,,true\n"
    found = read_table(saved.encode())
    assert len(found.members) == 3 and found.notices[0].startswith("Row 4: the 3 votes of 'CCC' equal the sum of all")


def test_mechanical_choices() -> None:
    text = "Stimmen\n\n" + PLAIN.replace("votes,chair", "votes,chair,name").replace("\nAAA,40,1", "\nAAA,40,1,Öst")
    text = "".join(f"{it},x\n" if it[:3] in ("BBB", "CCC", "DDD") else f"{it}\n" for it in text.splitlines())
    text = text.replace("BBB,25,2,x", "BBB,25,2,y").replace("CCC,16,2,x", "CCC,16,2,z")
    found = read_table(text.encode("cp1252"), encoding="cp1252", header_row=3)
    assert found.members[0].name == "Öst" and found.members[0].row == 4
    assert found.notices == ("Rows above the header were skipped: 2", "The table was read as cp1252")
    assert said_of("code,name,votes,chair\n", header_row=1) == ["row 1: there is no member below the header"]
    with pytest.raises(BadTable, match="row 4: the byte d6 isn't utf-8"):
        read_table(text.encode("cp1252"), header_row=3)
