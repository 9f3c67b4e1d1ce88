"""Tables of members, as a spreadsheet puts them on the clipboard or into a file; page/tables has many more, without a
browser."""
from __future__ import annotations

import io
import zipfile
from collections.abc import Callable
from itertools import islice, product
from string import ascii_uppercase
from xml.sax.saxutils import escape

HEAD = "code,votes,chair\n"


def codes(many: int) -> list[str]:
    """Codes of three capitals: AAA, AAB and on."""
    return ["".join(it) for it in islice(product(ascii_uppercase, repeat=3), many)]


def user_codes(many: int) -> list[str]:
    """Some of the codes that ISO 3166 leaves to users: XAA, XAB and on."""
    return ["X" + "".join(it) for it in islice(product(ascii_uppercase, repeat=2), many)]


# Five members with 100 votes in three chairs, one member in none.
PLAIN = """code,name,votes,chair,chair_name
AAA,Alland,40,1,
BBB,Belland,25,2,Hills & Dales
CCC,Celland,15,2,
DDD,Delland,12,3,Plains
EEE,Elland,8,,
"""
# That table as cells: a title above, other names and another order of columns, thousands, blanks, empty rows.
CELLS = """Votes of 2026|||
|||
Director|Voting power|Member|ISO
1|40,000|Alland|AAA
2|25,000|Belland|bbb
2| 15,000 |Celland|CCC
3|12,000|Delland|DDD
|8,000|Elland|EEE
|||
""".replace(
    "|", "\t"
)
# The chair is in the first row of its members only.
MERGED = """code,name,votes,chair
AAA,Alland,40,1
BBB,Belland,25,2
CCC,Celland,15,
DDD,Delland,12,3
EEE,Elland,8,
"""
# A row that is a total by arithmetic alone.
TOTAL = PLAIN + "TOT,Council,100,,\n"
# A member with all votes, and the total below: each equals the sum of the others.
TOTALS = """code,votes,chair
AAA,80,1
BBB,0,2
TOT,80,
"""
# Chairs by name, and no codes.
NAMES = """member,votes,chair
Alland,40,Harbours
Belland,25,Hills
Celland,15,Hills
Delland,12,Plains
Elland,8,
"""
# A fault in each of four rows; the fifth is good.
FAULTY = """code,name,votes,chair
AAA,Alland,40.5,1
BB,Belland,25,2
CCC,Celland,15,33
CCC,Delland,12,2
EEE,Elland,8,1
"""
# A table as the Fund prints it: Directors above their members, alternates, subtotals, per cent, notes.
PRINTED = """Executive Directors and Voting Power||||
Director / Alternate|Casting votes of|Votes by country|Total votes 1/|Per cent of Fund total 2/
Smith|United States|831,401|831,401|60.94
Tanaka|Japan|309,205|309,205|22.66
Hilbers|Armenia|2,743|223,751|16.40
Dresse|Belgium|65,567||
|Kosovo 3/|1,232*||
|Netherlands|154,209||
|||1,364,357|100.00
1/ Votes as of today.
2/ Per cent of all votes.
3/ As the Fund calls it.
""".replace(
    "|", "\t"
)
# Tables that are refused, since a guess could be another number, chair or member: the text, and words for each bad row.
REFUSED: dict[str, tuple[str, dict[int, str]]] = {
    "three zeros behind a point": (
        "code\tvotes\tchair\nAAA\t40.000\tHills\nBBB\t8.000\tPlains\n",
        {2: "'40.000': a decimal point", 3: "'8.000': a decimal point"},
    ),
    "a comma as decimal mark": (
        "code;votes;chair\nAAA;831401,5;1\nBBB;831401.0;2\nCCC;831.401.0;2\n",
        {2: "'831401,5': a decimal comma", 4: "'831.401.0': no whole number"},
    ),
    "chairs with decimals": (HEAD + 'AAA,5,"2,5"\nBBB,6,1.5\n', {2: "'2,5': BadChair", 3: "'1.5': BadChair"}),
    "a number among chairs by name": (
        HEAD + "AAA,5,Hills\nBBB,6,Plains\nCCC,7,3\n",
        {4: "'3': no chair: the other chairs have names"},
    ),
    "a chair in two spellings": (
        HEAD + "AAA,5,Hills\nBBB,6,hills\nCCC,7,STRASSE\nDDD,8,Straße\n",
        {3: "the chair 'hills' is written 'Hills' above", 5: "the chair 'Straße' is written 'STRASSE' above"},
    ),
    "a row without a name": (
        "name,votes,chair\nAlland,5,1\n,6,1\n",
        {3: "there is no name to make a code from"},
    ),
    "two names of a chair by name": (
        "code,votes,chair,chair_name\nAAA,5,Hills,The Hills\nBBB,6,Hills,Old Hills\n",
        {3: "chair 1 is named 'The Hills' above"},
    ),
    "a comma that cuts a number": (HEAD + "AAA,40,001,1\nBBB,5,2\n", {2: "4 cells under a header of 3"}),
    "a letter that has two capitals": (HEAD + "aß,5,1\nBBB,5,2\n", {2: "'aß': BadMember"}),
    "a sign and other digits": (HEAD + "AAA,-5,1\nBBB,٥,2\nCCC,7,2\nDDD,8,2\n", {2: "'-5': a sign", 3: "other than 0"}),
}
# Tables that are read: the text, the answers that are clicked, the summary, the records, and the choices.
READ: dict[str, tuple[str, list[str], str, str, list[str]]] = {
    "marks, zeros and small letters": (
        HEAD + 'AAA,"9,000",1.0\nbbb,25000.00,2\nCCC,1\'000,2\nDDD,7,1\n',
        [],
        "4 members, 35,007 votes; 2 chairs; every member is in a chair",
        "AAA,9000 BBB,25000 CCC,1000 DDD,7 script open,1 open,2 move,AAA,1 move,BBB,2 move,CCC,2 move,DDD,1",
        [
            "Numbers such as 1.0 were taken as whole numbers in 2 rows",
            "Marks between thousands were passed over in 2 rows",
            "Small letters of codes were taken as capitals in 1 row",
        ],
    ),
    "points between thousands": (
        "code;votes;chair\nAAA;40.000;1\nBBB;8.000;2.0\n",
        [],
        "2 members, 48,000 votes; 2 chairs; every member is in a chair",
        "AAA,40000 BBB,8000 script open,1 open,2 move,AAA,1 move,BBB,2",
        [
            "Numbers such as 1.0 were taken as whole numbers in 1 row",
            "Marks between thousands were passed over in 2 rows",
        ],
    ),
    "chairs by name, and names of their own": (
        "code,votes,chair,chair_name\nAAA,9,Hills,The Hills\nBBB,8,Plains,\nCCC,7,Hills,\n",
        [],
        "3 members, 24 votes; 2 chairs; every member is in a chair",
        "AAA,9 BBB,8 CCC,7 script open,1 open,2 move,AAA,1 move,BBB,2 move,CCC,1",
        ["Chairs have names: they were numbered in the order in which they appear: 1 Hills; 2 Plains"],
    ),
    "a name beside a chair that is filled down": (
        "code,votes,chair,chair_name\nAAA,9,1,\nBBB,8,,Hills\nCCC,7,2,Plains\nDDD,6,,\n",
        ["#merged-yes"],
        "4 members, 30 votes; 2 chairs; every member is in a chair",
        "AAA,9 BBB,8 CCC,7 DDD,6 script open,1 open,2 move,AAA,1 move,BBB,1 move,CCC,2 move,DDD,2",
        ["Merged cells: the chair was filled down in 2 rows"],
    ),
    "members in no chair": (
        MERGED,
        ["#merged-no"],
        "5 members, 100 votes; 3 chairs; 2 members in no chair: CCC Celland (15 votes), EEE Elland (8 votes)",
        "AAA,40 BBB,25 CCC,15 DDD,12 EEE,8 script open,1 open,2 open,3 move,AAA,1 move,BBB,2 move,DDD,3",
        ["A blank chair under a filled one is no chair: 2 rows"],
    ),
    "a total that is named and right": (
        "name,votes,chair\nAlland,40,Hills\nBelland,25,Plains\nTotal,65,\n",
        [],
        "2 members, 65 votes; 2 chairs; every member is in a chair",
        "XAA,40 XAB,25 script open,1 open,2 move,XAA,1 move,XAB,2",
        [
            "Chairs have names: they were numbered in the order in which they appear: 1 Hills; 2 Plains",
            "Row 4 (Total, 65 votes), the sum of rows 2 to 3, was left out as a total",
            "The table has no codes: they were made from names (a country's by ISO 3166, and else one that no country "
            "has): XAA Alland; XAB Belland",
        ],
    ),
    "a suspended member": (
        "code,name,votes,chair,suspended\nAAA,Alland,40,1,false\nBBB,Belland,25,2,true\n",
        [],
        "2 members, 65 votes; 2 chairs; every member is in a chair",
        "AAA,40 BBB,25 script open,1 open,2 move,AAA,1 move,BBB,2 suspend,BBB",
        [],
    ),
}
# One member, vote or chair more than the program accepts, by the fault's name.
BEYOND = {
    "TooManyMembers": HEAD + "".join(f"{code},1,1\n" for code in codes(257)),
    "VotesTooLarge": HEAD + f"AAA,{2**40 + 1},1\n",
    "BadChair": HEAD + "".join(f"{code},1,{chair}\n" for chair, code in enumerate(codes(33), 1)),
}
# The most that the program accepts: 256 members, 32 chairs, 2^40 votes.
MOST_ROWS = [(code, 2**40 - 977 * at, 1 + at % 32) for at, code in enumerate(codes(256))]
MOST = HEAD + "".join(f"{code},{votes},{chair}\n" for code, votes, chair in MOST_ROWS)
# Names that could break a page, a CSV or a picture.
ODD = """code,name,votes,chair,chair_name
AAA,"A, ""B"" </script><b>&amp;",40,1,"=1+1, ""C"" --> <i>"
BBB,Łódź,26,2,"Ünter & Söhne; 'x'"
CCC,日本,15,3,%20
"""
# Files that aren't tables: their first bytes, and words of the sentence on them.
OTHER_FILES = {
    "board.pdf": (b"%PDF-1.7\n%\xe2\xe3\xcf\xd3\n1 0 obj\n", "This is a PDF"),
    "old.xls": (b"\xd0\xcf\x11\xe0\xa1\xb1\x1a\xe1" + bytes(600), "old Office"),
    "picture.png": (b"\x89PNG\r\n\x1a\n" + bytes(100), "This is a picture"),
    "bytes.dat": (bytes(range(256)) * 4, "no kind of file that this page reads"),
    "results-table.csv": (
        b"# board 0.9.0\nscenario,sweep,sweep_percent,majority,open_chairs,chair,name\nbase,,,half,3,1,Hills\n",
        "the table of results that this page exports",
    ),
    "letter.txt": (b"Dear Board,\nthank you.\n", "There are no numbers in this text"),
}

MAIN = "http://schemas.openxmlformats.org/spreadsheetml/2006/main"
OFFICE = "http://schemas.openxmlformats.org/officeDocument/2006/relationships"
Cell = str | int | float | bool | None


def zip_of(parts: dict[str, str]) -> bytes:
    """A zip file of texts."""
    file = io.BytesIO()
    with zipfile.ZipFile(file, "w", zipfile.ZIP_DEFLATED) as archive:
        for name, text in parts.items():
            archive.writestr(name, text)
    return file.getvalue()


def cell_of(place: str, cell: Cell, texts: list[str], style: int = 0) -> str:
    """A cell of a sheet; texts are shared, except those that begin with `inline`."""
    if cell is None:
        return ""
    if isinstance(cell, bool):
        return f'<c r="{place}" t="b"><v>{int(cell)}</v></c>'
    if isinstance(cell, (int, float)):
        return f'<c r="{place}" s="{style}"><v>{cell}</v></c>'
    if cell.startswith("inline "):
        return f'<c r="{place}" t="inlineStr"><is><t>{escape(cell[7:])}</t></is></c>'
    texts.append(cell)
    return f'<c r="{place}" t="s"><v>{len(texts) - 1}</v></c>'


def sheet_of(rows: list[list[Cell]], merged: list[str], texts: list[str], styles: dict[str, int]) -> str:
    lines = []
    for row, cells in enumerate(rows, 1):
        places = [f"{ascii_uppercase[column]}{row}" for column in range(len(cells))]
        own = (cell_of(it, cell, texts, styles.get(it[0], 0)) for it, cell in zip(places, cells))
        lines.append(f'<row r="{row}">{"".join(own)}</row>')
    merges = "".join(f'<mergeCell ref="{it}"/>' for it in merged)
    data = f'<sheetData>{"".join(lines)}</sheetData><mergeCells>{merges}</mergeCells>'
    return f'<worksheet xmlns="{MAIN}">{data}</worksheet>'


def xlsx_of(
    sheets: dict[str, list[list[Cell]]],
    merged: dict[str, list[str]] | None = None,
    styles: dict[str, int] | None = None,
) -> bytes:
    """A workbook. Styles of columns: 0 plain, 1 per cent, 2 dates."""
    texts: list[str] = []
    parts = {
        f"xl/worksheets/sheet{number}.xml": sheet_of(rows, (merged or {}).get(name, []), texts, styles or {})
        for number, (name, rows) in enumerate(sheets.items(), 1)
    }
    names = "".join(f'<sheet name="{escape(it)}" sheetId="{at}" r:id="rId{at}"/>' for at, it in enumerate(sheets, 1))
    targets = "".join(
        f'<Relationship Id="rId{at}" Type="{OFFICE}/worksheet" Target="worksheets/sheet{at}.xml"/>'
        for at, _ in enumerate(sheets, 1)
    )
    shared = "".join(f"<si><t>{escape(it)}</t></si>" for it in texts)
    formats = '<cellXfs><xf numFmtId="0"/><xf numFmtId="10"/><xf numFmtId="14"/></cellXfs>'
    return zip_of(
        {
            "[Content_Types].xml": "<Types/>",
            "xl/workbook.xml": f'<workbook xmlns="{MAIN}" xmlns:r="{OFFICE}"><sheets>{names}</sheets></workbook>',
            "xl/_rels/workbook.xml.rels": f"<Relationships>{targets}</Relationships>",
            "xl/sharedStrings.xml": f'<sst xmlns="{MAIN}">{shared}</sst>',
            "xl/styles.xml": f'<styleSheet xmlns="{MAIN}">{formats}</styleSheet>',
            **parts,
        }
    )


# A workbook of two sheets, with a Director over merged cells, per cent and dates.
WORKBOOK = xlsx_of(
    {
        "About": [["Votes of the Board"], ["as of", 45292]],
        "Votes": [
            ["Director", "Member", "Votes", "Share", "Since", "Suspended"],
            ["Smith", "inline United States", 831401, 0.8426, 45292, False],
            ["Hilbers", "Armenia", 2743, 0.0028, 45292, False],
            [None, "Belgium", 65567.0, 0.0664, 45292, False],
            [None, "Kosovo 1/", 86988, 0.0882, 45292, True],
            ["1/ As the Fund calls it."],
        ],
    },
    {"Votes": ["A3:A5"]},
    {"D": 1, "E": 2},
)
WORKBOOK_SCRIPT = (
    "USA,831401 ARM,2743 BEL,65567 XKX,86988 script open,1 open,2 move,USA,1 move,ARM,2 move,BEL,2 move,XKX,2 "
    "suspend,XKX"
).split()


def swollen(size: int, sheets: int, text: str = "<c/>") -> bytes:
    """A small workbook whose sheets have very many letters, each in one row."""
    parts = {f"xl/worksheets/sheet{at}.xml": f"<row>{text * (size // len(text))}</row>" for at in range(1, sheets + 1)}
    names = "".join(f'<sheet name="{at}" r:id="rId{at}"/>' for at in range(1, sheets + 1))
    targets = "".join(f'<Relationship Id="rId{at}" Target="worksheets/sheet{at}.xml"/>' for at in range(1, sheets + 1))
    book = {"xl/workbook.xml": f"<workbook>{names}</workbook>", "xl/_rels/workbook.xml.rels": f"<x>{targets}</x>"}
    return zip_of({**book, **parts})


def pictured(letters: int) -> bytes:
    """A page that was saved in Windows-1252, with a curly apostrophe and a picture in it."""
    head = "<tr><th>Code<th>Name<th>Votes<th>Chair"
    rows = "<tr><td>AAA<td>Alland’s<td>5<td>1<tr><td>BBB<td>Belland<td>6<td>2"
    picture = f'<img src="data:image/png;base64,{"A" * letters}">'
    return f"<html>{picture}<table>{head}{rows}</table>".encode("cp1252")


# Files that take much longer to read than they are long: how they are made, what comes, and its words.
HOSTILE: dict[str, tuple[Callable[[], bytes], str, str]] = {
    "cells.xlsx": (lambda: swollen((8 << 20) - 100, 1), "#refusal", "more than 400,000 tags"),
    "large.xlsx": (lambda: swollen(9 << 20, 1), "#refusal", "has more than a table of members"),
    "sheets.xlsx": (lambda: swollen(3 << 20, 30, " "), "#refusal", "has more than a table of members"),
    "styles.html": (lambda: b"<html>" + b"<style " * 60_000, "#refusal", "There is no table in this page"),
    "struck.html": (lambda: b"<table><td>" + b"<s>" * 19_990, "#refusal", "There is no table in this page"),
    "picture.html": (lambda: pictured(1 << 16), "#table-notices", "The table was read as cp1252"),
}

# A table on the clipboard as HTML, as a spreadsheet or a browser gives it.
HTML = """<meta charset="utf-8"><style>td { color: red }</style>
<table><tr><th>Director</th><th>Member</th><th>Votes</th></tr>
<tr><td>Smith</td><td>United&nbsp;States</td><td>831,401<sup>1</sup></td></tr>
<tr style="color: red"><td rowspan="3" style='x'>Hilbers<!-- x --></td><td>Armenia</td><td>2,743</td></tr>
<tr><td>Belgium</td><td> 65,567 </td></tr>
<tr><td>Kosovo<sup>2</sup></td><td>86,988</td></tr></table>"""
# A table of a web page in which something is struck out, in each way, also by a tag that has a "<" in an attribute.
STRUCK = """<style>.old { text-decoration: line-through }</style>
<table><tr><th>Code<th>Name<th>Votes<th>Chair
<tr><td>AAA<td><s>Old</s> Alland<td><del>50</del> <ins>40</ins><td>1
<tr><td>BBB<td>Belland<td><strike>30</strike>25<td>2
<tr style="text-decoration: line-through"><td>CCC<td>Celland<td>15<td>2
<tr><td>DDD<td>Delland<td><span style="text-decoration-line: line-through">14</span> 12<td>3
<tr><td>EEE<td>Elland<td><del title="<">9</del> 8<td title="<s>">3
<tr><td>FFF<td>Felland<td><b class="old">7</b> 6<td>3</table>"""
STRUCK_SCRIPT = "AAA,40 BBB,25 DDD,12 FFF,6 script open,1 open,2 open,3 move,AAA,1 move,BBB,2 move,DDD,3 move,FFF,3"
HTML_SCRIPT = "USA,831401 ARM,2743 BEL,65567 XKX,86988 script open,1 open,2 move,USA,1 move,ARM,2 move,BEL,2 move,XKX,2"
