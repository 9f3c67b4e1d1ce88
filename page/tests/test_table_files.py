"""What goes from the page into a paper: tables for LaTeX and Excel, sentences, the citation; by key and by finger."""
from __future__ import annotations

import csv
import io
import re
from collections.abc import Iterator
from fractions import Fraction
from typing import Any
from zipfile import ZipFile

import openpyxl  # type: ignore[import]
import pytest
from chromium import EVERY, NARROW, Page
from figures import drawn_chairs, measure_of, shown_majorities, table_rows
from member_tables import Member
from oracle import MAJORITIES, TOP, UNSHOWN, Oracle
from replay_output import Chair, Reading
from rounding import exact
from selenium.webdriver.common.keys import Keys
from test_exports import COMMANDS, sha256
from test_hands import Finger, middle
from test_random import table_of
from test_said import DIRECTOR, FORMULAS, opened
from tex_reader import Table, read

BROWSERS = EVERY
NOT_IN_FIREFOX = ["test_a_finger"]
LABELS = {"half": "simple majority", "70": "70 per cent", "85": "85 per cent", "quorum": "quorum"}
MEASURES = {
    "share": "Share of power",
    "banzhaf": "Banzhaf measure",
    "prevent": "Power to prevent action",
    "initiate": "Power to initiate action",
    "swings": "Swings",
}
# Names with every character that LaTeX, XML or a spreadsheet takes for something else.
HOSTILE = [
    "A & B",
    "100 % of it",
    "$x_1^2$",
    "#1",
    "{open",
    "close}",
    "~tilde~ ^hat^",
    "back\\slash\\\\",
    "\\input{x} \\end",
    '<i>|`"quote"\'',
    "=1+1",
    "+SUM(A1)",
    "-2",
    "@x",
    "%",
    "_x0041_ & _",
    "]]> & <![CDATA[",
    "Ünter 日本",
    DIRECTOR,
    f"{DIRECTOR} & 50 %",
    "--",
    "\\",
    "a\\",
    "&amp;",
]


@pytest.fixture
def study(page: Page) -> Page:
    """The page with three changes, at all majorities."""
    for act in [["votes", "XAD", "+40%"], ["move", "XAA", "2"], ["suspend", "XAC"]]:
        assert page.act(*act)
    for majority in UNSHOWN:
        page.click(f"#at-{majority}")
    return page


def named(page: Page, names: list[str]) -> None:
    """Opens a table with a chair for each name."""
    rows = [["code", "name", "votes", "chair", "chair_name"]]
    for at, name in enumerate(names, 1):
        rows.append([f"A{chr(64 + at)}A", f"M{at}", str(50 + at), str(at), name])
    text = io.StringIO()
    csv.writer(text).writerows(rows)
    opened(page, text.getvalue())


def tex_table(page: Page) -> Table:
    """The table for LaTeX, without the column of vetoes, which is the last one where there is one."""
    return without_vetoes(read(str(page.act("exported", "export-tex"))))


def without_vetoes(table: Table) -> Table:
    if table.heads[0][-1] == "Veto":
        for row in [*table.heads, *table.rows, table.sums]:
            row.pop()
    return table


def signed(number: Fraction, places: int) -> str:
    """A number with its sign, rounded half to even by Python."""
    value = round(number * 10**places) if places else round(number)
    text = f"{abs(value):0{places + 1}d}"
    whole = f"{int(text[:-places] if places else text):,}"
    sign = "-" if value < 0 else "+" if value > 0 else ""
    return f"{sign}{whole}.{text[-places:]}" if places else sign + whole


def plain(number: Fraction, places: int) -> str:
    return signed(number, places).removeprefix("+")


Pair = tuple[tuple[Reading, Chair], tuple[Reading, Chair]]


def seated(oracle: Oracle) -> list[Member]:
    """The members of the base that sit in a chair."""
    return [it for it in oracle.table.members if it.chair]


def pairs(oracle: Oracle, majorities: list[str]) -> dict[str, dict[int, Pair]]:
    """For each majority and chair its readings, base and changed. No chair of these studies opens or closes."""
    before, after = (oracle.output(it, majorities).readings for it in (list[str](), COMMANDS))
    return {
        old.majority: {one.chair: ((old, one), (new, other)) for one, other in zip(old.chairs, new.chairs)}
        for old, new in zip(before, after)
    }


def shares(pair: Pair) -> list[Fraction]:
    return [Fraction(chair.weight, reading.cast) for reading, chair in pair]


def powers(pair: Pair, measure: str) -> list[Fraction]:
    found = [measure_of(chair, measure) for _, chair in pair]
    return [exact(it) for it in found if it]


def wanted_cells(found: dict[str, dict[int, Pair]], chair: int, measure: str, digits: int) -> list[str]:
    """The cells of a chair, from the oracle's fractions."""
    first, cells = found["half"][chair], list[str]()
    of_votes = shares(first)
    for majority in MAJORITIES:
        base, changed = powers(found[majority][chair], measure)
        times, places = (100, digits) if measure == "share" else (1, 0 if measure == "swings" else digits + 2)
        cells += [plain(times * base, places), plain(times * changed, places), signed(times * (changed - base), places)]
        if measure == "share":
            cells.append(plain(changed / of_votes[1], max(2, digits)) if of_votes[1] else "")
    base, changed = of_votes
    shown = [*(plain(100 * it, digits) for it in (base, changed)), signed(100 * (changed - base), digits)]
    return [*cells, *(f"{of.weight:,}" for _, of in first), *shown]


def test_latex(study: Page, oracle: Oracle) -> None:
    # Catches: a number in a table for LaTeX that isn't the oracle's, in any measure, or one under another heading.
    found, compared = pairs(oracle, MAJORITIES), 0
    for digits, (measure, words) in zip([3, 1, 6, 0, 2], MEASURES.items()):
        study.choose("#measure", measure)
        study.choose("#digits", str(digits))
        table = tex_table(study)
        shares = ["base (%)", "changed (%)", "added, points"]
        each = [*shares, "over votes"] if measure == "share" else ["base", "changed", "added"]
        groups = [f"{words}, {LABELS[it]}" for it in MAJORITIES for _ in each]
        groups += ["Votes"] * 2 + ["Share of votes"] * 3
        own = [*each * len(MAJORITIES), "base", "changed", *shares]
        assert table.heads == [["", "", *groups], ["Chair", "Name", *own]]
        assert [int(it[0]) for it in table.rows] == drawn_chairs(study)
        for chair, _, *cells in table.rows:
            assert cells == wanted_cells(found, int(chair), measure, digits), (chair, measure)
            compared += len(cells)
        assert table.sums[:2] == ["", "All chairs"] and table.sums[-5] == f"{sum(it.votes for it in seated(oracle)):,}"
        for column in zip(*(it[2:] for it in table.rows)):
            assert len({len(cell.partition(".")[2]) for cell in column if cell}) == 1, "points that don't align"
    assert compared == 5 * 24 * (5 + 3 * len(MAJORITIES)) + 24 * len(MAJORITIES)
    assert table.rules[1].count("cmidrule") == 3 + len(MAJORITIES) and len(table.rules) == 5


def test_latex_fractions_and_order(study: Page, oracle: Oracle) -> None:
    # Catches: a table that isn't the one shown: other words, another order, decimals in place of fractions.
    study.click("#tab-table")
    study.click("#head-power-half")
    study.click("#toggle-fractions")
    shown = study.run(
        """return [...document.querySelectorAll("#chair-table tbody tr")].map(
      (row) => [...row.cells].map((it) => it.textContent));"""
    )
    table, found = tex_table(study), pairs(oracle, MAJORITIES)
    assert table.rows == [[{"-": "--"}.get(it, it).replace("−", "-") for it in row] for row in shown]
    assert [int(it[0]) for it in table.rows] != sorted(int(it[0]) for it in table.rows)
    # Catches: fractions under a heading that says points.
    heads = study.texts("#chair-table thead th") + table.heads[1]
    assert "added" in heads and not any("points" in it for it in heads)
    for chair, _, *cells in table.rows:
        values = [None if it == "--" else Fraction(it) for it in cells]
        of_votes = shares(found["half"][int(chair)])
        for at, majority in enumerate(MAJORITIES):
            base, changed = powers(found[majority][int(chair)], "share")
            ratio = changed / of_votes[1] if of_votes[1] else None
            assert values[4 * at : 4 + 4 * at] == [base, changed, changed - base, ratio]
        base, changed = of_votes
        assert values[-3:] == [base, changed, changed - base]


def test_latex_source(study: Page, oracle: Oracle) -> None:
    # Catches: a table without the version, or with the hash of another script.
    comments = tex_table(study).comments
    script = oracle.script(COMMANDS, MAJORITIES).encode()
    assert f"script sha256 {sha256(script)}" in comments
    assert any(re.match(r"counted by board \d+\.\d+\.\d+, sources [0-9a-f]{64}", it) for it in comments)
    assert any("\\usepackage{booktabs}" in it for it in comments)


def test_latex_names(page: Page) -> None:
    # Catches: a name that ends a cell, begins a comment or a command, or comes out as another name.
    named(page, HOSTILE)
    page.click("#sort-number")
    table = tex_table(page)
    assert [it[1] for it in table.rows] == [" ".join(it.split()) for it in HOSTILE]
    text = str(page.act("exported", "export-tex"))
    assert f"\\righttoleft{{{DIRECTOR}}}\n" in text and "\\providecommand{\\righttoleft}" in text
    assert not re.search("[\u200e\u200f\u202a-\u202e\u2066-\u2069]", text)
    assert "pdfLaTeX lacks" in text
    opened(page, FORMULAS, "formulas")
    assert "pdfLaTeX lacks" not in str(page.act("exported", "export-tex"))
    assert [it[1] for it in tex_table(page).rows] == ["=cmd|' /C calc'!A0", "+1-2", "-Minus"]


def wanted_vetoes(found: dict[str, dict[int, Pair]], chair: int) -> set[tuple[str, str]]:
    """What a chair's cell must say: the words and the majority of each kind of power, by the oracle's counts."""
    wanted = set[tuple[str, str]]()
    for majority, pair in ((it, found[it][chair]) for it in MAJORITIES):
        had, has = (of.swings == reading.winning for reading, of in pair)
        is_alone = has and pair[1][1].swings == 2 ** len(pair[1][0].chairs) - pair[1][0].winning
        kind = "alone" if is_alone else "veto" if has else "" if pair[1][1].swings else "no power"
        words = ("gains veto" if has else "loses veto") if had != has else kind
        wanted |= {(words, LABELS[majority])} if words else set()
    return wanted


def test_vetoes_in_files(study: Page, oracle: Oracle) -> None:
    # Catches: a table without the vetoes that stand beside the names on the page, or with one of another chair.
    found = pairs(oracle, MAJORITIES)
    table = read(str(study.act("exported", "export-tex")))
    assert [it[-1] for it in table.heads] == ["Veto", ""] and table.sums[-1] == ""
    cells = {int(it[0]): it[-1] for it in table.rows}
    for chair, cell in cells.items():
        parts = re.findall(r"(?:^|; )([a-z ]+) \(([^)]*)\)", cell)
        assert {(words, at) for words, ats in parts for at in ats.split(" and ")} == wanted_vetoes(found, chair), cell
    assert cells[1].endswith("loses veto (85 per cent)") and cells[2] == "gains veto (85 per cent)"
    heads, *rows = workbook(study)[1]["Shown"].iter_rows(values_only=True)
    assert heads[-1] == "Veto" and {row[0]: row[-1] or "" for row in rows[:-1]} == cells
    study.click("#export")
    study.click("#export-copy")
    study.until(lambda: study.text("#export-words"), "a word of the copy")
    lines = [it.split("\t") for it in pasted(study).splitlines()]
    assert lines[0][-1] == "Veto" and {int(it[0]): it[-1] for it in lines[1:-1]} == cells


def test_latex_chairs_that_open_and_close(page: Page) -> None:
    # Catches: a chair that isn't open in one of the boards with a number there, or a row that lost a cell.
    for code in ["XAA", "XAD"]:
        assert page.act("move", code, "none")
    assert page.act("close", "1") and page.act("open")
    rows = tex_table(page).rows
    [closed], [new] = ([it for it in rows if it[1].endswith(f" ({word})")] for word in ["closed", "new"])
    assert closed[0] == new[0] == "1" and len(rows) == 25
    # The cells of the closed chair are empty in the changed board, and those of the new one in the base.
    votes, share = slice(-5, -3), slice(-3, None)
    assert closed[votes] == ["921,417", ""] and closed[share][0] and closed[share][1:] == ["", ""]
    assert new[votes] == ["", "0"] and new[share][0] == "" and new[share][1] and new[share][2] == ""
    assert closed[2] and closed[3:6] == ["", "", ""] and new[2] == "" and new[3] and new[4] == ""


def test_blanks_of_a_workbook(page: Page) -> None:
    # Catches: an attribute in each text, which R's openxlsx takes for a part of it; a blank at an edge that is lost.
    opened(page, FORMULAS, "formulas")
    page.click("#export")
    with ZipFile(io.BytesIO(page.downloaded("#export-xlsx")[1])) as book:
        texts = book.read("xl/sharedStrings.xml").decode()
        cells = "".join(book.read(it).decode() for it in book.namelist() if "worksheets" in it)
    found = re.findall('<t( xml:space="preserve")?>([^<]*)</t>', texts)
    places = {int(it) for it in re.findall('t="s"><v>([0-9]+)</v>', cells)}
    assert len(found) == texts.count("<t>") + texts.count("<t ") and cells.count('t="s"') > 100
    assert places == set(range(len(found))) and "<t" not in re.sub("<t[a-z]", "", cells)
    assert all(bool(space) == (text != text.strip()) for space, text in found)


def workbook(page: Page) -> tuple[str, Any]:
    page.click("#export")
    name, content = page.downloaded("#export-xlsx")
    page.press(Keys.ESCAPE)
    return name, openpyxl.load_workbook(io.BytesIO(content))


def rows_of(sheet: Any) -> list[dict[str, Any]]:
    heads, *rows = sheet.iter_rows(values_only=True)
    return [dict(zip(heads, row)) for row in rows]


def check_cells(row: dict[str, Any], wanted: dict[str, str]) -> int:
    """A row of the workbook has the cells of a row of board-study's CSV, with numbers as numbers."""
    for name, text in wanted.items():
        cell, is_number = row[name], bool(re.fullmatch(r"-?[0-9.]+", text)) and name not in ("majority", "name")
        if not is_number:
            assert (cell or "") == text, (name, cell, text)
            continue
        assert type(cell) in (int, float), (name, cell)
        places = len(text.partition(".")[2])
        assert abs(Fraction(cell) - Fraction(text)) <= Fraction(6, 10 ** (places + 1)) if places else cell == int(text)
    return len(wanted)


def exact_values(row: dict[str, str], base: dict[str, str]) -> Iterator[tuple[str, Fraction]]:
    """The fractions of a row, and the differences from its row in the base."""
    for name in ["vote_share", "banzhaf", "power_share", "prevent", "initiate"]:
        value, before = (Fraction(int(it[f"{name}_numerator"]), int(it[f"{name}_denominator"])) for it in (row, base))
        yield name, value
        yield f"{name}_difference", value - before


def test_workbook(study: Page, oracle: Oracle) -> None:
    # Catches: a cell of the workbook that isn't the oracle's, a number that is a text, or a digit that is lost.
    name, book = workbook(study)
    assert name.endswith("-table.xlsx") and book.sheetnames == ["Shown", "Table", "Fractions", "Source"]
    wanted = table_of(oracle.study({"changed": COMMANDS}, MAJORITIES))
    rows, fractions = rows_of(book["Table"]), rows_of(book["Fractions"])
    assert len(rows) == len(fractions) == len(wanted) == 2 * len(MAJORITIES) * 24
    assert sum(check_cells(row, it) for row, it in zip(rows, wanted)) == len(wanted) * 34
    csv_rows = table_of(str(study.act("exported", "export-csv")))
    assert [list(it) for it in rows[:1]] == [list(it) for it in csv_rows[:1]]
    base = {(it["majority"], it["chair"]): it for it in wanted if it["scenario"] == "base"}
    compared = 0
    for row, texts, number in zip(wanted, fractions, rows):
        for column, value in exact_values(row, base[row["majority"], row["chair"]]):
            assert isinstance(texts[column], str) and Fraction(texts[column]) == value, (column, texts)
            assert number[column] == float(value), (column, number[column], value)
            compared += 1
    assert compared == len(wanted) * 10


def test_workbook_of_what_is_shown(study: Page) -> None:
    # Catches: a first sheet that isn't the table on the page: another order, other columns, or rounded numbers.
    study.click("#tab-table")
    for left_out in ["ratio", "share"]:
        study.click(f"#table-{left_out}")
    heads, *rows, sums = (row[:-1] for row in workbook(study)[1]["Shown"].iter_rows(values_only=True))
    shown = table_rows(study)
    assert [row[0] for row in rows] == list(shown) and len(heads) == 2 + 3 * len(MAJORITIES) + 2
    # A column of points has a hundred times the fraction, as its head says.
    units = [100 if ", points" in head else 1 for head in heads[2:]]
    assert 100 in units
    for chair, _, *cells in rows:
        fractions = [Fraction(fraction) for _, fraction in shown[chair][1:]]
        assert list(cells) == [float(unit * it) for unit, it in zip(units, fractions, strict=True)]
    assert sums[1] == "All chairs" and sums[2] == 1 and sums[-1] == sum(row[-1] for row in rows)


def test_workbook_source(study: Page, oracle: Oracle) -> None:
    # Catches: a workbook whose script isn't the one of its numbers, or that doesn't say its version.
    study.write("#scenario-name", "Kept")
    book = workbook(study)[1]
    rows = [(row["what"], row["text"] or "") for row in rows_of(book["Source"])]
    script = "\n".join(text for what, text in rows if what == "script")
    assert (
        script
        == oracle.script(COMMANDS, MAJORITIES)
        == "\n".join(text for what, text in rows if what == "script of scenario Kept")
    )
    source = [text for what, text in rows if what == "source"]
    assert f"script sha256 {sha256(script.encode())}" in source and ("majorities", ", ".join(MAJORITIES)) in rows
    assert any(re.match(r"counted by board \d+\.\d+\.\d+, sources ", it) for it in source)


def test_workbook_of_a_sweep(page: Page, oracle: Oracle) -> None:
    # Catches: steps of a sweep that are missing, or whose value is a text.
    page.click("#tab-curve")
    page.at("#sweep-run").click()
    page.until(lambda: page.all("#sweep-table"), "the sweep")
    page.settle()
    rows = rows_of(workbook(page)[1]["Table"])
    wanted = table_of(oracle.study({}, ["half", "85"], "chair 1 1..35 by 1 %"))
    assert len(rows) == len(wanted) == 2 * 24 * 36
    steps = [(it["sweep_percent"], Fraction(of["sweep_percent"])) for it, of in zip(rows, wanted) if of["sweep"]]
    assert len(steps) == 2 * 24 * 35 and all(Fraction(cell) == value for cell, value in steps)
    assert [it["power_share_numerator"] for it in rows] == [int(it["power_share_numerator"]) for it in wanted]


def test_workbook_names(page: Page) -> None:
    # Catches: a name that a spreadsheet takes for a formula, or one that breaks the file.
    named(page, HOSTILE)
    sheet = workbook(page)[1]["Table"]
    column = [it.value for it in sheet[1]].index("name")
    cells = [row[column] for row in sheet.iter_rows(min_row=2, max_row=1 + len(HOSTILE))]
    # openpyxl leaves the code of a literal _x0041_ as it is written; Excel and LibreOffice read it.
    assert [str(it.value).replace("_x005F_", "_") for it in cells] == HOSTILE
    assert {it.data_type for it in cells} <= {"s", "inlineStr"} and {it.number_format for it in cells} == {"@"}
    opened(page, FORMULAS, "formulas")
    sheet = workbook(page)[1]["Table"]
    cells = [row[column] for row in sheet.iter_rows(min_row=2, max_row=4)]
    assert [it.value for it in cells] == ["=cmd|' /C calc'!A0", "+1-2", "-Minus"]
    assert "f" not in {it.data_type for it in cells}


# The clipboard.


def pasted(page: Page) -> str:
    """What is on the clipboard."""
    while page.all("dialog[open]"):
        page.press(Keys.ESCAPE)
    page.click("#paste")
    page.at("#paste-text").send_keys(Keys.CONTROL, "v")
    text = str(page.at("#paste-text").get_property("value"))
    page.press(Keys.ESCAPE)
    return text


def check_sentence(text: str, page: Page, oracle: Oracle, majority: str) -> None:
    """The text is the sentence at a majority, and a line with its fractions, the version and the hash."""
    sentence, source = text.strip().splitlines()
    assert sentence == page.texts("#sentences p")[shown_majorities(page).index(majority)]
    script = oracle.script(COMMANDS, shown_majorities(page)).encode()
    assert re.search(r"; counted by board \d+\.\d+\.\d+, sources [0-9a-f]{64}", source)
    assert f"script sha256 {sha256(script)}" in source and source.startswith("Source: ")
    found = pairs(oracle, [majority])[majority]
    values = {chair: powers(of, "share") for chair, of in found.items()}
    gains = {chair: changed - base for chair, (base, changed) in values.items()}
    for chair in (max(gains, key=lambda it: gains[it]), min(gains, key=lambda it: gains[it])):
        said = re.search(rf"(?:Source: |; ){chair} [^,;]+, made here: (\S+) less (\S+?);", source)
        assert said and [Fraction(said[2]), Fraction(said[1])] == values[chair], source


def test_sentences_by_keyboard(study: Page, oracle: Oracle) -> None:
    # Catches: a sentence without its source, a button that no key reaches, a copy that nothing says.
    study.run("document.querySelector('#display summary').focus();")
    study.press(Keys.TAB)
    assert study.run("return document.activeElement.id;") == "copy-all"
    study.press(Keys.ENTER)
    live = "return document.getElementById('live').textContent;"
    study.until(lambda: "sentences are" in study.run(live), "a word of the copy")
    assert "done" in str(study.at("#copy-all").get_attribute("class"))
    for text, majority in zip(pasted(study).strip().split("\n\n"), MAJORITIES, strict=True):
        check_sentence(text, study, oracle, majority)


def test_copies_in_the_dialog(study: Page, oracle: Oracle) -> None:
    # Catches: another sentence or table than the one at the button; a copy that only works on the page itself.
    for place, words in [("#export-sentence-quorum", "sentence for the quorum"), ("#export-tex-copy", "table")]:
        study.click("#export")
        study.at(place).send_keys(Keys.ENTER)
        study.until(lambda: words in study.text("#export-words"), "a word of the copy")
        text = pasted(study)
        if "tex" in place:
            assert text == study.act("exported", "export-tex")
        else:
            check_sentence(text, study, oracle, "quorum")


def test_citation(study: Page, oracle: Oracle) -> None:
    # Catches: a citation without author, version, date or hash, with an address that doesn't exist, or that no export
    # names.
    [author] = re.findall("^  - name: (.*)$", (TOP / "CITATION.cff").read_text(), re.MULTILINE)
    version, date = re.findall(r"^## ([0-9.]+), ([0-9-]+)$", (TOP / "CHANGELOG.md").read_text(), re.MULTILINE)[0]
    study.click("#export")
    study.click("#export-cite")
    study.until(lambda: study.all("#cite-bibtex"), "the citation")
    text, bibtex = study.text("#cite-text"), study.text("#cite-bibtex")
    script = sha256(oracle.script(COMMANDS, MAJORITIES).encode())
    assert text.startswith(f"{author} ({date[:4]}). board: ") and text.endswith(f"script with SHA-256 {script}.")
    assert f"version {version} of {date}" in text and "author = {{" + author + "}}" in bibtex
    assert len(re.findall("[0-9a-f]{64}", bibtex)) == len(re.findall("[0-9a-f]{64}", text)) == 1 and script in bibtex
    assert not re.search("https?:|doi|url", (text + bibtex).lower())
    study.at("#cite-bibtex-copy").send_keys(Keys.ENTER)
    study.until(lambda: study.text("#cite-words"), "a word of the copy")
    assert pasted(study) == bibtex


@pytest.fixture
def finger(page: Page) -> Iterator[Finger]:
    """A phone."""
    page.driver.execute_cdp_cmd("Emulation.setTouchEmulationEnabled", {"enabled": True, "maxTouchPoints": 1})
    page.open()
    page.show(NARROW, 844)
    yield Finger(page)
    page.driver.execute_cdp_cmd("Emulation.setTouchEmulationEnabled", {"enabled": False})


def tap(finger: Finger, place: str) -> None:
    finger.page.run("document.querySelector(arguments[0]).scrollIntoView({ block: 'center' });", place)
    finger.down(middle(finger.page, place))
    finger.up()


def test_a_finger(page: Page, finger: Finger, oracle: Oracle) -> None:
    # Catches: a group that a finger doesn't find, something wider than a phone, a copy that needs a mouse.
    tap(finger, "#export")
    for group in ["figure", "table", "sentences", "study", "citation"]:
        tap(finger, f"#to-group-{group}")
        title = f"group-{group}-title"
        top = page.run("return document.getElementById(arguments[0]).getBoundingClientRect().top;", title)
        assert 0 < top < 844, f"{group} is at {top}"
        assert page.run("return document.activeElement.id;") == title
    wide = """return [...document.querySelectorAll("#export-dialog *")].filter(
      (it) => it.getBoundingClientRect().right > innerWidth || (!it.closest("svg") && it.scrollWidth > innerWidth))
      .map((it) => it.outerHTML);"""
    small = """return [...document.querySelectorAll("#export-dialog :is(button, select, input:not([type=checkbox]))")]
      .filter((it) => it.offsetParent && it.offsetHeight < 40).map((it) => it.id);"""
    assert page.run(wide) == [] and page.run(small) == []
    tap(finger, "#export-sentence-half")
    page.until(lambda: page.text("#export-words"), "a word of the copy")
    assert page.text("#export-words") == "The sentence at a simple majority is on the clipboard."
    tap(finger, "#export-dialog .close")
    assert not page.at("#copy-all").is_displayed()
