"""Tables of members: pasted from a spreadsheet, opened or dropped; the questions about them, and their faults.

How texts are read has its cases in page/tables, without a browser."""
from __future__ import annotations

import xml.etree.ElementTree as ElementTree
from pathlib import Path

import inputs
import pytest
from chromium import EVERY, NARROW, Page
from figures import check_figures, shown_majorities
from member_tables import Member, MemberTable
from oracle import Oracle
from selenium.webdriver.common.keys import Keys
from test_exports import DROP
from test_random import table_of

BROWSERS = EVERY
# A script gives Firefox no clipboard, and can't have it show a phone.
NOT_IN_FIREFOX = {
    "test_paste_html",
    "test_paste_html_without_merged_cells",
    "test_paste_of_a_text_program",
    "test_paste_html_with_struck_text",
    "test_paste_while_a_dialog_is_open",
    "test_width_of_a_phone",
}
# The cells of the preview, without the rows' numbers.
CELLS = """
  const rows = [...document.querySelectorAll("#preview tbody tr")];
  return rows.map((row) => [...row.querySelectorAll("td")].map((cell) => cell.textContent));
"""
# A field with a text in it that is chosen, from which a user copies it.
FIELD = """
  const field = Object.assign(document.createElement("textarea"), { value: arguments[0], id: "copied" });
  document.body.append(field);
  field.select();
"""
# A paste of HTML alone, or of HTML with a text.
PASTE = """
  const [html, text] = arguments, clipboardData = new DataTransfer();
  clipboardData.setData("text/html", html);
  if (text) clipboardData.setData("text/plain", text);
  const paste = new ClipboardEvent("paste", { clipboardData, bubbles: true, cancelable: true });
  (document.activeElement ?? document.body).dispatchEvent(paste);
"""
Row = tuple[str, str, int, int | None]
ROWS: list[Row] = [
    ("AAA", "Alland", 40, 1),
    ("BBB", "Belland", 25, 2),
    ("CCC", "Celland", 15, 2),
    ("DDD", "Delland", 12, 3),
    ("EEE", "Elland", 8, None),
]


def with_rows(oracle: Oracle, rows: list[Row], names: dict[int, str] | None = None) -> Oracle:
    """The program with the members of some rows: a code, a name, votes and a chair."""
    members = [Member(line, code, votes, chair, name) for line, (code, name, votes, chair) in enumerate(rows, 2)]
    other = Oracle(oracle.program)
    other.table = MemberTable(members, names or {})
    return other


@pytest.fixture
def small(oracle: Oracle) -> Oracle:
    """The program with the table of five members."""
    return with_rows(oracle, ROWS)


def paste(page: Page, text: str, dialog: str = "#table-dialog") -> None:
    """Copies a text and pastes it outside of all fields, by keyboard; a dialog comes."""
    page.run(FIELD, text)
    page.press(Keys.CONTROL, "c")
    page.run('document.getElementById("copied").remove();')
    page.press(Keys.CONTROL, "v")
    page.until(lambda: page.all(dialog), "the dialog")


def open_file(page: Page, file: Path, content: bytes, dialog: str = "#table-dialog") -> None:
    """Opens a file by the page's field; a dialog comes."""
    file.write_bytes(content)
    page.at("#file").send_keys(str(file))
    page.until(lambda: page.all(dialog), "the dialog")


def take(page: Page, name: str = "Pasted table") -> None:
    """Takes the table of the preview, once all is answered. A file is read beside the page."""
    page.until(lambda: page.all("#table-take"), "the preview")
    page.at("#table-take").click()
    page.until(lambda: page.text("#study-name") == name, "the study")
    page.settle()


# Keeps orders to read a file from the workers, so that reading one takes forever.
NEVER_READ = """const post = Worker.prototype.postMessage;
  Worker.prototype.postMessage = function (message, ...more) {
    if (message.kind !== "read" || !window.neverRead) post.call(this, message, ...more);
  };
  window.neverRead = true;"""


FILES = {
    "long.csv": b"Code,Votes,Chair\nAAA,5,1\nBBB,6,2\n",
    "long.xlsx": inputs.xlsx_of({"One": [["Code", "Votes", "Chair"], ["AAA", 5, 1], ["BBB", 6, 2]]}),
}


@pytest.mark.parametrize("name", FILES)
def test_reading_is_cancelled(page: Page, name: str, tmp_path: Path) -> None:
    # Catches: a file that can't be stopped while it is read, or that takes the study on the page with it; a text that
    # is read by the page itself, whatever its length.
    page.act("votes", "XAA", "5")
    page.run(NEVER_READ)
    file = tmp_path / name
    file.write_bytes(FILES[name])
    page.at("#file").send_keys(str(file))
    page.until(lambda: page.all("#waiting-cancel"), "the progress")
    assert page.text("#waiting").startswith("The table is being read.")
    page.click("#tab-table")
    assert page.all("#chair-table") and page.all("#waiting-cancel"), "a page that doesn't answer"
    page.click("#waiting-cancel")
    page.until(lambda: not page.all("#waiting"), "the end")
    assert not page.all("dialog") and len(page.all("#changes > li")) == 1
    page.click("#paste")
    page.run("document.getElementById('paste-text').value = `Code,Votes,Chair\\n${'AAA,5,1\\n'.repeat(10_000)}`;")
    page.click("#paste-take")
    page.until(lambda: page.all("#waiting-cancel"), "the progress of a long text")
    page.click("#waiting-cancel")
    page.run("window.neverRead = false;")
    page.at("#file").send_keys(str(file))
    page.until(lambda: page.all("#table-dialog"), "the table")


@pytest.mark.parametrize("name", inputs.HOSTILE)
def test_files_of_an_attacker(page: Page, name: str, tmp_path: Path) -> None:
    # Catches: a file that takes the study on the page with it, or of which nothing is said.
    page.act("votes", "XAA", "5")
    made, place, words = inputs.HOSTILE[name]
    open_file(page, tmp_path / name, made(), place)
    assert words in page.text(place)
    page.press(Keys.ESCAPE)
    assert len(page.all("#changes > li")) == 1 and page.act("votes", "XAB", "6")


def records(page: Page) -> list[str]:
    """The records of the script between its first one and the first reading."""
    script = str(page.act("exported", "export-script")).splitlines()
    return script[1 : script.index("publish")]


def test_paste_from_a_spreadsheet(page: Page, oracle: Oracle) -> None:
    # Catches: a title above the header, columns in another order, thousands, small letters, blanks or an empty row.
    paste(page, inputs.CELLS)
    chosen = {it: page.at(f"#column-{it}").get_property("value") for it in ["code", "name", "votes", "chair"]}
    assert chosen == {"code": "3", "name": "2", "votes": "1", "chair": "0"}
    assert page.at("#header-row").get_property("value") == "3" and page.at("#delimiter").get_property("value") == "\t"
    take(page)
    check_figures(page, with_rows(oracle, [(code, name, 1000 * votes, chair) for code, name, votes, chair in ROWS]), [])
    assert "in no chair: EEE Elland" in page.text("#summary")


def test_open_a_file(page: Page, small: Oracle, tmp_path: Path) -> None:
    # Catches: a file that is chosen and not read, or whose chairs' names are lost.
    open_file(page, tmp_path / "council.csv", inputs.PLAIN.encode())
    take(page, "council")
    check_figures(page, small, [])
    assert [it.split("\n")[0] for it in page.texts(".card-head")][:3] == ["1 Alland", "2 Hills & Dales", "3 Plains"]


def test_drop_a_file(page: Page, small: Oracle) -> None:
    # Catches: a dropped file that the browser opens in the page's place.
    page.run(DROP, "council.csv", inputs.PLAIN)
    page.until(lambda: page.all("#table-dialog"), "the preview")
    take(page, "council")
    check_figures(page, small, [])


@pytest.mark.parametrize("is_merged", [True, False])
def test_merged_cells(page: Page, oracle: Oracle, is_merged: bool) -> None:
    # Catches: members that are put into no chair, or into the chair above, without a question.
    paste(page, inputs.MERGED)
    assert "Merged cells?" in page.text("#merged") and not page.at("#table-take").is_enabled()
    page.click("#merged-yes" if is_merged else "#merged-no")
    take(page)
    seats = {"AAA": 1, "BBB": 2, "CCC": 2 if is_merged else None, "DDD": 3, "EEE": 3 if is_merged else None}
    check_figures(page, with_rows(oracle, [(code, name, votes, seats[code]) for code, name, votes, _ in ROWS]), [])
    assert ("the chair was filled down" in page.text("#choices")) == is_merged


@pytest.mark.parametrize("is_total", [True, False])
def test_total_row(page: Page, oracle: Oracle, is_total: bool) -> None:
    # Catches: a total that is taken as a member with half of all votes, without a question.
    paste(page, inputs.TOTAL)
    assert "A total? Row 7 (TOT, 100 votes) equals" in page.text("#total-7")
    assert not page.at("#table-take").is_enabled()
    page.click("#total-7-yes" if is_total else "#total-7-no")
    take(page)
    total: Row = ("TOT", "Council", 100, None)
    check_figures(page, with_rows(oracle, ROWS if is_total else [*ROWS, total]), [])
    assert "Row 7" in page.text("#choices")


def test_names_alone(page: Page) -> None:
    # Catches: a table without codes, or with chairs by name, that can't be taken.
    paste(page, inputs.NAMES)
    page.click("#aggregate-6-no")
    take(page)
    script = records(page)
    assert script[:5] == ["XAA,40", "XAB,25", "XAC,15", "XAD,12", "XAE,8"]
    assert script[6:] == ["open,1", "open,2", "open,3", "move,XAA,1", "move,XAB,2", "move,XAC,2", "move,XAD,3"]
    assert [it.split("\n")[0] for it in page.texts(".card-head")][:3] == ["1 Harbours", "2 Hills", "3 Plains"]
    assert "made from names" in page.text("#choices")


def test_as_the_fund_prints_it(page: Page) -> None:
    # Catches: names taken for votes, per cent for votes, alternates for chairs, a subtotal or a note for a member.
    paste(page, inputs.PRINTED)
    assert not page.all("fieldset.open") and page.at("#table-take").is_enabled(), page.texts("fieldset.open")
    notices = "\n".join(page.texts("#table-notices li"))
    for words in ["'Dresse' in row 6", "'Kosovo 3/' in row 7", "Row 9", "rows 10 to 12", "rows 6 to 8"]:
        assert words in notices, notices
    take(page)
    assert (
        records(page)
        == (
            "USA,831401 JPN,309205 ARM,2743 BEL,65567 XKX,1232 NLD,154209 script open,1 open,2 open,3 "
            "move,USA,1 move,JPN,2 move,ARM,3 move,BEL,3 move,XKX,3 move,NLD,3"
        ).split()
    )


def test_faults_all_at_once(page: Page) -> None:
    # Catches: faults that are named one after the other, a row that is mended in silence, or counted all the same.
    paste(page, inputs.FAULTY)
    assert [it.get_attribute("data-row") for it in page.all("#table-faults > li")] == ["2", "3", "4", "5"]
    reasons = page.texts("#table-faults > li")
    for reason, words in zip(reasons, ["decimal point", "BadMember", "BadChair", "DuplicateMember"]):
        assert words in reason, reasons
    assert not page.at("#table-take").is_enabled() and not page.at("#table-save").is_enabled()
    for row in [2, 3, 4]:
        page.click(f"#leave-{row}")
    take(page)
    assert records(page)[:3] == ["CCC,12", "EEE,8", "script"]
    assert page.texts("#choices li") == [f"Row {row} was left out" for row in [2, 3, 4]]


@pytest.mark.parametrize("name", inputs.REFUSED)
def test_refused(page: Page, name: str) -> None:
    # Catches: a cell or a row that the page takes for something though it could be something else.
    text, wanted = inputs.REFUSED[name]
    paste(page, text)
    reasons = {int(str(it.get_attribute("data-row"))): it.text for it in page.all("#table-faults > li")}
    assert list(reasons) == list(wanted) and not page.at("#table-take").is_enabled()
    assert all(words in reasons[row] for row, words in wanted.items()), reasons


def test_points_between_thousands(page: Page) -> None:
    # Catches: cells with points that can't be taken, or are taken by a thousandth, where tabs part them.
    paste(page, inputs.REFUSED["three zeros behind a point"][0])
    page.choose("#thousands", ".")
    take(page)
    assert records(page)[:2] == ["AAA,40000", "BBB,8000"]
    assert page.texts("#choices li")[0] == "Marks between thousands were passed over in 2 rows"


def test_the_delimiter_can_be_changed(page: Page) -> None:
    # Catches: a table that is cut at the wrong mark for good.
    paste(page, "code;votes,chair\nAAA;4,1\nBBB;5,2\n")
    assert page.at("#delimiter").get_property("value") == ";"
    page.choose("#delimiter", ",")
    assert page.at("#delimiter").get_property("value") == "," and page.at("#column-chair").get_property("value") == "1"


@pytest.mark.parametrize("name", inputs.READ)
def test_read(page: Page, name: str) -> None:
    # Catches: another number, seat or name than the table's, or a choice or a conversion that the page doesn't say.
    text, clicks, words, script, choices = inputs.READ[name]
    paste(page, text)
    for place in clicks:
        page.click(place)
    assert page.text("#table-words") == words
    take(page)
    assert page.texts("#choices li") == choices
    assert records(page) == script.split()


def test_two_rows_that_may_be_the_total(page: Page) -> None:
    # Catches: a member that is left out as the total, since it is above it.
    paste(page, inputs.TOTALS)
    assert page.all("#total-2") and page.all("#total-4")
    page.click("#total-2-no")
    assert not page.at("#table-take").is_enabled()
    page.click("#total-4-no")
    page.click("#merged-no")
    assert page.text("#table-words").startswith("3 members, 160 votes; ")
    page.click("#total-4-yes")
    take(page)
    assert records(page)[:3] == ["AAA,80", "BBB,0", "script"]
    total = "Row 4 (TOT, 80 votes), which equals the sum of the others, was left out as a total"
    assert page.texts("#choices li") == [total]


def test_an_answer_stays_with_its_row(page: Page) -> None:
    # Catches: an answer about one row that is taken for another, which equals the sum once the first is left out.
    paste(page, inputs.HEAD + "AAA,40,1\nBBB,25,2\nCCC,15,2\nTOTL,80,1\n")
    page.click("#total-5-no")
    page.click("#leave-5")
    assert not page.all("#total-5") and not page.at("#table-take").is_enabled()
    page.click("#total-2-no")
    take(page)
    member = "Row 2 (AAA, 40 votes), which equals the sum of the others, is a member"
    assert page.texts("#choices li") == ["Row 5 was left out", member]


def test_questions_by_keyboard(page: Page) -> None:
    # Catches: a question that needs a mouse, or that loses the focus once it is answered.
    paste(page, inputs.MERGED)
    page.run('document.getElementById("merged-yes").focus();')
    page.press(Keys.ARROW_DOWN)
    assert page.run("return document.activeElement.id;") == "merged-no" and page.at("#merged-no").is_selected()
    page.press(Keys.ARROW_UP)
    assert page.run("return document.activeElement.id;") == "merged-yes" and page.at("#table-take").is_enabled()


def test_a_quote_that_is_not_closed(page: Page) -> None:
    # Catches: members that become part of a name, from a quote on.
    paste(page, 'code,name,votes,chair,chair_name\nAAA,"A\nB",40,1,"Hills\nBBB,B,25,2,Plains\n', "#refusal")
    assert "row 2: a quoted cell isn't closed" in page.text("#refusal")


@pytest.mark.parametrize(
    ("encoding", "said"), [("cp1252", "cp1252"), ("utf-16", "utf-16"), ("utf-16-le", "utf-16"), ("utf-16-be", "utf-16")]
)
def test_other_encodings(page: Page, encoding: str, said: str, tmp_path: Path) -> None:
    # Catches: letters that are guessed in silence, and UTF-16 without a mark, which shows garbage.
    text = "code,name,votes,chair\nAAA,Alland,40,1\nBBB,Bélland,25,2\n"
    open_file(page, tmp_path / "council.csv", text.encode(encoding))
    words = f"The table was read as {said}: look at letters with accents, such as those of 'Bélland'"
    assert page.texts("#table-notices li") == [words]
    take(page, "council")
    assert records(page)[:2] == ["AAA,40", "BBB,25"]


@pytest.mark.parametrize("name", inputs.OTHER_FILES)
def test_other_files(page: Page, name: str, tmp_path: Path) -> None:
    # Catches: a dialog of garbage for a file that is no table.
    content, words = inputs.OTHER_FILES[name]
    open_file(page, tmp_path / name, content, "#refusal")
    assert words in page.text("#refusal") and not page.all("#table-dialog")
    page.click("#refusal-ok")
    assert page.text("#study-name").startswith("Example")


@pytest.mark.parametrize(
    ("part", "words"),
    [("word/document.xml", ".docx"), ("content.xml", ".ods"), ("xl/workbook.bin", ".xlsb"), ("a.txt", "zip file")],
)
def test_other_zip_files(page: Page, part: str, words: str, tmp_path: Path) -> None:
    # Catches: a zip file that is taken for a workbook since it begins like one.
    open_file(page, tmp_path / "it.zip", inputs.zip_of({part: "<x/>"}), "#refusal")
    assert words in page.text("#refusal")


def test_a_damaged_workbook(page: Page, tmp_path: Path) -> None:
    # Catches: an error in the program's own words for a file that is cut off.
    open_file(page, tmp_path / "cut.xlsx", inputs.WORKBOOK[:900], "#refusal")
    assert "damaged" in page.text("#refusal")


def test_a_workbook(page: Page, tmp_path: Path) -> None:
    # Catches: a sheet that is chosen by chance, merged cells, shared and inline texts, per cent, dates or true and
    # false that are lost, or a workbook that is refused.
    open_file(page, tmp_path / "council.xlsx", inputs.WORKBOOK)
    assert page.texts("#which-sheet label") == ["About: 2 rows, 2 columns", "Votes: 6 rows, 6 columns"]
    assert not page.all("#table-take") and not page.all("#preview")
    page.click("#which-sheet-1")
    shown = page.run(CELLS)
    assert shown[1][:6] == ["Smith", "United States", "831401", "84.26%", "2024-01-01", "false"]
    assert [row[0] for row in shown[2:5]] == ["Hilbers"] * 3
    notices = page.texts("#table-notices li")
    assert "Merged cells were filled down into 2 cells" in notices, notices
    take(page, "council")
    assert records(page) == inputs.WORKBOOK_SCRIPT


def test_a_workbook_of_one_sheet(page: Page, tmp_path: Path) -> None:
    # Catches: a question about the one sheet that there is.
    rows: list[list[inputs.Cell]] = [["code", "votes", "chair"], ["AAA", 5, 1], ["BBB", 6, 2]]
    open_file(page, tmp_path / "one.xlsx", inputs.xlsx_of({"One": rows}))
    assert not page.all("#which-sheet") and not page.all("#delimiter")
    take(page, "one")
    assert records(page)[:2] == ["AAA,5", "BBB,6"]


def test_a_workbook_with_a_sheet_that_is_too_long(page: Page, tmp_path: Path) -> None:
    # Catches: a workbook that can't be read since it has other sheets, or a sheet that is passed over in silence.
    long: list[list[inputs.Cell]] = [[at, at] for at in range(1, 2102)]
    rows: list[list[inputs.Cell]] = [["code", "votes", "chair"], ["AAA", 5, 1], ["BBB", 6, 2]]
    open_file(page, tmp_path / "two.xlsx", inputs.xlsx_of({"Data": long, "Board": rows}))
    words = "The sheet 'Data' wasn't read. This table has 2,101 rows, and a board has at most 256 members."
    assert page.texts("#table-notices li") == [words]
    take(page, "two")
    assert records(page)[:2] == ["AAA,5", "BBB,6"]


@pytest.mark.parametrize("text", ["", "Director\tMember\tVotes\nSmith\tUnited States\t1\n"])
def test_paste_html(page: Page, text: str) -> None:
    # Catches: a paste of HTML alone that does nothing, merged cells that are lost, and a footnote's raised number that
    # becomes part of a number.
    page.run(PASTE, inputs.HTML, text)
    page.until(lambda: page.all("#table-dialog"), "the preview")
    assert "Merged cells were filled down into 2 cells" in page.text("#table-notices")
    assert "'831,401¹' in row 2" in page.text("#table-notices")
    take(page)
    assert records(page) == inputs.HTML_SCRIPT.split()


def test_paste_html_without_merged_cells(page: Page) -> None:
    # Catches: a text that isn't used though it has all that the HTML has.
    page.run(PASTE, "<table><tr><td>9</td></tr></table>", inputs.CELLS)
    page.until(lambda: page.all("#table-dialog"), "the preview")
    assert page.at("#delimiter").get_property("value") == "\t"


@pytest.mark.parametrize("is_in_dialog", [False, True])
def test_paste_of_a_text_program(page: Page, is_in_dialog: bool) -> None:
    # Catches: a table of Writer or Word, whose text has a line for each cell, that is refused though its HTML has rows.
    rows = [["Code", "Votes", "Chair"], ["AAA", "40", "1"], ["BBB", "5663<sup>2</sup>", "2"], ["CCC", "8", "2"]]
    cells = ["".join(f"<td><p>{it}</p></td>" for it in row) for row in rows]
    html = f"<table>{''.join(f'<tr>{it}</tr>' for it in cells)}</table>"
    if is_in_dialog:
        page.click("#paste")
        page.at("#paste-text").click()
    page.run(PASTE, html, "\n".join(it for row in rows for it in row))
    page.until(lambda: page.all("#table-dialog"), "the preview")
    compared = [row.split("\n")[0] for row in page.texts("#table-compared tbody tr")]
    assert len(compared) >= 5 and "All votes 5,711" in compared
    take(page)
    assert records(page)[:3] == ["AAA,40", "BBB,5663", "CCC,8"]


def check_struck(page: Page, name: str) -> None:
    """Answers what is asked about the table with struck text, and takes it."""
    assert "Struck out: row 4. Do they count?" in page.text("#struck") and not page.at("#table-take").is_enabled()
    words = "'Old, 50' in row 2, '30' in row 3, '14' in row 5 and 2 more"
    assert f"Struck out in part: rows 2 to 3, 5 to 7 ({words})" in page.text("#struck-part")
    page.click("#struck-no")
    page.click("#struck-part-yes")
    page.click("#leave-6")
    take(page, name)
    assert records(page) == inputs.STRUCK_SCRIPT.split()


@pytest.mark.parametrize("is_in_dialog", [False, True])
def test_paste_html_with_struck_text(page: Page, is_in_dialog: bool) -> None:
    # Catches: a text that is used though the HTML says what of it is struck out.
    if is_in_dialog:
        page.click("#paste")
        page.at("#paste-text").click()
    page.run(PASTE, inputs.STRUCK, "Code\tName\tVotes\tChair\nAAA\tAlland\t40\t1\n")
    page.until(lambda: page.all("#table-dialog"), "the preview")
    check_struck(page, "Pasted table")


def test_a_page_with_struck_text(page: Page, tmp_path: Path) -> None:
    # Catches: a part that is read though it is struck out, a row that counts without a question, and `<ins>` left out.
    open_file(page, tmp_path / "struck.html", f"<html>{inputs.STRUCK}".encode())
    check_struck(page, "struck")


@pytest.mark.parametrize("place", ["#table-dialog .close", "#merged-no"])
def test_paste_while_a_dialog_is_open(page: Page, place: str) -> None:
    # Catches: a paste of which nothing is said.
    paste(page, inputs.MERGED)
    page.click("#merged-no")
    page.run("document.querySelector(arguments[0]).focus();", place)
    page.run(PASTE, inputs.HTML, "")
    page.until(lambda: page.all("#refusal"), "the refusal")
    assert "'A table of members' is open. Close the dialog, and paste the table again." in page.text("#refusal")
    page.click("#refusal-ok")
    assert page.all("#table-dialog") and page.at("#table-take").is_enabled()


def test_save_it_cleaned(page: Page) -> None:
    # Catches: a cleaned table that isn't the one that is taken, or that is asked about again.
    paste(page, inputs.PRINTED)
    name, content = page.downloaded("#table-save")
    assert name == "Pasted table-members.csv"
    assert content.decode() == (
        "code,name,votes,chair,chair_name,suspended\n"
        "USA,United States,831401,1,Smith,false\nJPN,Japan,309205,2,Tanaka,false\nARM,Armenia,2743,3,Hilbers,false\n"
        "BEL,Belgium,65567,3,Hilbers,false\nXKX,Kosovo,1232,3,Hilbers,false\nNLD,Netherlands,154209,3,Hilbers,false\n"
    )
    take(page)
    first = records(page)
    paste(page, content.decode())
    assert not page.all("#table-dialog fieldset") and not page.texts("#table-notices li")
    # Two pasted tables have two names.
    take(page, "Pasted table 2")
    assert records(page) == first and not page.texts("#choices li")


def test_which_column_has_the_votes(page: Page) -> None:
    # Catches: the first of two columns of votes, taken without a word.
    paste(page, "Code,Votes 2010,Votes 2024,Chair\nAAA,40,44,1\nBBB,25,20,2\nCCC,16,17,2\n")
    assert "Which column has the votes?" in page.text("#which-votes") and not page.at("#table-take").is_enabled()
    page.click("#which-votes-2")
    assert page.at("#column-votes").get_property("value") == "2" and page.at("#which-votes-2").is_selected()
    take(page)
    assert records(page)[:3] == ["AAA,44", "BBB,20", "CCC,17"]


def test_the_last_good_study_stays(page: Page, oracle: Oracle) -> None:
    # Catches: figures of the study before under a new table's name, or a study that is lost by a look at a bad table.
    paste(page, inputs.FAULTY)
    assert "waiting" in str(page.at("#main").get_attribute("class"))
    page.press(Keys.ESCAPE)
    assert "waiting" not in str(page.at("#main").get_attribute("class"))
    assert page.text("#study-name").startswith("Example")
    check_figures(page, oracle, [])


def test_width_of_a_phone(page: Page) -> None:
    # Catches: a preview that is wider than a phone.
    page.show(NARROW, 844)
    page.run(DROP, "printed.csv", inputs.PRINTED)
    page.until(lambda: page.all("#table-dialog"), "the preview")
    assert not page.look("wide", NARROW)


def test_the_preview_is_bounded(page: Page, tmp_path: Path) -> None:
    # Catches: a preview of all rows, columns or letters that a table may have.
    row = ",".join(["1", "A" * 1000, *["x"] * 98])
    text = "\n".join(["Votes,Name" + ",C" * 98, *[row] * 399])
    open_file(page, tmp_path / "wide.csv", text.encode())
    assert len(page.all("#preview tbody tr")) == 100 and page.text(".preview p") == "and 300 rows more"
    assert page.text("#preview tbody tr:nth-child(2) td:nth-of-type(2)") == "A" * 200 + "…"


@pytest.mark.parametrize("words", inputs.BEYOND)
def test_limits(page: Page, words: str) -> None:
    # Catches: a table beyond what the program takes, of which a part is counted.
    paste(page, inputs.BEYOND[words])
    assert words in page.text("#table-faults") and not page.at("#table-take").is_enabled()


def test_as_much_as_there_may_be(page: Page, oracle: Oracle) -> None:
    # Catches: a sum or a product of votes that a floating number rounds, or a card for a 33rd chair.
    page.run(DROP, "most.csv", inputs.MOST)
    page.until(lambda: page.all("#table-dialog"), "the preview")
    take(page, "most")
    check_figures(page, with_rows(oracle, [(code, "", votes, chair) for code, votes, chair in inputs.MOST_ROWS]), [])
    assert page.text("#summary").startswith("256 members · 32 chairs · ")
    assert page.run("return document.getElementById('open-new').hidden;")


def test_odd_names(page: Page, oracle: Oracle, tmp_path: Path) -> None:
    # Catches: a name that is taken for code of the page, or that breaks a CSV, a picture or an exported page.
    page.run(DROP, "odd.csv", inputs.ODD)
    page.until(lambda: page.all("#table-dialog"), "the preview")
    take(page, "odd")
    rows: list[Row] = [("AAA", 'A, "B" </script><b>&amp;', 40, 1), ("BBB", "Łódź", 26, 2), ("CCC", "日本", 15, 3)]
    small = with_rows(oracle, rows, {1: '=1+1, "C" --> <i>', 2: "Ünter & Söhne; 'x'", 3: "%20"})
    assert page.act("votes", "AAA", "30") and not page.all("#main b, #main i:not(.key)")
    check_figures(page, small, ["votes,AAA,30"])
    wanted = small.study({"changed": ["votes,AAA,30"]}, shown_majorities(page))
    # A cell that a spreadsheet would take for a formula begins with an apostrophe.
    assert table_of(page.act("exported", "export-csv")) == table_of(wanted.replace('"=1+1', "\"'=1+1"))
    assert "Łódź" not in wanted and "Ünter & Söhne" in wanted
    picture = ElementTree.fromstring(page.act("exported", "export-svg"))
    assert any('1 =1+1, "C"' in (it.text or "") for it in picture.iter())
    (tmp_path / "odd.html").write_text(page.act("exported", "export-page"))
    shown = page.texts("#changes .change-words")
    page.open(tmp_path / "odd.html")
    assert page.texts("#changes .change-words") == shown == ['AAA A, "B" </script><b>&amp;: 40 → 30']
    check_figures(page, small, ["votes,AAA,30"])
