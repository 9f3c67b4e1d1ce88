"""What the page says of numbers: names, ties, new chairs, sources and hashes."""
from __future__ import annotations

import csv
import hashlib
import re
from fractions import Fraction

from chromium import EVERY, Page
from figures import rows
from oracle import Oracle
from selenium.webdriver.common.keys import Keys
from test_exports import DROP
from test_studies import sweep
from test_tables import take

BROWSERS = EVERY
HEAD = "code,name,votes,chair,chair_name,suspended\n"
SEVEN = HEAD + "".join(f"AA{letter},{letter}land,100,{at},,\n" for at, letter in enumerate("ABCDEFG", 1))
# Two names from right to left: a country, and a Director.
ARABIC, DIRECTOR = "المملكة العربية", "عبد الله"
RIGHT_TO_LEFT = HEAD + f"SAU,{ARABIC},97333,1,{DIRECTOR},\nBBB,Belland,50000,2,,\nCCC,Celland,40000,3,,\n"
FORMULAS = HEAD + "AAA,=1+1,40,1,\"=cmd|' /C calc'!A0\",\nBBB,@SUM(1),26,2,+1-2,\nCCC,#hash,15,3,-Minus,\n"


def opened(page: Page, text: str, name: str = "council") -> None:
    """Opens a strict table, which asks nothing."""
    page.run(DROP, f"{name}.csv", text)
    page.until(lambda: page.all("#table-take"), "the preview")
    take(page, name)


def sha256(text: str) -> str:
    return hashlib.sha256(text.encode()).hexdigest()


def exported_table(page: Page) -> tuple[str, list[dict[str, str]]]:
    """The CSV that is exported: its first lines, and its rows."""
    text = page.act("exported", "export-csv")
    lines = text.splitlines(keepends=True)
    head = [it for it in lines if it.startswith("# ")]
    return "".join(head), list(csv.DictReader(lines[len(head) :]))


def added(page: Page, chair: str) -> list[str]:
    """What the changes add to a chair's share of power, at each majority, as the CSV has it."""
    rows = exported_table(page)[1]
    return [it["power_share_difference"] for it in rows if (it["chair"], it["scenario"]) == (chair, "changed")]


def test_names_from_right_to_left(page: Page) -> None:
    # Catches: a name that turns the numbers after it, so that a fall reads as a rise; in texts, charts and exports.
    opened(page, RIGHT_TO_LEFT)
    assert page.act("votes", "SAU", "87600")
    [words] = page.texts("#changes .change-words")
    assert f"\u2068{ARABIC}\u2069: 97,333 → 87,600" in words
    assert f"chair 1 \u2068{DIRECTOR}\u2069" in page.text("#sentences")
    assert f"1 \u2068{DIRECTOR}\u2069" in page.act("exported", "export-svg")
    _, table = exported_table(page)
    assert {it["name"] for it in table if it["chair"] == "1"} == {DIRECTOR}


def test_a_tie_has_no_winner(page: Page) -> None:
    # Catches: the first of several equal chairs that is called the greatest, or the one that gains most.
    opened(page, SEVEN)
    few = "At a simple majority, no chair has a veto: at least 4 chairs are needed to carry, and 4 to block."
    assert page.texts("#sentences p")[0] == few
    assert page.act("suspend", "AAA")
    gain, loss = "+2.38 percentage points each", "chair 1 Aland loses most, -14.29 percentage points."
    assert f"chairs 2 Bland, 3 Cland, 4 Dland and 3 more gain most, {gain}; {loss}" in page.text("#sentences")


def test_a_chair_that_is_opened_again_is_new(page: Page, oracle: Oracle) -> None:
    # Catches: a new chair with name and gains of the one that had its number before; a sentence on a gain it hasn't.
    seated = [it.code for it in oracle.table.members if it.chair == 18]
    for code in seated:
        assert page.act("move", code, "none")
    assert page.act("close", "18") and page.act("open") and page.act("move", seated[0], "18")
    found = page.run("return [...document.querySelectorAll('#chair-table tr[data-chair=\"18\"]')].length;")
    page.click("#tab-table")
    kinds = page.run(
        """return [...document.querySelectorAll('#chair-table tr[data-chair="18"]')].map(
      (row) => [row.dataset.kind, row.children[1].textContent]);"""
    )
    old = oracle.table.chair_names[18]
    name = next(it.name for it in oracle.table.members if it.code == seated[0])
    assert found == 0 and kinds == [["closed", f"{old} (closed)"], ["opened", f"{name} (new)"]]
    assert added(page, "18") == ["", ""]
    said = page.text("#sentences")
    assert f"Chair 18 {name} is new: " in said and f"Chair 18 {old} is closed; in the base it had " in said


def test_names_of_chairs_in_the_csv_are_those_on_the_screen(page: Page) -> None:
    # Catches: a chair named after a member that has left it; a new chair whose name is on the screen alone.
    opened(page, HEAD + "AAA,Alland,40,1,,\nBBB,Belland,25,1,,\nCCC,Celland,15,2,,\nDDD,Delland,12,2,,\n")
    assert page.act("move", "AAA", "new")
    page.click("#tab-table")
    shown = {chair: cells[0][0] for chair, cells in rows(page).items()}
    assert shown == {1: "Belland", 2: "Celland and 1 more", 3: "Alland (new)"}
    names = {(it["scenario"], it["chair"]): it["name"] for it in exported_table(page)[1]}
    assert names["base", "1"] == "Alland and 1 more" and names["changed", "1"] == "Belland"
    assert names["changed", "3"] == "Alland" and names["changed", "2"] == names["base", "2"] == "Celland and 1 more"


def test_a_curve_has_the_hash_of_its_script(page: Page) -> None:
    # Catches: a curve with the study's hash, or one of the board before that goes out with the board after it.
    assert page.act("votes", "XAA", "100000")
    sweep(page, "XAD", "changed", "10", "20", "5")
    first = page.act("exported", "export-svg")
    page.run('document.querySelector("#panel details").open = true;')
    page.until(lambda: page.text("#sweep-script"), "the script")
    script = str(page.at("#sweep-script").get_property("textContent"))
    assert f"sha256 {sha256(script)}" in first and "votes,XAA,100000" in script
    assert "XAD 10..20 by 5 % on the changed board" in first.split("-->")[1]
    assert sha256(page.act("exported", "export-script")) not in first
    head, table = exported_table(page)
    assert f"script of sweep XAD 10..20 by 5 % on the changed board sha256 {sha256(script)}" in head
    assert page.act("suspend", "XAC")
    page.until(lambda: "were counted" in page.text("#sweep-words"), "the sweep again")
    second = page.act("exported", "export-svg")
    assert second != first and sha256(script) not in second
    page.click("#undo")
    page.until(lambda: "were counted" in page.text("#sweep-words"), "the sweep as it was")
    assert page.act("exported", "export-svg") == first


def test_a_sweep_is_undone(page: Page) -> None:
    # Catches: a sweep that isn't part of the study, so that undo, and a page with the study in it, forget it.
    sweep(page, "XAD", "base", "10", "20", "5")
    asked = "return document.getElementById('sweep-by').value;"
    page.click("#undo")
    page.until(lambda: page.run(asked) != "5", "the sweep of the chair in focus")
    page.click("#redo")
    page.until(lambda: page.run(asked) == "5" and page.all("#sweep-table"), "the sweep")


def test_sources_and_definitions_stand_where_they_are_used(page: Page) -> None:
    # Catches: terms that are nowhere defined, and shares that don't add up without a word.
    board = page.text("#board-words")
    assert "A coalition is a set of open chairs." in board and "Power to act: the winning coalitions over all" in board
    title = "Share of power (normalised Banzhaf index)"
    assert page.run('return document.getElementById("measure").parentElement.title;') == title
    assert title in page.texts("#foot dt")
    page.click("#tab-table")
    assert "Each number is rounded alone." in page.text("#panel")
    assert page.act("votes", "XAB", "300000")
    for measure, words in {"prevent": "power to prevent action", "banzhaf": "Banzhaf measure"}.items():
        page.choose("#measure", measure)
        assert all(f" in {words}: " in it.replace("In ", " in ") for it in page.texts("#sentences p"))


def test_citation(page: Page) -> None:
    # Catches: today's date in place of the version's, and a name that breaks BibTeX.
    opened(page, SEVEN, "R&D_50% {draft}")
    page.click("#cite-open")
    page.until(lambda: page.all("#cite-bibtex"), "the citation")
    bibtex = page.text("#cite-bibtex")
    assert r"R\&D\_50\% \textbraceleft{}draft\textbraceright{}" in bibtex
    bare = re.sub(r"\\.", "", bibtex)
    assert bare.count("{") == bare.count("}") and not re.search("[&%#_]", bare)
    [date] = re.findall(r" of (\d{4}-\d{2}-\d{2})},", bibtex)
    assert f" of {date}. " in page.text("#cite-text")
    assert date in (page.file.parent.parent.parent / "CHANGELOG.md").read_text()


def test_no_cell_is_a_formula(page: Page) -> None:
    # Catches: a cell of an export that a spreadsheet runs, and one that a reader takes for a comment.
    opened(page, FORMULAS)
    _, table = exported_table(page)
    assert {it["name"] for it in table} == {"'=cmd|' /C calc'!A0", "'+1-2", "'-Minus"}
    assert all(re.fullmatch(r"-?[0-9.]*", it["power_share_difference"]) for it in table)
    page.click("#export")
    page.click("#export-copy")
    page.until(lambda: page.text("#export-words"), "word of the copy")
    page.press(Keys.ESCAPE)
    page.click("#paste")
    # What is pasted elsewhere in the dialog goes into its field.
    page.at("#paste-dialog .close").send_keys(Keys.CONTROL, "v")
    copied = str(page.at("#paste-text").get_property("value")).splitlines()[1:-1]
    assert [it.split("\t")[1] for it in copied] == ["'=cmd|' /C calc'!A0", "'+1-2", "'-Minus"]


def test_a_comment_mark_in_a_name(page: Page) -> None:
    # Catches: a CSV that is cut at a # by a reader that skips comments.
    assert page.act("votes", "XAD", "1")
    page.write("#scenario-name", "Option #2")
    text = page.act("exported", "export-csv")
    rows = [it for it in text.splitlines() if not it.startswith("# ")]
    assert any(it.startswith('"Option #2",') for it in rows) and not any(it.startswith("Option") for it in rows)


def test_checks_of_the_numbers(page: Page) -> None:
    # Catches: a check that isn't made, or that finds other numbers than those of the script.
    assert page.act("votes", "XAD", "+40%")
    page.click("#seal")
    page.until(lambda: len(page.all("#checks li")) == 2, "the checks")
    assert not page.all("#checks .wrong") and "gives the numbers shown" in page.text("#checks")


def test_fraction_of_a_gain(page: Page) -> None:
    # Catches: a difference that is rounded before it is taken.
    opened(page, SEVEN)
    assert page.act("suspend", "AAA")
    assert added(page, "2")[0] == f"{float(Fraction(1, 6) - Fraction(1, 7)):.10f}"
