"""A second table, opened as a scenario of the study that is open: its changes, its numbers, and the saved study, which
the package for Python reads and writes, too. Which changes it becomes has its cases in tests/packages."""
from __future__ import annotations

from pathlib import Path

from chromium import EVERY, Page
from figures import check_figures
from oracle import Oracle
from test_exports import DROP
from test_tables import Row, open_file, take, with_rows
from voting_board.saved_studies import read_saved
from voting_board.second_tables import SecondTable, second_table
from voting_board.strict import read_table
from voting_board.studies import Base, base_of, study
from voting_board.study_files import page_data

BROWSERS = EVERY
HEAD = "code,name,votes,chair,chair_name\n"
FIRST = f"{HEAD}AAA,Alland,40,1,West\nBBB,Belland,25,2,\nCCC,Celland,15,2,\nDDD,Delland,12,3,Old\nEEE,Elland,8,,\n"
SECOND = f"{HEAD}BBB,Bellland,31,1,East\nCCC,Celland,15,1,East\nAAA,Alland,40,3,West\nFFF,Felland,20,2,New\n"
ROWS: list[Row] = [("AAA", "Alland", 40, 1), ("BBB", "Belland", 25, 2), ("CCC", "Celland", 15, 2)]
ROWS += [("DDD", "Delland", 12, 3), ("EEE", "Elland", 8, None)]


def tables() -> tuple[Base, SecondTable]:
    """The base, and the second table as the package for Python takes it."""
    base = base_of(read_table(FIRST.encode()))
    return base, second_table(base, read_table(SECOND.encode()), "2030")


def changes(page: Page) -> list[str]:
    return page.texts("#changes .change-words")


def test_a_second_table(page: Page, oracle: Oracle, tmp_path: Path) -> None:
    # Catches: a second table that replaces the study; other changes, names or sentences than the package for Python
    # makes of it; a study in whose file one of both doesn't find them again.
    open_file(page, tmp_path / "2024.csv", FIRST.encode())
    assert not page.all("#table-compare")
    take(page, "2024")
    open_file(page, tmp_path / "2030.csv", SECOND.encode())
    assert page.text("#table-compare") == "Compare with 2024"
    page.click("#table-compare")
    page.until(lambda: page.all("#compared"), "what was changed")
    base, second = tables()
    assert page.texts("#compared p")[:-1] == list(second.said)
    assert page.text("#compared h2") == "2030, compared with 2024"
    page.click("#compared-ok")
    page.settle()
    check_figures(page, with_rows(oracle, ROWS, {1: "West", 3: "Old"}), list(second.scenario.commands))
    assert page.text("#study-name") == "2024" and len(changes(page)) == len(second.scenario.commands) > 5
    assert page.all('#scenarios tr[data-scenario="2030"]')
    assert any("2030 is another table as changes" in it for it in page.texts("#choices li"))
    saved = page.act("exported", "export-beside")
    assert read_saved(str(saved).encode()).scenarios == (second.scenario,)
    shown, cards = changes(page), sorted(page.texts("#cards .card-title"))
    assert any("FFF Felland is admitted" in it for it in shown) and any("New" in it for it in cards)
    page.click("#undo")
    assert not changes(page) and not page.all("#scenarios tr[data-scenario]")
    again = study(base, scenarios=[second.scenario])
    page.run(DROP, "again.study.json", page_data(again, "Again", []))
    page.until(lambda: page.text("#study-name") == "Again", "the study of the package for Python")
    page.click('[aria-label="Show 2030"]')
    assert changes(page) == shown and sorted(page.texts("#cards .card-title")) == cards
