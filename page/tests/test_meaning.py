"""What the page says that its numbers mean: vetoes, chairs without power, names of chairs, and tabs that begin with an
answer; and how many controls there are."""
from __future__ import annotations

import base64
import re
import subprocess
from dataclasses import replace
from pathlib import Path
from typing import NamedTuple

import pytest
from chromium import EVERY, NARROW, Page
from coalition_count import Board
from oracle import MAJORITIES, Oracle
from selenium.webdriver.common.keys import Keys
from test_coalition import BOARD, SMALL, WORDS, show_all
from test_exports import DROP
from test_said import opened

BROWSERS = EVERY
# The tests drive Chromium's phone and its print.
NOT_IN_FIREFOX = {"test_a_phone", "test_first_page_of_paper", "test_answers_on_paper"}
NOT_IN_FIREFOX |= {"test_controls_on_the_first_screen"}
# For each row of the list its chair, and its tags with their majorities.
TAGS = """
  const at = (it) => it.getAttribute("class").match(/at-(\\w+)/)[1];
  const tags = (row) => [...row.querySelectorAll(".tag")].map((it) =>
    [it.dataset.words, [...it.querySelectorAll(".mark")].map(at)]);
  return [...document.querySelectorAll("#cards > li")].map((it) => [it.dataset.place.split(" ").pop(), tags(it)]);
"""
# The controls of the window that can be seen, without the link that only the keyboard shows.
CONTROLS = """
  const isSeen = (it) => {
    const { width, height, top, bottom, right } = it.getBoundingClientRect();
    return width > 1 && height > 1 && right > 0 && bottom > 0 && top < innerHeight && it.checkVisibility();
  };
  return [...document.querySelectorAll("button, select, input, textarea, summary, a[href]")].filter(isSeen).length;
"""
DIRECTORS = """code,name,votes,chair,chair_name
AAA,Aland,60,1,Ana Ekholm
BBB,Bland,50,2,Mika Kovac
CCC,Cland,7,2,Mika Kovac
DDD,Dland,30,3,
"""


class Turn(NamedTuple):
    """The kind of a chair's power before and after, and the margin of its veto."""

    before: str
    after: str
    margin: int | None


def kind(board: Board, majority: str, chair: int) -> str:
    """What a chair's power is in kind, by all coalitions."""
    winning = [set(it) for it in board.coalitions() if board.wins(majority, it)]
    if not winning or chair not in board.votes:
        return ""
    if all(chair in it for it in winning):
        return "alone" if board.wins(majority, {chair}) else "veto"
    swings = any(chair in it and not board.wins(majority, it - {chair}) for it in winning)
    return "" if swings else "no power"


def margin(board: Board, majority: str, chair: int) -> int | None:
    """How many votes a chair could lose and keep its veto, or with a minus, how many it lacks; all others keep theirs.
    None if votes don't matter."""

    def has_veto(votes: int) -> bool:
        other = replace(board, votes={**board.votes, chair: votes}, total=board.total - board.votes[chair] + votes)
        return kind(other, majority, chair) in ("veto", "alone")

    own = board.votes[chair]
    least = next((it for it in range(10 * board.total) if has_veto(it)), None)
    return None if least is None else own - least


def tag(before: str, after: str, is_changed: bool) -> str:
    """The tag at a row."""
    had, has = (it in ("veto", "alone") for it in (before, after))
    if is_changed and had != has:
        return "+ veto" if has else "− veto"
    return after


def check_tags(page: Page, base: Board, board: Board) -> int:
    """The tags of all rows are those of a count over all coalitions. Returns how many there are."""
    is_changed = base != board
    wanted: dict[str, list[list[object]]] = {}
    for chair in {*base.votes, *board.votes}:
        found: dict[str, list[str]] = {}
        if chair in board.votes:
            for it in MAJORITIES:
                words = tag(kind(base, it, chair), kind(board, it, chair), is_changed and chair in base.votes)
                found.setdefault(words, []).append(it)
        wanted[str(chair)] = [[words, ats] for words, ats in found.items() if words]
    shown = {chair: tags for chair, tags in page.run(TAGS) if chair.isdigit()}
    assert {chair: sorted(tags) for chair, tags in shown.items()} == {it: sorted(wanted[it]) for it in wanted}
    return sum(map(len, wanted.values()))


def check_sentences(page: Page, base: Board, board: Board) -> None:
    """Each sentence leads with vetoes: who has, gains, keeps or loses one, and by how many votes."""
    is_changed = base != board
    for majority, said in zip(MAJORITIES, page.texts("#sentences p")):
        turns = {it: Turn(kind(base, majority, it), kind(board, majority, it), None) for it in board.votes}
        lead, *_ = re.split(r"\. |\.$", said)
        assert lead.startswith(WORDS[majority])
        nobody = True
        for chair, (before, after, _) in turns.items():
            had, has = (it in ("veto", "alone") for it in (before, after))
            name = f"{chair} {board.names[chair]}"
            if not has and not (is_changed and had and chair in base.votes):
                assert after != "no power" or name in said or " more have no power" in said or is_changed
                continue
            nobody = False
            verb = "has" if not is_changed else "loses" if not has else "keeps" if had else "gains"
            if after == "alone" and (not is_changed or before != "alone"):
                assert f"{name} decides alone" in lead
                continue
            assert verb in lead or {"has": "have", "keeps": "keep", "gains": "gain", "loses": "lose"}[verb] in lead
            spare = margin(board, majority, chair)
            assert not spare or spare < 0 or f"{spare:,} vote" in lead or "more" in lead, (lead, spare)
        if nobody and not is_changed and any(board.wins(majority, it) for it in board.coalitions()):
            carry = len(board.smallest_of_any(majority, False, None)[0])
            block = len(board.smallest_of_any(majority, True, None)[0])
            assert f"no chair has a veto: at least {carry} chairs are needed" in lead and f" {block} to " in lead


def changed(board: Board, votes: dict[int, int | None]) -> Board:
    """The board with other votes of chairs, or without them."""
    own = {chair: votes.get(chair, many) for chair, many in board.votes.items()}
    kept = {chair: many for chair, many in own.items() if many is not None}
    return replace(board, votes=kept, total=sum(kept.values()))


def test_vetoes_at_all_majorities(page: Page) -> None:
    # Catches: a veto that isn't at its row or in its sentence, after a change too, and one that is none; a chair
    # without power, or that decides alone, of which nothing is said.
    opened(page, SMALL)
    show_all(page)
    page.click("#tab-power")
    found = check_tags(page, BOARD, BOARD)
    check_sentences(page, BOARD, BOARD)
    now: dict[int, int | None] = {}
    for code, chair, votes in [("AAA", 1, 50), ("BBB", 2, 5), ("AAA", 1, 200), ("AAA", 1, 1)]:
        assert page.act("votes", code, str(votes))
        now[chair] = votes
        board = changed(BOARD, now)
        found += check_tags(page, BOARD, board)
        check_sentences(page, BOARD, board)
    # A chair is closed, and its member is in no chair.
    page.run("document.getElementById('clear-changes').click();")
    assert page.act("move", "DDD", "1")
    board = replace(changed(BOARD, {1: 45, 5: 0}), total=100)
    found += check_tags(page, BOARD, board)
    page.click("#close-emptied")
    board = replace(changed(BOARD, {1: 45, 5: None}), total=100)
    found += check_tags(page, BOARD, board)
    assert found > 40
    check_sentences(page, BOARD, board)
    for tab in ["#tab-change", "#tab-table"]:
        page.click(tab)
        assert [it for it in page.all(":is(#cards, #chair-table) .tag") if it.is_displayed()]


def test_margin_of_the_example(page: Page, oracle: Oracle) -> None:
    # Catches: a margin with the quota held where it is, and one that is a vote off.
    [said] = [it for it in page.texts("#sentences p") if it.startswith("At 85 per cent")]
    [text] = re.findall(r"chair 1 Harbours has a veto, with ([\d,]+) votes more than it needs", said)
    own = next(it.votes for it in oracle.table.members if it.code == "XAA")
    spare = int(text.replace(",", ""))
    for votes, has_veto in [(own - spare, True), (own - spare - 1, False)]:
        reading = oracle.output([f"votes,XAA,{votes}"], ["85"]).readings[0]
        assert (reading.chairs[0].swings == reading.winning) == has_veto


def test_equal_power_of_unequal_votes(page: Page) -> None:
    # Catches: 50 votes that are worth no more than 3, without a word.
    opened(page, "code,name,votes,chair\nAAA,Alpha,50,1\nBBB,Beta,49,2\nCCC,Gamma,3,3\n")
    page.click("#tab-power")
    said = page.texts("#sentences p")[0]
    assert said.endswith("Chair 1 Alpha with 50 votes has no more power than chair 3 Gamma with 3.")


def test_names_of_chairs(page: Page) -> None:
    # Catches: a Director's name where the largest member's is asked for, in the list, a sentence, a table, a picture
    # or a file; and a choice that isn't in the study.
    opened(page, DIRECTORS)
    names = {
        "given": ["Ana Ekholm", "Mika Kovac", "Dland"],
        "member": ["Aland", "Bland and 1 more", "Dland"],
        "both": ["Aland (Ana Ekholm)", "Bland (Mika Kovac)", "Dland"],
    }
    for naming in ["member", "both", "given", "both"]:
        page.choose("#naming", naming)
        wanted = [f"{at} {name}" for at, name in enumerate(names[naming], 1)]
        assert sorted(page.texts("#cards .card-title")[:3]) == wanted
        assert any(wanted[0] in it for it in page.texts("#sentences p"))
        for file in ["export-svg", "export-csv", "export-tex"]:
            text = page.act("exported", file)
            assert all(name in text for name in names[naming]), (file, naming)
    page.click("#tab-coalition")
    assert page.text('#ticks label[data-chair="2"] .card-title') == "2 Bland (Mika Kovac)"
    saved = str(page.act("exported", "export-beside"))
    page.open()
    page.run(DROP, "again.study.json", saved)
    page.until(lambda: "1 Aland (Ana Ekholm)" in page.texts("#ticks .card-title"), "the study")


def test_a_curve_at_once(page: Page) -> None:
    # Catches: a tab that opens empty, a threshold that isn't on the picture, a curve under other fields than its own.
    points = 'return document.querySelectorAll("#sweep-table tbody tr").length;'
    page.click("#tab-curve")
    page.until(lambda: page.all("#panel .chart svg") and page.run(points) > 20, "the curve")
    labels = page.run('return [...document.querySelectorAll("#panel .chart text")].map((it) => it.textContent);')
    [veto] = [it for it in labels if it.startswith("veto from ")]
    assert veto.removeprefix("veto from ") in page.text("#thresholds") and "now" in labels
    first = page.run(points)
    page.run('const to = document.getElementById("sweep-to"); to.value = "20"; to.dispatchEvent(new Event("input"));')
    assert not page.all("#sweep-table") and not page.all("#panel .chart")
    # Nor does it come back with anything else that is painted.
    page.click("#at-70")
    assert not page.all("#sweep-table") and not page.all("#panel .chart")
    page.run('document.getElementById("sweep-to").dispatchEvent(new Event("change"));')
    page.until(lambda: page.all("#sweep-table") and page.run(points) == 20 != first, "the curve up to 20")
    # Before one is asked for, it is that of the chair whose row is open.
    page.click("#undo")
    page.click("#tab-power")
    page.click("#card-5")
    page.click("#tab-curve")
    page.until(lambda: "chair 5 Forests" in page.text("#panel"), "the curve of chair 5")
    assert page.at("#sweep-who").get_property("value") == "5"


def test_a_tab_of_no_changes(page: Page) -> None:
    # Catches: rows of 0.00 before anything is changed, and words that don't say what to do.
    page.click("#tab-change")
    assert "Nothing is changed yet. On the tab Power, open a chair's row" in page.text("#panel")
    assert not page.at("#chairs").is_displayed()
    assert page.act("votes", "XAA", "300000")
    assert page.at("#chairs").is_displayed()
    [said] = [it for it in page.texts("#sentences p") if it.startswith("At 85 per cent")]
    assert said.startswith("At 85 per cent, chair 1 Harbours loses its veto, with ")


@pytest.mark.parametrize("menu", ["display", "add"])
def test_menus_close(page: Page, menu: str) -> None:
    # Catches: a menu that stays over the numbers until its button is pressed again.
    is_open = f'return document.getElementById("{menu}").open;'
    for is_key in [True, False]:
        page.run("document.querySelector(arguments[0]).focus();", f"#{menu} > summary")
        page.press(Keys.ENTER)
        page.until(lambda: page.run(is_open), "the menu")
        if is_key:
            page.press(Keys.ESCAPE)
        else:
            page.click("#study-name")
        page.until(lambda: not page.run(is_open), "its end")


def test_controls_on_the_first_screen(page: Page) -> None:
    # Catches: controls that come back one by one. The example has 24 chairs, each of which is one.
    page.show(1440, 900)
    assert page.run(CONTROLS) <= 55
    page.click("#welcome-close")
    assert page.run(CONTROLS) <= 53
    # A change has its own; what needs two changes comes with the second.
    assert page.act("move", "XAD", "5")
    for row in page.all('button.card-head[aria-expanded="true"]'):
        row.click()
    one = page.run(CONTROLS)
    assert one <= 57 and not page.at("#clear-changes").is_displayed()
    assert page.act("move", "XAA", "5")
    assert page.at("#clear-changes").is_displayed()


def test_a_phone(page: Page) -> None:
    # Catches: a phone whose first window has controls and no chair, or more than one sentence above the list.
    page.show(NARROW, 844)
    page.click("#welcome-close")
    assert page.run('return document.querySelector("#cards > li").getBoundingClientRect().top + scrollY;') <= 300
    top = 'return document.getElementById("cards").getBoundingClientRect().top;'
    above = [it.text for it in page.all(".said") if it.rect["y"] < page.run(top)]
    assert len(above) == 1 and "has a veto" in above[0]
    assert not page.look("wide", NARROW)


def first_page(page: Page, folder: Path) -> list[tuple[str, str]]:
    """The words of the first page on paper, each after the place of its end from the top."""
    size = {"paperWidth": 210 / 25.4, "paperHeight": 297 / 25.4}
    file = folder / "page.pdf"
    file.write_bytes(base64.b64decode(page.driver.execute_cdp_cmd("Page.printToPDF", size)["data"]))
    done = subprocess.run(["pdftotext", "-bbox", "-l", "1", str(file), "-"], capture_output=True, check=True)
    return re.findall(r'yMax="([\d.]+)">([^<]*)<', done.stdout.decode())


def test_answers_on_paper(page: Page, tmp_path: Path) -> None:
    # Catches: answers that are buttons on the screen, so that paper hasn't them.
    page.click("#tab-coalition")
    text = " ".join(word for _, word in first_page(page, tmp_path))
    assert "Blocks alone no chair 1 Harbours Fewest others that block 9 chairs: 1 Harbours" in text


def test_first_page_of_paper(page: Page, tmp_path: Path) -> None:
    # Catches: a first page that is half empty, or that says neither which program counted nor when it was printed.
    words = first_page(page, tmp_path)
    text = " ".join(word for _, word in words)
    assert re.search(r"Counted by board \d+\.\d+\.\d+, printed \d{4}-\d\d-\d\d\.", text)
    rows = [float(at) for at, word in words if word in ("Harbours", "Islands", "Reefs")]
    # A point is a 72nd of an inch; a page has 842.
    assert max(rows) > 600 and min(rows) < 300
