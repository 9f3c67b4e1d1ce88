"""Thresholds of members and chairs without a range, compared with the program on both sides of each."""
from __future__ import annotations

import hashlib
from collections.abc import Callable
from fractions import Fraction

import pytest
from chromium import EVERY, NARROW, Page
from figures import measure_of, open_menu
from member_tables import MOST_VOTES
from oracle import MAJORITIES, UNSHOWN, Oracle, least, text_of
from replay_output import Ratio
from rounding import exact, rounded
from selenium.webdriver.common.keys import Keys
from test_access import tab_to
from test_said import opened
from test_studies import is_one

BROWSERS = EVERY
# A script gives Firefox no clipboard, and can't have it show a phone; the program is asked for all of it once.
NOT_IN_FIREFOX = ("test_copied", "test_on_a_phone", "test_both_sides_of_each")
OTHER = 3
CHANGES = ["votes,XAA,100000", "suspend,XAB", "move,XAC,4"]
# For each row of the table: its majority, its statement, and the words and titles of its cells.
ROWS = """return [...document.querySelectorAll("#find-table tr[data-what]")].map((row) => [
  row.dataset.majority, row.dataset.what, [...row.querySelectorAll("td")].map((it) => [it.textContent, it.title])]);"""
Holds = Callable[[int], bool]


def found(page: Page) -> dict[tuple[str, str], list[tuple[str, str]]]:
    """The cells of each row: their words and titles."""
    page.until(lambda: page.all("#find-table"), "the thresholds")
    return {(majority, what): [(text, title) for text, title in cells] for majority, what, cells in page.run(ROWS)}


def commands(oracle: Oracle, changes: list[str], who: str, votes: int) -> list[str]:
    """Commands that give a member some votes; or a chair, all of them to its first member."""
    if not who.isdigit():
        return [*changes, f"votes,{who},{votes}"]
    codes = [it.code for it in oracle.table.members if it.chair == int(who)]
    return [*changes, f"votes,{codes[0]},{votes}", *(f"votes,{it},0" for it in codes[1:])]


def truth(oracle: Oracle, changes: list[str], who: str, chair: int, majority: str, what: str) -> Holds:
    """Whether a statement holds with some votes, by the program."""

    def holds(votes: int) -> bool:
        chairs = oracle.output(commands(oracle, changes, who, votes), [majority]).readings[0].chairs
        own, other = (next(it for it in chairs if it.chair == at) for at in (chair, OTHER))
        truths = {
            "prevents": is_one(own.prevent),
            "carries": is_one(own.initiate),
            "counts": own.swings > 0,
            "leads": own.swings > other.swings,
        }
        return truths[what]

    return holds


def check(cells: list[tuple[str, str]], holds: Holds, now: int, rest: int, digits: int = 2) -> None:
    """A row says the least votes from which a statement holds, or that it holds everywhere or nowhere."""
    if len(cells) == 1:
        is_everywhere = cells[0][0] == "with any number of votes, even with 0"
        assert is_everywhere or cells[0][0] == f"with no number of votes up to {MOST_VOTES:,}"
        assert [holds(0), holds(MOST_VOTES)] == [is_everywhere] * 2
        return
    (votes_text, _), (below, _), (share_text, share), (distance, _) = cells
    votes = int(votes_text.replace(",", ""))
    assert below == f"{votes - 1:,}" and [holds(votes - 1), holds(votes)] == [False, True]
    part = exact(Ratio(votes, votes + rest))
    assert share == f"{part.numerator}/{part.denominator}" or exact(Ratio(*map(int, share.split("/")))) == part
    assert share_text == f"{rounded(100 * part, digits)} %"
    sign = "+" if votes > now else ""
    assert distance == f"{sign}{votes - now:,}" + (", holds now" if votes <= now else "")


@pytest.mark.parametrize("is_changed", [False, True])
@pytest.mark.parametrize(("who", "chair"), [("XAD", 4), ("5", 5), ("XAE", 5)])
def test_both_sides_of_each(page: Page, oracle: Oracle, who: str, chair: int, is_changed: bool) -> None:
    # Catches: a threshold that is one vote off, or of another chair, majority or board.
    for majority in UNSHOWN:
        page.click(f"#at-{majority}")
    for act in CHANGES:
        assert page.act(*act.split(","))
    page.click("#tab-curve")
    page.click("#find-open")
    page.choose("#find-on", "changed" if is_changed else "base")
    page.choose("#find-who", who)
    page.choose("#find-other", str(OTHER))
    page.until(lambda: page.all('#find-table tr[data-what="leads"]'), "the other chair")
    changes = CHANGES if is_changed else []
    votes = {it.code: it.votes for it in oracle.table.members} | ({"XAA": 100_000, "XAB": 0} if is_changed else {})
    own = [it.code for it in oracle.table.members if who in (it.code, str(it.chair))]
    now = sum(votes[it] for it in own)
    rows = found(page)
    assert list(rows) == [(it, what) for it in MAJORITIES for what in ("prevents", "carries", "counts", "leads")]
    for (majority, what), cells in rows.items():
        holds = truth(oracle, changes, who, chair, majority, what)
        check(cells, holds, now, sum(votes.values()) - now)
    assert f"{now:,} votes now" in page.text("#find-about")
    assert rows[("quorum", "carries")][0][0].startswith("with no number of votes")


def test_by_another_bisection(page: Page, oracle: Oracle) -> None:
    # Catches: a threshold that is right on both sides, but isn't the least one.
    page.click("#card-5")
    page.click("#find-5")
    for (majority, what), cells in found(page).items():
        holds = truth(oracle, [], "5", 5, majority, what)
        assert cells[0][0] == f"{least(holds, 0, MOST_VOTES):,}"


@pytest.mark.parametrize(("measure", "least"), [("share", "5"), ("banzhaf", "0.25"), ("swings", "1,000,000")])
def test_votes_for_a_power(page: Page, oracle: Oracle, measure: str, least: str) -> None:
    # Catches: a power of another measure or chair, one that is a vote off, and one that isn't the first.
    page.choose("#measure", measure)
    page.click("#card-5")
    page.click("#find-5")
    page.until(lambda: page.all("#find-table"), "the thresholds")
    page.write("#find-power", least)
    page.until(lambda: page.all('#find-table tr[data-what="reaches"]'), "the power")
    asked = Fraction(least.replace(",", ""))
    for majority in ["half", "85"]:

        def has(votes: int) -> bool:
            chairs = oracle.output(commands(oracle, [], "5", votes), [majority]).readings[0].chairs
            own = next(it for it in chairs if it.chair == 5)
            value = measure_of(own, measure)
            return value is not None and (100 if measure == "share" else 1) * exact(value) >= asked

        [cells] = [cells for (at, what), cells in found(page).items() if (at, what) == (majority, "reaches")]
        votes = int(cells[0][0].replace(",", ""))
        assert cells[1][0] == f"{votes - 1:,}" and [has(votes - 1), has(votes)] == [False, True]
        # More votes keep it, by some numbers of them.
        assert all(has(it) for it in (votes + 1, 2 * votes, 5 * votes, MOST_VOTES))
    words = page.texts("#find-table tr[data-what='reaches'] th")
    wanted = {"share": "has a share of power of at least 5 %", "banzhaf": "has a Banzhaf measure of at least 0.25"}
    assert words == [wanted.get(measure, "has at least 1,000,000 swings")] * 2
    assert not page.all('#find-table tr[data-what="keeps"]')


def test_a_share_of_power_that_falls(page: Page) -> None:
    # Catches: a share of power of 27 per cent that is said to stay from 29 votes on. Of six chairs with 29, 7, 7, 10, 1
    # and 12 votes, the first has 6 of 22 swings at 85 per cent; with 30 votes it has 7 of 26, which is less.
    votes = [29, 7, 7, 10, 1, 12]
    rows = [f"AA{chr(65 + at)},{it},{at + 1}" for at, it in enumerate(votes)]
    opened(page, text_of(["code,votes,chair", *rows]))
    page.click("#card-1")
    page.click("#find-1")
    page.until(lambda: page.all("#find-table"), "the thresholds")
    page.write("#find-power", "27 %")
    page.until(lambda: page.all('#find-table tr[data-what="keeps"]'), "the power")
    cells = found(page)
    first, last = (cells[("85", it)][0][0] for it in ("reaches", "keeps"))
    assert int(first) <= 29 and int(last) > 30
    words = [it for it in page.texts("#find-table tr th") if "27 %" in it]
    assert words[-2:] == ["first has a share of power of at least 27 %", "always has a share of power of at least 27 %"]


def test_a_power_that_is_none(page: Page) -> None:
    # Catches: a power above all, or words, that is asked for, and an answer to the power before under another one.
    page.click("#card-5")
    page.click("#find-5")
    page.until(lambda: page.all("#find-table"), "the thresholds")
    page.write("#find-power", "5")
    page.until(lambda: page.all('#find-table tr[data-what="reaches"]'), "the power")
    page.write("#find-power", "101")
    assert page.text("#find-power-wrong") == "There is no share of power above 100 %."
    assert not page.all("#find-table")
    page.write("#find-power", "much")
    assert "isn't a percentage" in page.text("#find-power-wrong")


def test_copied(page: Page, oracle: Oracle) -> None:
    # Catches: thresholds that are passed on without their source, or with the hash of another script.
    assert page.act("votes", "XAD", "300000")
    page.click("#card-4")
    page.click("#find-4")
    rows = found(page)
    page.click("#find summary")
    script = str(page.until(lambda: page.at("#find-script").get_property("textContent"), "the script"))
    page.click("#find-copy")
    page.until(lambda: "on the clipboard" in page.text("#find-words"), "the copy")
    sentences = page.run('return [...document.querySelectorAll("#find-sentences li")].map((it) => it.textContent);')
    page.press(Keys.ESCAPE)
    page.click("#paste")
    page.at("#paste-text").send_keys(Keys.CONTROL, "v")
    text = str(page.at("#paste-text").get_property("value"))
    title, about, *lines = text.splitlines()
    assert title == "Thresholds of chair 4 Lakes on the changed board" and "with 300,000 votes now" in about
    assert len(sentences) == 6 and [it for it in lines if it in sentences] == sentences
    hashes = [hashlib.sha256(it).hexdigest() for it in (script.encode(), oracle.lines(script.encode()))]
    for name, hashed in zip(["script", "lines"], hashes):
        assert f"{name} of thresholds of chair 4 Lakes on the changed board sha256 {hashed}" in lines
    assert any(it.startswith("counted by board ") for it in lines)
    votes = rows[("85", "prevents")][0][0].replace(",", "")
    assert all(f"\nvotes,XAD,{it}\n" in script for it in (int(votes), int(votes) - 1))
    assert "\nvotes,XAD,300000\n" in script.split("publish")[0]


def test_by_keyboard(page: Page) -> None:
    # Catches: thresholds that need a mouse, or a focus that is lost with the dialog.
    tab_to(page, "#filter")
    page.press("XAD")
    tab_to(page, "#chip-XAD")
    page.press(Keys.ENTER)
    tab_to(page, "#find-member")
    page.press(Keys.ENTER)
    assert ("85", "prevents") in found(page)
    tab_to(page, "#find-other")
    page.press("chair 3")
    page.until(lambda: page.all('#find-table tr[data-what="leads"]'), "the other chair")
    page.press(Keys.ESCAPE)
    assert not page.all("#find") and page.run("return document.activeElement.id;") == "chip-XAD"


def test_on_a_phone(page: Page) -> None:
    # Catches: a table that is wider than a phone, in place of sentences, or a dialog that can't be reached there.
    page.show(NARROW, 844)
    open_menu(page, "XAD")
    page.click("#find-member")
    page.until(lambda: page.all("#find-sentences li"), "the thresholds")
    said = page.texts("#find-sentences li")
    assert len(said) == 6 and all(said) and not page.at("#find-table").is_displayed()
    assert not page.look("wide", NARROW)
    wanted = "At 85 per cent it has a veto from "
    [line] = [it for it in said if it.startswith(wanted)]
    assert "% of the total (not at " in line and line.endswith(" more than now.")


def test_no_answer(page: Page) -> None:
    # Catches: a dialog that says nothing of a member without a chair, or keeps the numbers of the one before.
    page.click("#tab-curve")
    page.click("#find-open")
    assert found(page)
    page.choose("#find-who", "XHH")
    page.until(lambda: page.text("#find-words") == "There is no answer: XHH sits in no chair.", "the reason")
    assert not page.all("#find-table")
    page.choose("#find-who", "1")
    assert found(page)
