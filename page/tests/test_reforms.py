"""What the page says of reforms beside their numbers: emptied chairs, moves that empty one, other numbers of chairs."""
from __future__ import annotations

import pytest
from chromium import Page
from test_best import SMALL
from test_said import opened
from test_studies import ask


def test_emptied_chairs(page: Page) -> None:
    # Catches: a chair that has lost its members and counts for the quorum without a word, or that a button leaves open.
    opened(page, SMALL)
    assert page.act("move", "AAA", "2")
    said = "Chair 1 has no member now, and still counts as open for the quorum."
    assert page.text("#emptied").startswith(said)
    assert page.act("move", "GGG", "2")
    assert page.text("#emptied").startswith("Chairs 1 and 4 have no member now, and still count as open")
    page.click("#close-emptied")
    records = [str(it.get_attribute("data-state")) for it in page.all("#changes > li")]
    assert records == ["accepted"] * 4 and not page.text("#emptied")
    assert not page.all('[data-place="1"]') and not page.all('[data-place="4"]')


def moved(page: Page) -> set[str | None]:
    """The members of the moves that are listed."""
    return {it.get_attribute("data-code") for it in page.all("#best-table tbody tr")}


def test_moves_that_empty_a_chair(page: Page) -> None:
    # Catches: moves of a chair's only member, which win always, and hide all others.
    opened(page, SMALL)
    page.click("#best-open")
    page.choose("#best-chair", "any")
    for few, codes in [(True, {"BBB", "CCC", "DDD", "FFF"}), (False, {"AAA", "BBB", "CCC", "DDD", "FFF", "GGG"})]:
        if not few:
            page.click("#best-empty")
        page.click("#best-run")
        page.until(lambda: moved(page) == codes, "the moves")


def test_swings_of_boards_of_other_sizes(page: Page) -> None:
    # Catches: swings after a merger that are compared with those of twice as many coalitions without a word.
    opened(page, SMALL)
    assert page.act("merge", "4", "2")
    assert not page.text("#columns-words")
    page.choose("#measure", "swings")
    assert page.text("#columns-words").startswith("The boards that are compared have different numbers of chairs")
    assert page.act("undo") and not page.text("#columns-words")


def test_a_kept_scenario_stands_once(page: Page) -> None:
    # Catches: a scenario that was just kept and stands twice, as itself and as the list of changes.
    opened(page, SMALL)
    assert page.act("votes", "BBB", "26")
    page.write("#scenario-name", "More")
    page.choose("#columns", "scenarios")
    page.click("#tab-table")
    heads = page.run("return document.querySelector('#chair-table thead').textContent;")
    assert "More" in heads and "changed" not in heads
    assert page.act("votes", "BBB", "27")
    heads = page.run("return document.querySelector('#chair-table thead').textContent;")
    assert "More" in heads and "changed" in heads


@pytest.mark.parametrize(
    ("fields", "unit", "words"),
    [
        (("10 %", "12,5", "0,5"), "percent", "6 points"),
        (("1,000", "2 000", "500"), "votes", "3 points"),
        (("10", "9", "1"), "percent", "the last value, 9, isn't greater than the first one, 10"),
        (("10", "12", "0.7"), "percent", "steps of 0.7 from 10 lead to 11.4 and 12.1, not to 12"),
        (("10", "12", "0"), "percent", "the step is 0"),
    ],
)
def test_fields_of_a_sweep(page: Page, fields: tuple[str, str, str], unit: str, words: str) -> None:
    # Catches: a number that other fields take and that is refused here, and one sentence for every mistake.
    opened(page, SMALL)
    ask(page, "1", "base", *fields, unit)
    page.until(lambda: words in page.text("#sweep-words") + page.text("#sweep-wrong"), words)
