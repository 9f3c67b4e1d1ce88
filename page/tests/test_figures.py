"""The figures in the middle: measures, majorities, order, sentences, digits."""
from __future__ import annotations

import re
from fractions import Fraction
from typing import Any

import pytest
from chromium import Page
from figures import (
    BEFORE,
    EACH,
    check_figures,
    drawn_chairs,
    gains,
    lowest,
    measure_of,
    open_chair,
    rows,
    shown_majorities,
)
from oracle import MAJORITIES, UNSHOWN, Oracle
from replay_output import Ratio
from rounding import exact, rounded

COMMANDS = ["votes,XAD,318104", "move,XAA,2"]
MEASURES = ["share", "banzhaf", "prevent", "initiate", "swings", "ratio"]
# A number of a row in words, as a decimal and as a fraction; some units are hundredths.
EQUATION = re.compile(r": ([+-]?[0-9,]+)(\.\d+)?( %| points)? = (-?\d+(?:/\d+)?) \(.+\)")


@pytest.fixture
def changed(page: Page) -> Page:
    """The page with two changes."""
    assert page.act("votes", "XAD", "318104") and page.act("move", "XAA", "2")
    return page


def test_first_look(page: Page, oracle: Oracle) -> None:
    # Catches: a page that begins empty, or with figures that aren't its example's.
    assert page.text("#summary").startswith("190 members · 24 chairs · ")
    check_figures(page, oracle, [])


@pytest.mark.parametrize("measure", MEASURES)
def test_measure(changed: Page, oracle: Oracle, measure: str) -> None:
    # Catches: one measure's numbers under another one's name.
    for majority in UNSHOWN:
        changed.click(f"#at-{majority}")
    changed.choose("#measure", measure)
    assert shown_majorities(changed) == MAJORITIES
    check_figures(changed, oracle, COMMANDS, measure)


def decimal(ratio: Ratio | None, measure: str, digits: int) -> str:
    """A measure as the page must round it."""
    if ratio is None:
        return "-"
    if measure == "share":
        return f"{rounded(100 * exact(ratio), digits)} %"
    return f"{ratio.numerator:,}" if measure == "swings" else rounded(exact(ratio), digits + 2)


@pytest.mark.parametrize(("measure", "digits"), [("share", 1), ("share", 10), ("prevent", 3), ("swings", 3)])
def test_decimals(changed: Page, oracle: Oracle, measure: str, digits: int) -> None:
    # Catches: a decimal that is rounded twice, or through a floating number.
    changed.choose("#measure", measure)
    changed.choose("#digits", str(digits))
    cells = rows(changed)
    for at, reading in enumerate(oracle.output(COMMANDS, shown_majorities(changed)).readings):
        wanted = {it.chair: decimal(measure_of(it, measure), measure, digits) for it in reading.chairs}
        assert {chair: of[BEFORE + EACH * at + 1][0] for chair, of in cells.items()} == wanted


def test_order_by_gain(changed: Page, oracle: Oracle) -> None:
    # Catches: an order by number's text, by the absolute gain, or at a majority other than the named one.
    changed.click("#tab-table")
    changed.click("#head-gain-85")
    assert changed.at("#head-gain-85").get_attribute("aria-pressed") == "true"
    changed.click("#tab-power")
    by_gain = sorted(gains(oracle, COMMANDS, "85").items(), key=lambda it: (-it[1], it[0]))
    assert list(rows(changed)) == [chair for chair, _ in by_gain]
    assert drawn_chairs(changed) == list(rows(changed))


def test_sentence(changed: Page, oracle: Oracle) -> None:
    # Catches: a sentence that names the greatest loser as the winner, or the gain of another majority.
    of = gains(oracle, COMMANDS, "85")
    best, worst = max(of, key=lambda it: of[it]), min(of, key=lambda it: of[it])
    names = oracle.table.chair_names
    points = {it: rounded(100 * of[it], 2) for it in (best, worst)}
    # It follows the sentence on vetoes.
    wanted = f"In share of power: chair {best} {names[best]} gains most, +{points[best]} percentage points; "
    wanted += f"chair {worst} {names[worst]} loses most, {points[worst]} percentage points."
    [said] = [it for it in changed.texts("#sentences p") if it.startswith("At 85 per cent")]
    assert said.endswith(wanted) and " gains a veto, with " in said


@pytest.mark.parametrize("measure", [it for it in MEASURES if it not in ("swings", "ratio")])
def test_one_wording(page: Page, oracle: Oracle, measure: str) -> None:
    # Catches: a finding that the page and board-study say in other words.
    for majority in UNSHOWN:
        page.click(f"#at-{majority}")
    page.choose("#measure", measure)
    page.choose("#digits", "3")
    found: Any = oracle.studied({"changed": COMMANDS}, MAJORITIES)

    def shown(texts: list[str]) -> list[str]:
        """Sentences; measures other than shares have other numbers of digits."""
        return texts if measure == "share" else [re.sub(r"\d+\.\d+", "#", it) for it in texts]

    assert shown(page.texts("#sentences p")) == shown(found.results["base"].answers(measure))
    assert page.act("votes", "XAD", "318104") and page.act("move", "XAA", "2")
    assert shown(page.texts("#sentences p")) == shown(found.results["changed"].answers(measure))


def test_no_coalition_wins(page: Page, oracle: Oracle) -> None:
    # Catches: a chart of zeros where the sentence must say that nothing can pass.
    commands = ["move,XAA,none", "move,XAB,none", "move,XAC,none"]
    for command in commands:
        assert page.act(*command.split(","))
    reading = oracle.output(commands, ["85"]).readings[0]
    assert reading.winning == 0
    cast = f"{reading.cast:,} of {reading.total:,} votes"
    wanted = f"At 85 per cent no coalition wins: the open chairs cast {cast}."
    assert wanted in page.texts("#sentences p")
    page.click("#at-half")
    assert not page.all("#cards .plot .at-85:not(.hollow)")


def test_fraction_at_each_number(page: Page, oracle: Oracle) -> None:
    # Catches: a row of the chart whose exact numbers can't be seen.
    open_chair(page, 5)
    for reading in oracle.output([], shown_majorities(page)).readings:
        assert lowest(reading.chairs[4].share) in " ".join(page.texts("#cards [data-place='5'] .fractions li"))
    page.click("#tab-table")
    page.click("#toggle-fractions")
    assert rows(page)[5][BEFORE][0] == rows(page)[5][BEFORE][1]


@pytest.mark.parametrize("measure", MEASURES)
def test_each_decimal_equals_its_fraction(changed: Page, measure: str) -> None:
    # Catches: a decimal in percentage points that is said to equal a fraction of 1.
    changed.choose("#measure", measure)
    open_chair(changed, 5)
    found = changed.texts("#cards [data-place='5'] .fractions li")
    assert len(found) == 5 + (4 if measure == "share" else 3) * len(shown_majorities(changed))
    for text in found:
        [(whole, part, unit, fraction)] = EQUATION.findall(text)
        decimal = Fraction(whole.replace(",", "") + part) / (100 if unit else 1)
        half = Fraction(5, 10 ** max(1, len(part))) / (100 if unit else 1)
        assert abs(decimal - Fraction(fraction)) <= half, text


def test_published_total(page: Page, oracle: Oracle) -> None:
    # Catches: a table that lacks a row, which nobody sees.
    total = oracle.output([], ["half"]).readings[0].total
    page.write("#published", f"{total + 12_000:,}")
    assert page.text("#published-words") == f"the votes add up to {total:,}: 12,000 fewer"
    page.write("#published", f"{total:,}")
    assert page.text("#published-words") == "the votes add up to the published total"
