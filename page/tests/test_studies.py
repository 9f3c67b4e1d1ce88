"""Sweeps with their thresholds, scenarios side by side, the best move, the slider and the independent count."""
from __future__ import annotations

import json
from typing import Any

import inputs
import pytest
from chromium import ACTS, Page
from figures import check_figures, gains, lowest, remove_all, shown_majorities
from member_tables import MOST_VOTES, register_of
from oracle import Oracle, least
from replay_output import Chair, Ratio
from rounding import exact, rounded
from selenium.webdriver.common.action_chains import ActionChains
from test_exports import DROP
from test_random import table_of
from test_tables import take
from voting_board.operations import records_of

CELLS = """return [...document.querySelectorAll("#sweep-table tbody tr")].map(
  (row) => [...row.children].map((it) => it.title.split(" ")[0] || it.textContent));"""


def ask(page: Page, who: str, on: str, first: str, last: str, by: str, unit: str = "percent") -> None:
    """Asks for a sweep."""
    page.click("#tab-curve")
    page.choose("#sweep-on", on)
    page.choose("#sweep-who", who)
    page.choose("#sweep-unit", unit)
    for field, value in {"from": first, "to": last, "by": by}.items():
        place = page.at(f"#sweep-{field}")
        place.clear()
        place.send_keys(value)
    page.at("#sweep-run").click()


def sweep(page: Page, who: str, on: str, first: str, last: str, by: str, unit: str = "percent") -> None:
    """Asks for a sweep, and waits for it."""
    ask(page, who, on, first, last, by, unit)
    page.until(lambda: page.all("#sweep-table"), "the sweep")


def chair_at(oracle: Oracle, commands: list[str], majority: str, chair: int) -> Chair:
    """A chair's line after commands."""
    return next(it for it in oracle.output(commands, [majority]).readings[0].chairs if it.chair == chair)


def signed(decimal: str) -> str:
    """A decimal with its sign also where it is above 0."""
    return decimal if decimal.startswith("-") else f"+{decimal}"


def is_one(ratio: Ratio | None) -> bool:
    return ratio is not None and ratio.numerator == ratio.denominator


def test_sweep_of_a_member(page: Page, oracle: Oracle) -> None:
    # Catches: a point whose votes aren't its share of the total, or whose numbers are those of another point.
    sweep(page, "XAD", "base", "1", "30", "0.5")
    cells = page.run(CELLS)
    assert len(cells) == 59 and shown_majorities(page) == ["half", "85"]
    for value, votes, _, *shares in cells[::6]:
        [command] = records_of(register_of(oracle.table).members, f"votes,XAD,{value}% of total")
        assert command == f"votes,XAD,{votes.replace(',', '')}"
        assert shares == [lowest(chair_at(oracle, [command], at, 4).share) for at in ("half", "85")]


def test_threshold(page: Page, oracle: Oracle) -> None:
    # Catches: a threshold that is read off the curve, or that is one vote too high or too low.
    sweep(page, "XAD", "base", "1", "30", "0.5")
    rest = sum(it.votes for it in oracle.table.members) - 227_217
    for what, words in {"prevent": "has a veto", "initiate": "carries everything alone"}.items():
        for majority, at in {"85": "At 85 per cent", "half": "At a simple majority"}.items():

            def holds(votes: int) -> bool:
                return is_one(getattr(chair_at(oracle, [f"votes,XAD,{votes}"], majority, 4), what))

            votes = least(holds, 0, MOST_VOTES)
            share = rounded(100 * exact(Ratio(votes, votes + rest)), 2)
            wanted = f"{at} it {words} from {votes:,} votes, {share} % of the total (not at {votes - 1:,})."
            is_within = 1 < 100 * votes / (votes + rest) < 30
            assert (wanted in page.texts("#thresholds li")) == is_within, (wanted, page.texts("#thresholds li"))


def test_sweep_of_a_chair_on_the_changed_board(page: Page, oracle: Oracle) -> None:
    # Catches: a sweep that forgets the changes, or that gives a chair's votes to one of its members.
    assert page.act("votes", "XAA", "100000") and page.act("suspend", "XAB")
    sweep(page, "5", "changed", "100000", "900000", "20000", "votes")
    (codes, seated) = zip(*((it.code, it.votes) for it in oracle.table.members if it.chair == 5))

    def others(votes: int) -> list[str]:
        """Commands that give the chair some votes, all to its first member."""
        rest = [f"votes,{code},0" for code in codes[1:]]
        return ["votes,XAA,100000", "suspend,XAB", f"votes,{codes[0]},{votes}", *rest]

    assert seated
    for value, votes, _, *shares in page.run(CELLS)[::8]:
        assert votes.replace(",", "") == value
        assert shares == [lowest(chair_at(oracle, others(int(value)), at, 5).share) for at in ("half", "85")]
    votes = least(lambda it: is_one(chair_at(oracle, others(it), "85", 5).prevent), 0, MOST_VOTES)
    assert any(f"has a veto from {votes:,} votes" in it for it in page.texts("#thresholds li"))


@pytest.mark.parametrize(("first", "last", "by"), [("10", "20", "5"), ("10", "20", "2.5"), ("7.5", "8", "0.25")])
def test_sweep_in_csv(page: Page, oracle: Oracle, first: str, last: str, by: str) -> None:
    # Catches: steps that are written differently from board-study's.
    sweep(page, "XAD", "base", first, last, by)
    wanted = oracle.study({}, shown_majorities(page), f"XAD {first}..{last} by {by} %")
    assert table_of(page.act("exported", "export-csv")) == table_of(wanted)


@pytest.mark.parametrize(("first", "last", "by"), [("10", "20", "3"), ("20", "10", "1"), ("0", "99", "0.01")])
def test_sweep_that_is_none(page: Page, first: str, last: str, by: str) -> None:
    # Catches: a sweep that stops short of its end without a word, or that takes minutes.
    ask(page, "XAD", "base", first, last, by)
    page.until(lambda: page.text("#sweep-words").startswith("This can't be swept: "), "the reason")
    assert not page.all("#sweep-table")


def test_scenarios(page: Page, oracle: Oracle) -> None:
    # Catches: a scenario that changes with the list it was made of, or whose winner is another scenario's.
    kept = {"More votes": ["votes,XAD,318104"], "A move": ["votes,XAD,318104", "move,XAA,2"]}
    assert page.act("votes", "XAD", "+40%")
    page.write("#scenario-name", "More votes")
    assert page.act("move", "XAA", "2")
    page.write("#scenario-name", "A move")
    remove_all(page)
    assert not page.all("#changes > li")
    page.until(lambda: "counting" not in page.text("#scenarios"), "the scenarios")
    names = oracle.table.chair_names
    for name, commands in kept.items():
        for majority in shown_majorities(page):
            of = gains(oracle, commands, majority)
            best, worst = max(of, key=lambda it: of[it]), min(of, key=lambda it: of[it])
            words = page.text(f'#scenarios tr[data-scenario="{name}"][data-majority="{majority}"]')
            gained = {it: signed(rounded(100 * of[it], 2)) for it in (best, worst)}
            wanted = [f"{it} {names[it]} ({gained[it]} percentage points)" for it in (best, worst)]
            assert " ".join(wanted) in words
    assert table_of(page.act("exported", "export-csv")) == table_of(oracle.study(kept, shown_majorities(page)))
    page.click('[aria-label="Show A move"]')
    check_figures(page, oracle, kept["A move"])
    page.click('[aria-label="Remove A move"]')
    assert not page.all('#scenarios tr[data-scenario="A move"]')


def test_csv_of_a_scenario_just_kept(page: Page, oracle: Oracle) -> None:
    # Catches: a scenario that is left out of the table, without a word, since it isn't counted yet.
    assert page.act("votes", "XAD", "318104")
    page.reach("#scenario-name").send_keys("More votes")
    keep = 'document.getElementById("scenario-keep").click();'
    csv = page.wait_for(keep + ACTS, "exported", "export-csv")
    wanted = {"More votes": ["votes,XAD,318104"], "changed": ["votes,XAD,318104"]}
    assert table_of(csv) == table_of(oracle.study(wanted, shown_majorities(page)))


def test_best_move(page: Page, oracle: Oracle) -> None:
    # Catches: a ranking by votes, a member that is tried where it sits, or numbers of the base.
    page.click("#best-open")
    page.choose("#best-chair", "5")
    page.click("#best-empty")
    page.choose("#best-at", "85")
    page.click("#best-run")
    page.until(lambda: page.all("#best-table"), "the moves")
    rows = """return [...document.querySelectorAll("#best-table tbody tr")].map(
      (row) => [row.dataset.code, row.children[4].title.split(" ")[0]]);"""
    found = dict(page.run(rows))
    assert "Added, points" in page.texts("#best-table th")
    elsewhere = [it.code for it in oracle.table.members if it.chair != 5]
    wanted = {code: chair_at(oracle, [f"move,{code},5"], "85", 5).share for code in elsewhere}
    assert found == {code: lowest(it) for code, it in wanted.items()}
    shares = [exact(it) for it in (wanted[code] for code in found) if it]
    assert shares == sorted(shares, reverse=True) and len(shares) == len(elsewhere)


def test_slider(page: Page, oracle: Oracle) -> None:
    # Catches: figures of the step before, next to a slider that moved on; a step of undo for each point it passed.
    assert page.act("votes", "XAD", "300000")
    mouse: Any = ActionChains
    mouse(page.driver).click_and_hold(page.at("#changes input[type=range]")).move_by_offset(8, 0).move_by_offset(
        9, 0
    ).release().perform()
    page.settle()
    votes = int(str(page.at("#changes .slider [id^=number-]").get_property("value")))
    assert votes not in (0, 300_000)
    check_figures(page, oracle, [f"votes,XAD,{votes}"])
    page.write("#changes .slider [id^=number-]", "400000")
    check_figures(page, oracle, ["votes,XAD,400000"])
    for before in [votes, 300_000]:
        page.click("#undo")
        check_figures(page, oracle, [f"votes,XAD,{before}"])
    page.click("#undo")
    assert not page.at("#undo").is_enabled()


def test_independent_count(page: Page) -> None:
    # Catches: a second count that agrees since it is never made.
    page.run(DROP, "council.csv", inputs.PLAIN)
    page.until(lambda: page.all("#table-take"), "the preview")
    take(page, "council")
    page.click("#recount-open")
    page.click("#recount-run")
    same = "all 4 numbers are the same, 8 coalitions"
    page.until(lambda: [same in it for it in page.texts("#recount-results li")] == [True, True], "the same numbers")


def test_a_changed_file(page: Page) -> None:
    # Catches: a study that was changed outside of the page, and that goes on under the hash of a table that never had
    # its votes; a file that is cut off or in another order and that a person can't tell apart from a table.
    assert page.act("votes", "XAD", "300000")
    _, content = page.downloaded("#save-study")
    text = content.decode()
    old, new = "XAB,405406", "XAB,505406"
    assert old in text
    data = json.loads(text)
    twice = json.dumps({**data, "study": {**data["study"], "changes": data["study"]["changes"] * 2}})
    turned = json.dumps(dict(reversed(data.items())))
    files = {"same": text, "other": text.replace(old, new), "turned": turned, "cut": text[:-900], "twice": twice}
    for name, given in files.items():
        page.open()
        page.run(DROP, f"{name}.study.json", given)
        page.until(lambda: page.all("#changes > li") or page.all("#refusal"), name)
        page.settle()
        if name in ("other", "twice"):
            page.until(lambda: page.all("#refusal"), "what is wrong")
        said = page.text("#refusal") if page.all("#refusal") else ""
        assert ("no longer has the hash" in said) == (name in ("other", "twice")), (name, said)
        assert said.startswith("This study was changed after it was saved") == (name in ("other", "twice"))
        assert ("breaks off before its end" in said) == (name == "cut"), (name, said)
        page.run("document.querySelector('dialog .close')?.click();")
        ids = page.run("return [...document.querySelectorAll('#changes > li')].map((it) => it.dataset.id);")
        assert len(set(ids)) == len(ids) == {"cut": 0, "twice": 2}.get(name, 1)
        if name == "other":
            assert "# table" in (csv := page.act("exported", "export-csv")) and " sha256 none" in csv.split("\n")[2]
