"""Single moves of any member to any chair, compared with the program."""
from __future__ import annotations

import random
from fractions import Fraction

from chromium import NARROW, Page
from figures import gains, measure_of
from oracle import Oracle, text_of
from replay_output import read_output
from rounding import exact, rounded
from selenium.webdriver.common.keys import Keys
from test_access import tab_to
from test_kept import WEIGHTY
from test_said import opened
from test_studies import signed

SEED, DRAWN, SHOWN = 20_261_128, 12, 50
# Members in four chairs, one without votes, one that is suspended, and one in no chair.
SMALL = """code,votes,chair,suspended
AAA,40,1,false
BBB,25,2,false
CCC,15,2,false
DDD,12,3,false
EEE,9,3,true
GGG,0,4,false
FFF,8,,false
"""
SEATS = {"AAA": 1, "BBB": 2, "CCC": 2, "DDD": 3, "GGG": 4, "FFF": 0}
# For each row of the table: its member, its chair, and the words and titles of the chairs that gain and lose most.
ROWS = """return [...document.querySelectorAll("#best-table tbody tr")].map((row) => [row.dataset.code,
  Number(row.dataset.chair), ...[4, 5].map((it) => [row.children[it].textContent, row.children[it].title])]);"""
Move = tuple[str, int]
Gains = dict[int, Fraction]


def try_all(page: Page, majority: str = "85") -> None:
    """Tries all members in any chair."""
    page.click("#best-open")
    page.choose("#best-chair", "any")
    page.click("#best-empty")
    page.choose("#best-at", majority)
    page.click("#best-run")
    page.until(lambda: page.all("#best-table"), "the moves")


def words(of: Gains, names: dict[int, str], sign: int) -> tuple[str, str]:
    """The chairs with the greatest gain or loss: what a cell says of them, and its title."""
    most = max(sign * it for it in of.values())
    if most <= 0:
        return "nobody", ""
    who = [f"{chair} {names[chair]}" for chair, gain in sorted(of.items()) if sign * gain == most]
    *first, last = who if len(who) < 4 else [*who[:3], f"{len(who) - 3} more"]
    joined = f"{', '.join(first)} and {last}" if first else last
    text = signed(rounded(100 * sign * most, 2))
    change = text if text.strip("+-0.") else "less than 0.01"
    return f"{joined} ({change} percentage points)", f"made here: {sign * most}"


def change(of: Gains) -> Fraction:
    return max(abs(it) for it in of.values())


def check_row(row: list[list[str]], of: Gains, names: dict[int, str]) -> None:
    """The words of a row are those of the program's gains, and its fractions have their values."""
    for (text, title), sign in zip(row, [1, -1]):
        wanted, source = words(of, names, sign)
        assert text == wanted
        found, there = (it.removeprefix("made here: ") for it in (title, source))
        assert (Fraction(found) == Fraction(there)) if there else not found


def small_gains(oracle: Oracle, majority: str, measure: str, move: Move) -> Gains:
    """The gains of all chairs of the small board by a move."""
    rows = [it.split(",") for it in SMALL.splitlines()[1:]]
    members = ["member,votes", *(f"{code},{votes}" for code, votes, *_ in rows), "script"]
    seats = [f"move,{code},{chair}" for code, _, chair, _ in rows if chair]
    base = [*members, *(f"open,{it}" for it in range(1, 5)), *seats, "suspend,EEE"]

    def values(*commands: str) -> dict[int, Fraction]:
        lines = oracle.lines(text_of([*base, *commands, "publish", f"read,1,{majority}"]).encode())
        [reading] = read_output(lines).readings
        return {it.chair: exact(ratio) for it in reading.chairs if (ratio := measure_of(it, measure))}

    before, after = values(), values(f"move,{move[0]},{move[1]}")
    return {chair: after[chair] - before[chair] for chair in after}


def test_all_moves_of_a_small_board(page: Page, oracle: Oracle) -> None:
    # Catches: a move that is left out, a suspended member that is moved, a tie that is a chair's, another order.
    opened(page, SMALL)
    names = {1: "AAA", 2: "BBB and 1 more", 3: "DDD and 1 more", 4: "GGG"}
    moves = [(code, to) for code, own in SEATS.items() for to in range(1, 5) if to != own]
    for majority, measure in [("85", "share"), ("half", "prevent")]:
        page.choose("#measure", measure)
        try_all(page, majority)
        assert page.text("#best-words").startswith(f"{len(moves)} moves were counted in ")
        rows = page.run(ROWS)
        wanted = {it: small_gains(oracle, majority, measure, it) for it in moves}
        order = sorted(moves, key=lambda it: -change(wanted[it]))
        assert [(code, chair) for code, chair, *_ in rows] == order
        if measure == "share":
            for code, chair, *cells in rows:
                check_row(cells, wanted[code, chair], names)
        page.press(Keys.ESCAPE)


def test_moves_to_a_chair_that_empty_no_chair(page: Page, oracle: Oracle) -> None:
    # Catches: moves that empty a chair and lead the list though nobody asked for them, or that never come.
    opened(page, SMALL)
    page.click("#best-open")
    page.choose("#best-chair", "3")
    page.choose("#best-at", "85")
    for is_any in [False, True]:
        if is_any:
            page.click("#best-empty")
        page.click("#best-run")
        alone = {it for it, chair in SEATS.items() if chair and list(SEATS.values()).count(chair) == 1}
        codes = [it for it, chair in SEATS.items() if chair != 3 and (is_any or it not in alone)]
        page.until(lambda: len(page.all("#best-table tbody tr")) == len(codes), "the moves")
        assert page.text("#best-words").startswith(f"{len(codes)} moves were counted in ")
        added = {it: small_gains(oracle, "85", "share", (it, 3))[3] for it in codes}
        rows = page.run('return [...document.querySelectorAll("#best-table tbody tr")].map((it) => it.dataset.code);')
        assert rows == sorted(codes, key=lambda it: -added[it])


def test_moves_of_the_example(page: Page, oracle: Oracle) -> None:
    # Catches: one of thousands of moves in the place of another, or a greater one that isn't among the first.
    assert page.act("votes", "XAD", "300000")
    try_all(page)
    names = oracle.table.chair_names
    seats = {it.code: it.chair for it in oracle.table.members}
    many = sum(len(names) - (it is not None) for it in seats.values())
    assert page.text("#best-words").startswith(f"{many:,} moves were counted in ")
    rows, unmoved = page.run(ROWS), gains(oracle, ["votes,XAD,300000"], "85")
    some = random.Random(SEED)
    assert len(rows) == SHOWN

    def of(code: str, chair: int) -> Gains:
        moved = gains(oracle, ["votes,XAD,300000", f"move,{code},{chair}"], "85")
        return {it: moved[it] - unmoved[it] for it in moved}

    for code, chair, *cells in some.sample(rows, DRAWN):
        check_row(cells, of(code, chair), names)
    changes = [change(of(code, chair)) for code, chair, *_ in (rows[0], rows[SHOWN // 2], rows[-1])]
    assert changes == sorted(changes, reverse=True)
    listed = {(code, chair) for code, chair, *_ in rows}
    others = [(code, to) for code in seats for to in names if to != seats[code] and (code, to) not in listed]
    assert all(change(of(*it)) <= changes[-1] for it in some.sample(others, DRAWN))


def test_taken_by_keyboard(page: Page) -> None:
    # Catches: a move that is added for another member or chair, or a table that needs a mouse.
    tab_to(page, "#best-open")
    page.press(Keys.ENTER)
    tab_to(page, "#best-chair")
    page.press("any")
    tab_to(page, "#best-run")
    page.press(Keys.ENTER)
    page.until(lambda: page.all("#best-table"), "the moves")
    code, chair, *_ = page.run(ROWS)[2]
    tab_to(page, "#best-table tr:nth-child(3) button")
    page.press(Keys.ENTER)
    page.until(lambda: page.texts("#changes .change-words"), "the change")
    [words] = page.texts("#changes .change-words")
    assert words.startswith(code) and words.endswith(f"→ chair {chair}") and not page.all("#best")


def test_on_a_phone(page: Page) -> None:
    # Catches: a row of which only the beginning is seen, or a button beside the screen.
    page.show(NARROW, 844)
    page.click('.sheets [data-sheet="right"]')
    try_all(page)
    assert not page.look("wide", NARROW)
    boxes = [it.rect for it in page.all("#best-table tbody tr:first-child td")]
    assert len(boxes) == 6 and all(0 <= it["x"] and it["x"] + it["width"] <= NARROW for it in boxes)
    page.click("#best-table tr:nth-child(2) button")
    assert len(page.all("#changes > li")) == 1


def test_cancelled(page: Page) -> None:
    # Catches: thousands of moves on a large board that nobody can stop, or that go on once the dialog is closed.
    opened(page, WEIGHTY)
    page.click("#best-open")
    page.choose("#best-chair", "any")
    page.click("#best-empty")
    for end in ["#waiting-cancel", "#best .close"]:
        page.click("#best-run")
        page.until(lambda: page.all("dialog #waiting progress[value]"), "the progress")
        page.click(end)
        page.until(lambda: not page.all("#waiting"), "the end")
        if page.all("#best"):
            assert page.text("#best-words") == "There is no answer: cancelled." and not page.all("#best-table")
