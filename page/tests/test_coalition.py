"""The tab Coalition: ticks by mouse, keyboard and finger, and each of its numbers against an independent count."""
from __future__ import annotations

import re
import struct
import xml.etree.ElementTree as ElementTree
from collections.abc import Iterator, Sequence
from fractions import Fraction
from random import Random

import pytest
from chromium import EVERY, NARROW, Page
from coalition_count import Board, Coalition, counted, large_by_size
from inputs import MOST
from oracle import MAJORITIES, UNSHOWN, Oracle
from replay_output import Reading
from selenium.webdriver.common.keys import Keys
from test_exports import DROP
from test_hands import Finger, focus, middle
from test_said import ARABIC, HEAD, opened
from tests.shared.commands import Say

BROWSERS = EVERY
# The tests drive Chromium's touch screen, and its print and console.
NOT_IN_FIREFOX = {"test_finger", "test_export", "test_a_sum_that_does_not_hold"}
ROWS = [("AAA", 30, 1, "Harbours"), ("BBB", 20, 2, ""), ("CCC", 20, 3, ARABIC), ("DDD", 15, 5, "Lakes & Sons")]
ROWS += [("EEE", 10, 6, ""), ("FFF", 5, 7, ""), ("GGG", 0, 8, "<b>Dunes</b>")]
SMALL = HEAD + "".join(f"{code},{code} land,{votes},{chair},{name},\n" for code, votes, chair, name in ROWS)
# Sums of these votes are just the quotas: 70, 85 and 50 of 100.
BOARD = Board(
    {chair: votes for _, votes, chair, _ in ROWS},
    {chair: name or f"{code} land" for code, _, chair, name in ROWS},
    100,
)
WORDS = {"half": "At a simple majority", "70": "At 70 per cent", "85": "At 85 per cent", "quorum": "For the quorum"}
VERDICTS = """
  const cells = (row) => [...row.querySelectorAll("td")].map((it) => [it.dataset.majority, it.textContent]);
  return [...document.querySelectorAll("#verdict-table tbody tr")].map((it) => [it.dataset.part, cells(it)]);
"""
CELLS = """
  const rows = [...document.querySelectorAll(arguments[0])];
  return rows.map((row) => [...row.cells].map((it) => it.textContent));
"""
TICKED = """
  const boxes = [...document.querySelectorAll("#ticks input")].filter((it) => it.checked);
  return boxes.map((it) => Number(it.id.replace("tick-", "")));
"""


def show_all(page: Page) -> None:
    """Shows all majorities, and the tab."""
    for majority in UNSHOWN:
        page.click(f"#at-{majority}")
    page.click("#tab-coalition")


@pytest.fixture
def small(page: Page) -> Page:
    """The tab, over the small board."""
    opened(page, SMALL)
    show_all(page)
    return page


def ticked(page: Page) -> Coalition:
    return tuple(page.run(TICKED))


def tick(page: Page, coalition: Coalition) -> None:
    """Ticks a coalition by mouse, and nothing else."""
    for chair in sorted(set(ticked(page)) ^ set(coalition)):
        page.click(f"#tick-{chair}")


def check_verdict(page: Page, board: Board, coalition: Coalition) -> int:
    """The page says of the ticked coalition what the independent count does. Returns how many texts were compared."""
    assert ticked(page) == coalition
    found = {part: dict(cells) for part, cells in page.run(VERDICTS)}
    wanted = {it: board.verdict(it, coalition) for it in MAJORITIES}
    # Nothing ticked has no table.
    assert bool(found) == bool(coalition)
    every = {part: {it: wanted[it][part] for it in MAJORITIES} for part in wanted["half"]}
    assert not found or every == found, coalition
    chairs = f"{len(coalition)} of {counted(len(board.votes), 'chair')} ticked"
    outcomes = " ".join(f"{WORDS[it]} the coalition {wanted[it]['outcome']}." for it in MAJORITIES)
    votes = f"{board.of(coalition):,} of {board.of(board.votes):,} votes cast"
    assert page.text("#coalition-words") == f"{chairs}, with {votes}. {outcomes}"
    return len(MAJORITIES) * len(found)


def coalitions(board: Board, many: int) -> Iterator[Coalition]:
    """Some coalitions, each one or two chairs from the one before."""
    random, now = Random(5), set[int]()
    for _ in range(many):
        now ^= set(random.sample(sorted(board.votes), random.choice([1, 1, 2])))
        yield tuple(sorted(now))


def test_verdicts(small: Page) -> None:
    # Catches: a tie that wins, a chair without votes that is critical, a wrong number of missing votes or chairs.
    boxes = [it.text.split("\n") for it in small.all("#ticks label")]
    names = [f"{chair} {BOARD.names[chair]}" for chair in BOARD.votes]
    assert boxes == [[name, str(votes)] for name, votes in zip(names, BOARD.votes.values())]
    assert small.text("#ticks legend") == "A coalition of chairs of the base"
    compared = check_verdict(small, BOARD, ())
    for coalition in [(1, 2), (1, 2, 3), (1, 2, 3, 5), *coalitions(BOARD, 12)]:
        tick(small, coalition)
        compared += check_verdict(small, BOARD, coalition)
    assert compared > 750


def test_buttons(small: Page) -> None:
    # Catches: a button that works on chairs as they were before the last tick, or takes the smallest chair.
    everybody = tuple(BOARD.votes)
    small.click("#tick-all")
    check_verdict(small, BOARD, everybody)
    assert not small.at("#tick-largest").is_enabled()
    small.click("#tick-none")
    check_verdict(small, BOARD, ())
    order = sorted(everybody, key=lambda it: (-BOARD.votes[it], it))
    for many in range(1, len(order) + 1):
        small.click("#tick-largest")
        check_verdict(small, BOARD, tuple(sorted(order[:many])))
    assert not small.at("#tick-largest").is_enabled() and focus(small) == "tick-none"
    tick(small, (2, 8))
    small.click("#tick-others")
    check_verdict(small, BOARD, (1, 3, 5, 6, 7))


def test_keyboard(small: Page) -> None:
    # Catches: a focus that is lost with each tick, so that a keyboard begins again at the top of the page.
    small.run('document.getElementById("tick-1").focus();')
    for chair in [1, 2, 3]:
        assert focus(small) == f"tick-{chair}"
        small.press(Keys.SPACE)
        assert focus(small) == f"tick-{chair}"
        small.press(Keys.TAB)
    check_verdict(small, BOARD, (1, 2, 3))
    for _ in range(4):
        small.press(Keys.TAB)
    assert focus(small) == "tick-all"
    small.press(Keys.TAB, Keys.TAB, Keys.ENTER)
    check_verdict(small, BOARD, (5, 6, 7, 8))


def check_smallest(page: Page, wanted: dict[str, list[Coalition]], none: str, has_number: bool = True) -> int:
    """The table and the lists have the smallest coalitions at each majority. Returns how many texts were compared."""
    numbers = {it: [str(len(wanted[it]))] if has_number else [] for it in wanted}
    table = [[str(len(all_[0])) if all_ else none, *numbers[it]] for it, all_ in wanted.items()]
    assert [cells[1:] for cells in page.run(CELLS, "#smallest-table tbody tr")] == table
    compared = 0
    for majority, all_ in wanted.items():
        page.choose("#smallest-at", majority)
        first = all_[:20]
        lists = [[BOARD.listed(list(it), "").split(": ", 1)[1], str(BOARD.of(it))] for it in first]
        assert [cells[1:3] for cells in page.run(CELLS, "#smallest-list tbody tr")] == lists
        assert page.text("#smallest-words").startswith(WORDS[majority])
        compared += 2 + 2 * len(first)
    return compared


def test_smallest(small: Page) -> None:
    # Catches: a coalition that loses or is too large, a wrong number of them, or a button that ticks another one.
    compared = 0
    small.click("#smallest-minimal")
    for chair in BOARD.votes:
        small.choose("#smallest-chair", str(chair))
        wanted = {it: BOARD.smallest(it, chair) for it in MAJORITIES}
        compared += check_smallest(small, wanted, "")
    for at, coalition in enumerate(wanted["quorum"][:20]):
        small.click(f"#tick-these-{at}")
        check_verdict(small, BOARD, coalition)
    assert compared > 200


@pytest.mark.parametrize("kind", ["winning", "blocking"])
def test_minimal(small: Page, kind: str) -> None:
    # Catches: a chair that is listed beside others that win, or block, without it, and one that is left out.
    small.choose("#smallest-kind", kind)
    compared, without = 0, 0
    for chair in BOARD.votes:
        small.choose("#smallest-chair", str(chair))
        for out in [None, 1] if chair == 2 else [None]:
            small.choose("#smallest-without", str(out or ""))
            wanted = {it: BOARD.minimal(it, chair, kind == "blocking", out) for it in MAJORITIES}
            compared += check_smallest(small, wanted, "none needs it")
            without += sum(not it for it in wanted.values())
        small.choose("#smallest-without", "")
    small.choose("#smallest-chair", "8")
    small.choose("#smallest-at", "half")
    what = "wins" if kind == "winning" else "can block"
    assert small.text("#smallest-words") == f"At a simple majority no coalition that {what} needs this chair."
    assert compared > 100 and without >= 3


def test_any_and_without(small: Page) -> None:
    # Catches: a smallest coalition of any chairs that isn't the smallest, or one with the chair that is left out.
    small.choose("#smallest-chair", "any")
    assert not small.all("#smallest-minimal")
    for kind in ["winning", "blocking"]:
        small.choose("#smallest-kind", kind)
        for out in [None, 1, 2]:
            small.choose("#smallest-without", str(out or ""))
            wanted = {it: BOARD.smallest_of_any(it, kind == "blocking", out) for it in MAJORITIES}
            check_smallest(small, wanted, "none wins", kind == "winning")


def test_the_list_fills_the_bar(small: Page) -> None:
    # Catches: a row of the list that doesn't take a click, a bar that isn't as long as the votes, or a quota beside it.
    room = 'return document.getElementById("fill").getBoundingClientRect().width;'
    parts = """return [...document.querySelectorAll("#fill .part")].map((it) => it.getBoundingClientRect().width);"""
    quotas = """return [...document.querySelectorAll("#fill line")].map((it) => parseFloat(it.getAttribute("x1")));"""
    own: list[int] = []
    for chair in [2, 5, 1]:
        small.click(f'#ticks label[data-chair="{chair}"] .number')
        own = sorted([*own, chair])
        check_verdict(small, BOARD, tuple(own))
        widths, whole = small.run(parts), small.run(room)
        assert [round(100 * it / whole) for it in widths] == [BOARD.votes[it] for it in own]
    assert small.run(quotas) == [BOARD.quota(it) for it in MAJORITIES]
    small.click('#ticks label[data-chair="2"] .card-title')
    check_verdict(small, BOARD, (1, 5))


def test_the_list_is_in_the_order_of_the_others(page: Page) -> None:
    # Catches: chairs by number beside a list by votes, and a veto that isn't at the row here.
    order = 'return [...document.querySelectorAll("#ticks label")].map((it) => Number(it.dataset.chair));'
    rows = 'return [...document.querySelectorAll("#cards > li")].flatMap((it) => Number(it.dataset.place) || []);'
    for sort in ["#sort-votes", "#sort-number"]:
        page.click("#tab-power")
        page.click(sort)
        wanted = page.run(rows)
        page.click("#tab-coalition")
        assert page.run(order) == wanted and len(wanted) == 24
    assert [it.get_attribute("data-words") for it in page.all("#ticks .tag")] == ["veto"]
    assert page.all('#ticks label[data-chair="1"] .tag')


def test_answers(small: Page) -> None:
    # Catches: a group that doesn't carry or block, one that is larger than another, or a button that ticks others.
    for majority in MAJORITIES:
        fewest = {
            "alone": BOARD.vetoes(majority) or [],
            "block": BOARD.fewest_blockers(majority),
            "carry": BOARD.smallest_of_any(majority, False, None)[0],
        }
        for question, chairs in fewest.items():
            cell = f'#answers tr[data-question="{question}"] td[data-majority="{majority}"]'
            if not chairs:
                assert small.text(cell) in ("no chair", "no others")
                continue
            small.click(f"#answer-{question}-{majority}")
            found = ticked(small)
            assert len(found) == len(chairs)
            assert question != "alone" or found == tuple(chairs)
            assert BOARD.wins(majority, found) if question == "carry" else BOARD.blocks(majority, found)
            assert question != "block" or not set(found) & set(BOARD.vetoes(majority) or [])


def sizes(page: Page) -> list[list[str]]:
    """The cells of the table behind the chart."""
    page.run('document.getElementById("behind").open = true;')
    page.until(lambda: page.all("#size-table"), "the table")
    return list(page.run(CELLS, "#size-table tbody tr, #size-table tfoot tr"))


def share_text(winning: int, many: int) -> str:
    return f"{float(Fraction(100 * winning, many)):.2f} %"


def test_sizes(small: Page) -> None:
    # Catches: a size that is one off, a share of another size's coalitions, a readout that isn't the table's, and
    # blocking coalitions that are those of their own size that lose.
    columns = [BOARD.by_size(it) for it in MAJORITIES]
    blocking = [BOARD.blocking_by_size(it) for it in MAJORITIES]
    every = [[str(size), str(many), *row(columns, blocking, size)] for size, (many, _) in enumerate(columns[0])]
    found = sizes(small)
    assert found[:-2] == every
    totals = [(sum(winning for _, winning in column), sum(many)) for column, many in zip(columns, blocking)]
    sums = [text for wins, blocks in totals for text in (str(wins), "", str(blocks))]
    assert found[-2:] == [["Sum", "128", *sums], ["All", "128", *sums]]
    small.at("#panel .chart").click()
    small.press(Keys.ARROW_UP * 9)
    for size, (many, _) in enumerate(columns[0]):
        shares = [
            f"{column[size][1]} win, {share_text(column[size][1], many)}; {blocks[size]} can block (made here)"
            for column, blocks in zip(columns, blocking)
        ]
        head, *lines = small.text("#readout").splitlines()
        assert head == f"{counted(size, 'chair')}: {counted(many, 'coalition')}"
        assert [it.split(": ")[1] for it in lines] == shares
        small.press(Keys.ARROW_RIGHT)


def row(columns: list[list[tuple[int, int]]], blocking: list[list[int]], size: int) -> list[str]:
    """The cells of a size: for each majority the winning coalitions, their share, and those that can block."""
    found = [(*column[size], blocks[size]) for column, blocks in zip(columns, blocking)]
    return [text for many, wins, blocks in found for text in (str(wins), share_text(wins, many), str(blocks))]


def test_vetoes(small: Page) -> None:
    # Catches: a veto for a chair that a winning coalition does without, or for all where nothing wins.
    def wanted(board: Board) -> list[str]:
        chairs = {it: board.vetoes(it) for it in MAJORITIES}
        none = {it: f"{WORDS[it]} no coalition wins." for it in MAJORITIES}
        names = {it: ", ".join(f"{chair} {board.names[chair]}" for chair in chairs[it] or []) for it in MAJORITIES}
        return [none[it] if chairs[it] is None else f"{WORDS[it]}: {names[it] or 'none'}." for it in MAJORITIES]

    assert small.texts("#vetoes li") == wanted(BOARD) and ": 1 Harbours, " in wanted(BOARD)[2]
    # With 20 votes more outside of all chairs, 100 votes are less than 85 per cent of 120.
    assert small.act("admit", "ZZZ", "20")
    changed = Board(BOARD.votes, BOARD.names, 120)
    assert small.texts("#vetoes li") == wanted(changed) and "no coalition wins" in wanted(changed)[2]
    tick(small, (1, 2, 3, 5))
    check_verdict(small, changed, (1, 2, 3, 5))
    small.choose("#smallest-at", "85")
    assert small.text("#smallest-words") == "At 85 per cent no coalition wins." and not small.all("#smallest-list")


def test_ticks_stay(small: Page) -> None:
    # Catches: ticks that an edit clears, that go to a new chair of an old number, or to another study's chairs.
    tick(small, (1, 5, 8))
    assert small.act("votes", "AAA", "50")
    assert small.text("#ticks legend") == "A coalition of chairs of the changed board"
    board = Board({**BOARD.votes, 1: 50}, BOARD.names, 120)
    check_verdict(small, board, (1, 5, 8))
    for act in [["move", "GGG", "1"], ["close", "8"]]:
        if act[0] == "close":
            small.run('if (!document.getElementById("close-8")) document.getElementById("card-8").click();')
        assert small.act(*act)
    assert ticked(small) == (1, 5)
    # The number 4 is free from the beginning: the second chair that is opened is 8 again, and another chair.
    assert small.act("open") and small.act("open") and small.at("#tick-8")
    assert ticked(small) == (1, 5)
    for _ in range(5):
        small.click("#undo")
    check_verdict(small, BOARD, (1, 5, 8))
    small.click("#tab-power")
    small.click("#tab-coalition")
    assert ticked(small) == (1, 5, 8)
    opened(small, SMALL.replace(",30,", ",31,"), "another")
    assert ticked(small) == ()


def example(oracle: Oracle) -> Board:
    """The board that the page begins with, as the program reads it."""
    reading = oracle.output([], ["half"]).readings[0]
    votes = {it.chair: it.weight for it in reading.chairs}
    return Board(votes, {}, reading.total)


def vetoes(page: Page) -> list[list[int]]:
    """The numbers of the chairs with a veto at each majority; the example's names have no digits."""
    return [[int(it) for it in re.findall(r"\d+", text.split(":")[1])] for text in page.texts("#vetoes li")]


def vetoes_of(readings: Sequence[Reading]) -> list[list[int]]:
    """The chairs that, by the program's counts, swing in every winning coalition."""
    return [[it.chair for it in reading.chairs if it.swings == reading.winning] for reading in readings]


def test_example(page: Page, oracle: Oracle) -> None:
    # Catches: 24 chairs that aren't counted as the program counts them.
    show_all(page)
    readings, board = oracle.output([], MAJORITIES).readings, example(oracle)
    found = [[int(it.replace(",", "")) for it in cells[2::3] if it] for cells in sizes(page)]
    assert found[-1] == found[-2] == [it.winning for it in readings]
    columns = [large_by_size(board, it) for it in MAJORITIES]
    assert found[:-2] == [list(it) for it in zip(*columns)]
    check = "{} the sum equals the counted number of winning coalitions: {:,}."
    assert page.texts("#size-checks li") == [check.format(WORDS[it.majority], it.winning) for it in readings]
    assert not page.all(".alarm") and vetoes(page) == vetoes_of(readings)
    assert [at for at, it in zip(MAJORITIES, vetoes(page)) if it] == ["85"]
    # With fewer votes chair 1 has no veto, and with many more it has one at all majorities.
    for votes, where in [("650549", []), ("900000", ["85"]), ("5000000", MAJORITIES)]:
        assert page.act("votes", "XAA", votes)
        wanted = vetoes_of(oracle.output([f"votes,XAA,{votes}"], MAJORITIES).readings)
        assert vetoes(page) == wanted and [at for at, it in zip(MAJORITIES, wanted) if 1 in it] == where


def test_marks(small: Page) -> None:
    # Catches: a number of the tab that doesn't say whether the register counts it or the page makes it.
    sizes(small)
    small.click("#tick-all")
    marks = "return [...document.querySelectorAll(arguments[0])].map((it) => it.dataset.mark ?? '');"
    parts = dict(zip([part for part, _ in small.run(VERDICTS)], small.run(marks, "#verdict-table tbody th")))
    assert {part for part, mark in parts.items() if mark == "counted"} == {"quota", "least"}
    assert set(parts.values()) == {"counted", "made here"}
    # What is made here as a whole says so once.
    assert small.text("#smallest-table caption") == "With 1 Harbours (made here)"
    assert small.text("#smallest-words").endswith(" (made here).")
    for table in ["#smallest-table", "#smallest-list"]:
        assert set(small.run(marks, f"{table} thead th")) == {""}
    assert small.text("#size-table caption").endswith(" (made here)")
    assert small.run(marks, "#size-table thead th") == [""] * (2 + 3 * len(MAJORITIES))
    assert small.run(marks, "#size-table tfoot th") == ["made here", "counted"]


@pytest.mark.parametrize("chairs", [0, 1])
def test_few_chairs(page: Page, chairs: int) -> None:
    # Catches: a fault on a board of one chair, or without chairs.
    reads = "publish\nread,1,half\nread,1,85\n"
    page.run(DROP, "few.csv", "member,votes\nAAA,5\nscript\n" + "open,7\nmove,AAA,7\n" * chairs + reads)
    page.until(lambda: page.text("#study-name") == "few", "the study")
    show_all(page)
    if chairs:
        page.click("#tick-7")
        check_verdict(page, Board({7: 5}, {7: "AAA"}, 5), (7,))
        rows = [["0", "1", "0"], ["1", "1", "1"], ["Sum", "2", "1"], ["All", "2", "1"]]
        assert [cells[:3] for cells in sizes(page)] == rows
    else:
        assert page.text("#panel") == "No chair is open, so there is no coalition to look at."
        page.click("#export")
        assert not page.at("#export-svg").is_enabled()


def test_most(page: Page, record_property: Say) -> None:
    # Catches: sums of the most votes that aren't exact any more, and a tab that takes seconds.
    opened(page, MOST, "most")
    for majority in UNSHOWN:
        page.click(f"#at-{majority}")
    took = page.run(
        """
      const begun = performance.now();
      document.getElementById("tab-coalition").click();
      return performance.now() - begun;"""
    )
    record_property("time", f"tab Coalition: {took:.0f} ms, 32 chairs at all majorities")
    assert len(page.texts("#size-checks li")) == len(MAJORITIES) and not page.all(".alarm")
    *_, total, check = sizes(page)
    assert total[1:] == check[1:] and check[1] == f"{2**32:,}"


def test_a_sum_that_does_not_hold(small: Page) -> None:
    # Catches: a wrong count that is shown without a word. Here all sums of the page begin with votes that no chair has.
    small.click("#tab-power")
    small.run(
        """
      window.Float64Array = new Proxy(Float64Array, {
        construct: (made, words) => (words[0] === 1 ? new made(1).fill(10) : new made(...words)),
      });"""
    )
    assert small.act("votes", "AAA", "31")
    small.click("#tab-coalition")
    alarms = small.all('#panel > .alarm[role="alert"]')
    assert alarms and all("but the counted number" in it.text for it in alarms)
    assert len(small.all("#size-checks .alarm")) == len(alarms)


def test_finger(page: Page) -> None:
    # Catches: boxes too small or too close for a finger, and a tab that is wider than a phone.
    page.driver.execute_cdp_cmd("Emulation.setTouchEmulationEnabled", {"enabled": True, "maxTouchPoints": 1})
    opened(page, SMALL)
    show_all(page)
    page.show(NARROW, 844)
    finger = Finger(page)
    for chair in [1, 3, 5]:
        place = f'#ticks label[data-chair="{chair}"]'
        page.run('document.querySelector(arguments[0]).scrollIntoView({ block: "center" });', place)
        finger.down(middle(page, place))
        finger.up()
        page.until(lambda: chair in ticked(page), f"a tick at chair {chair}")
    check_verdict(page, BOARD, (1, 3, 5))
    heights = page.run("return [...document.querySelectorAll('#ticks label')].map((it) => it.offsetHeight);")
    assert min(heights) >= 40 and not page.look("wide", NARROW)
    page.driver.execute_cdp_cmd("Emulation.setTouchEmulationEnabled", {"enabled": False})


def test_export(small: Page) -> None:
    # Catches: a picture that lacks a size, that is empty, or that doesn't say that it is made here.
    small.click("#export")
    _, content = small.downloaded("#export-svg")
    picture = ElementTree.fromstring(content)
    assert [it.get("data-size") for it in picture.iter() if it.get("data-size")] == [str(it) for it in range(8)]
    texts = "".join(picture.itertext())
    assert "made here" in texts and "council: Winning coalitions by number of chairs, the base" in texts
    _, content = small.downloaded("#export-png")
    width, height = struct.unpack(">II", content[16:24])
    assert width >= 1600 and height >= 800 and len(content) > 30_000
