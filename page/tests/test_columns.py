"""Columns: each change or each scenario beside the base, in the table, the charts and the exports."""
from __future__ import annotations

import csv
from fractions import Fraction
from pathlib import Path

import pytest
from chromium import EVERY, NARROW, POSTED, Page
from figures import open_chair, remove_all, rows, shown_majorities
from oracle import MAJORITIES, UNSHOWN, Oracle, text_of
from rounding import exact, rounded
from selenium.webdriver.common.keys import Keys
from test_exports import DROP
from test_kept import reopened
from test_said import SEVEN, exported_table, opened, sha256
from test_table_files import tex_table
from tests.shared.commands import Say

BROWSERS = EVERY
# Firefox's driver shows no phone.
NOT_IN_FIREFOX = {"test_columns_on_a_phone_by_keyboard"}
REFORMS = {
    "More votes": ["votes,XAD,318104"],
    "A move": ["votes,XAD,318104", "move,XAA,2"],
    "A new chair": ["open,25", "move,XAD,25", "suspend,XAC"],
}
HISTORY = ["votes,XAD,318104", "move,XAA,2", "close,1", "open,1", "move,XAD,1"]
FRACTIONS = ["vote_share", "banzhaf", "power_share", "prevent", "initiate"]

# The names of the panels of the list.
TITLES = 'return [...document.querySelectorAll("#list-columns .panel-name")].map((it) => it.textContent);'

Shares = dict[int, Fraction]


def keep(page: Page, scenarios: dict[str, list[str]]) -> None:
    """Keeps lists of commands as scenarios, and removes the changes."""
    for name, commands in scenarios.items():
        for it in commands:
            assert page.act(*it.split(","))
        page.write("#scenario-name", name)
        remove_all(page)


def carry_out(page: Page, commands: list[str]) -> None:
    for it in commands:
        assert page.act(*it.split(","))


def steps_of(commands: list[str]) -> list[list[str]]:
    """The commands up to each one."""
    return [commands[: at + 1] for at in range(len(commands))]


def counted(page: Page) -> None:
    """All columns are counted."""
    page.until(lambda: not page.text("#columns-words"), "the columns")


def shares(oracle: Oracle, commands: list[str], majority: str) -> Shares:
    chairs = oracle.output(commands, [majority]).readings[0].chairs
    return {it.chair: exact(it.share) for it in chairs if it.share}


def fraction_of(value: Fraction | None) -> str:
    return "" if value is None else f"{value.numerator}/{value.denominator}"


def value_of(text: str) -> Fraction | None:
    """The value of a cell's fraction."""
    return Fraction(text) if text not in ("", "-") else None


def check_columns(page: Page, oracle: Oracle, lists: list[list[str]], is_chained: bool) -> int:
    """Each cell of the table is the program's: votes and shares of power in each column, and what is added. Chairs that
    were closed and opened again aren't among those compared. Returns how many numbers were compared."""
    cells, many, compared = rows(page), len(lists), 0
    registers: list[list[str]] = [[], *lists]
    again = {int(it.split(",")[1]) for commands in lists for it in commands if it.startswith("open,")}
    for at, majority in enumerate(shown_majorities(page)):
        boards = [shares(oracle, it, majority) for it in registers]
        first = 1 + (1 + many) + (1 + 2 * many) * (1 + at)
        for chair, of in cells.items():
            if chair in again:
                continue
            found = [value_of(it[1]) for it in of[first : first + 1 + 2 * many]]
            before = [boards[number if is_chained else 0].get(chair) for number in range(many)]
            after = [it.get(chair) for it in boards]
            added = [None if new is None or old is None else new - old for new, old in zip(after[1:], before)]
            wanted = [after[0], *(it for pair in zip(after[1:], added) for it in pair)]
            assert found == wanted, (chair, majority)
            compared += len(wanted)
    for number, commands in enumerate(registers):
        weights = {it.chair: str(it.weight) for it in oracle.output(commands, ["half"]).readings[0].chairs}
        found_votes = {chair: of[1 + number][1] for chair, of in cells.items() if chair not in again}
        wanted_votes = {chair: weights.get(chair, "") for chair in found_votes}
        assert found_votes == wanted_votes, commands
        compared += len(found_votes)
    return compared


@pytest.mark.parametrize("against", ["base", "before"])
def test_scenarios_as_columns(page: Page, oracle: Oracle, record_property: Say, against: str) -> None:
    # Catches: a column with another scenario's numbers, or with what is added to another column.
    keep(page, REFORMS)
    for it in UNSHOWN:
        page.click(f"#at-{it}")
    page.click("#tab-table")
    page.choose("#columns", "scenarios")
    page.choose("#against", against)
    counted(page)
    compared = check_columns(page, oracle, list(REFORMS.values()), against == "before")
    assert compared > 700
    record_property("time", f"{compared} numbers of scenarios less {against} are the program's")
    carry_out(page, ["votes,XAB,500000"])
    check_columns(page, oracle, [*REFORMS.values(), ["votes,XAB,500000"]], against == "before")


@pytest.mark.parametrize("against", ["base", "before"])
def test_changes_as_columns(page: Page, oracle: Oracle, against: str) -> None:
    # Catches: a step that lacks the changes before it; steps of the list as it was before an edit.
    page.click("#tab-table")
    page.choose("#columns", "steps")
    page.choose("#against", against)
    assert page.text("#columns-words") == "No change is in the list yet."
    carry_out(page, HISTORY)
    counted(page)
    check_columns(page, oracle, steps_of(HISTORY), against == "before")
    page.click("#on-2")
    counted(page)
    check_columns(page, oracle, steps_of([HISTORY[0], *HISTORY[2:]]), against == "before")


def test_chairs_that_are_opened_again(page: Page, oracle: Oracle) -> None:
    # Catches: a chair that takes over the numbers of a closed one of the same number.
    carry_out(page, ["move,XAA,2", "close,1", "open,1", "move,XAD,1"])
    page.choose("#columns", "steps")
    page.click("#tab-table")
    counted(page)
    kinds = page.run(
        """return [...document.querySelectorAll('#chair-table tr[data-chair="1"]')].map(
        (row) => [row.dataset.kind, [...row.children].map((it) => it.title.split(" ")[0])]);"""
    )
    assert [kind for kind, _ in kinds] == ["closed", "opened"]
    share = shares(oracle, ["move,XAA,2", "close,1", "open,1", "move,XAD,1"], "half")[1]
    assert fraction_of(share) in kinds[1][1] and fraction_of(share) not in kinds[0][1]


def test_a_refused_change_is_a_column(page: Page) -> None:
    # Catches: a refused change that vanishes, so that the steps have other numbers than the list.
    carry_out(page, ["suspend,XAB", "move,XAB,3", "votes,XAD,1"])
    page.choose("#columns", "steps")
    page.click("#tab-change")
    counted(page)
    suspended, refused = "1 XAB Roswick is suspended", "2 XAB Roswick → chair 3 (refused)"
    assert page.run(TITLES) == [suspended, refused, "3 XAD Lomenia: 227,217 → 1"]


def test_more_changes_than_are_shown(page: Page, oracle: Oracle) -> None:
    # Catches: a list of a thousand changes that is cut without a word, or that takes minutes.
    script = text_of(oracle.script([], ["half"]).splitlines() + [f"votes,XAD,{it}" for it in range(61)])
    page.run(DROP, "many.csv", script)
    page.until(lambda: len(page.all("#changes > li")) == 61, "the changes")
    page.choose("#columns", "steps")
    words = "The list has 61 changes, and at most 60 are shown one by one"
    page.until(lambda: page.text("#columns-words").startswith(words), "why there are no steps")


def check_csv(page: Page, oracle: Oracle, wanted: dict[str, list[str]], is_chained: bool) -> int:
    """Rows of the exported table: shares and differences to the base, and to the row before where that is asked for."""
    head, table = exported_table(page)
    assert list(dict.fromkeys(it["scenario"] for it in table)) == ["base", *wanted]
    boards, compared = {"base": list[str](), **wanted}, 0
    names = list(boards)
    for row in table:
        at = names.index(row["scenario"])
        earlier = "base" if not is_chained else names[max(0, at - 1)]
        assert row.get("previous", "") == (earlier if is_chained and at else "")
        chair = int(row["chair"])
        if chair == 25:
            continue
        value = shares(oracle, boards[row["scenario"]], row["majority"])[chair]
        assert Fraction(int(row["power_share_numerator"]), int(row["power_share_denominator"])) == value
        others = {"power_share_difference": "base"}
        if is_chained and at:
            others["power_share_difference_from_previous"] = earlier
        for column, other in others.items():
            old = shares(oracle, boards[other], row["majority"]).get(chair)
            assert row[column] == ("" if old is None else rounded(value - old, 10))
            compared += 1
    assert [it for it in head.splitlines() if it.startswith("# script of scenario ")]
    return compared


@pytest.mark.parametrize("against", ["base", "before"])
def test_columns_in_csv(page: Page, oracle: Oracle, against: str) -> None:
    # Catches: a table whose rows are compared with others than the columns on the screen.
    keep(page, {name: REFORMS[name] for name in ["More votes", "A move"]})
    carry_out(page, REFORMS["A new chair"])
    page.choose("#columns", "scenarios")
    page.choose("#against", against)
    counted(page)
    wanted = {"More votes": REFORMS["More votes"], "A move": REFORMS["A move"], "changed": REFORMS["A new chair"]}
    assert check_csv(page, oracle, wanted, against == "before") > 90


def test_steps_in_csv_and_their_script(page: Page, oracle: Oracle) -> None:
    # Catches: a history that is exported without its steps, or with a hash that no script of steps has.
    commands = HISTORY[:2]
    carry_out(page, commands)
    page.choose("#columns", "steps")
    counted(page)
    head, table = exported_table(page)
    steps = ["step 1: XAD Lomenia: 227,217 → 318,104", "step 2: XAA Marenia: chair 1 → chair 2"]
    names = ["base", "changed", *steps]
    assert list(dict.fromkeys(it["scenario"] for it in table)) == names
    reads = ["publish", *(f"read,1,{it}" for it in shown_majorities(page))]
    script = oracle.script([commands[0], *reads, commands[1]], shown_majorities(page))
    assert f"# script of steps sha256 {sha256(script)}" in head


def test_copied_columns(page: Page, oracle: Oracle) -> None:
    # Catches: a copied table that has other columns than the one on the screen.
    keep(page, {"More, votes": REFORMS["More votes"]})
    page.choose("#columns", "scenarios")
    page.click("#tab-table")
    counted(page)
    heads = page.run('return [...document.querySelectorAll("#chair-table thead th")].map((it) => it.ariaLabel);')
    assert "Share of power, simple majority, More, votes" in heads
    assert "Added, points, simple majority, More, votes less base" in heads


def test_columns_for_latex(page: Page, oracle: Oracle) -> None:
    # Catches: a scenario's name that LaTeX reads as a command, or a number under another scenario.
    page.click("#tab-table")
    keep(page, {"50 % & more": REFORMS["More votes"], "A_move": REFORMS["A move"]})
    page.choose("#columns", "scenarios")
    page.choose("#against", "before")
    counted(page)
    table = tex_table(page)
    assert table.heads[1][2:9] == [
        "base (%)",
        "50 % & more (%)",
        "added, points, less base",
        "A_move (%)",
        "added, points, less 50 % & more",
        "over votes, 50 % & more",
        "over votes, A_move",
    ]
    place = table.heads[0].index("Votes")
    assert table.heads[1][place : place + 3] == ["base", "50 % & more", "A_move"]
    moved = shares(oracle, REFORMS["A move"], "half")
    place = table.heads[0].index("Share of power, simple majority") + 3
    assert table.heads[1][place] == "A_move (%)"
    assert [it[place] for it in table.rows] == [rounded(100 * moved[int(it[0])], 2) for it in table.rows]


def test_charts_of_columns(page: Page, oracle: Oracle) -> None:
    # Catches: a chart that shows one column only, or a figure without the hashes of its scenarios' scripts.
    keep(page, REFORMS)
    page.choose("#columns", "scenarios")
    counted(page)
    for tab in ["power", "change"]:
        page.click(f"#tab-{tab}")
        assert page.run(TITLES) == list(REFORMS)
        page.run('document.activeElement.blur(); document.getElementById("card-2").focus({ focusVisible: true });')
        readout = page.text("#readout")
        open_chair(page, 2)
        exact_words = " ".join(page.texts("#cards [data-place='2'] .fractions li"))
        for commands in REFORMS.values():
            share = shares(oracle, commands, "half")[2]
            assert f"{rounded(100 * share, 2)} %" in readout and f" = {fraction_of(share)} (" in exact_words
        svg = page.act("exported", "export-svg")
        assert all(f"script of scenario {it} sha256" in svg for it in REFORMS)


def test_the_order_of_scenarios(page: Page) -> None:
    # Catches: a history that can't be put in order.
    keep(page, REFORMS)
    page.choose("#columns", "scenarios")
    page.click('[aria-label="Move A new chair up"]')
    counted(page)
    page.click("#tab-change")
    assert page.run(TITLES) == ["More votes", "A new chair", "A move"]
    page.click("#undo")
    assert page.run(TITLES) == list(REFORMS)


def test_columns_are_kept_with_the_study(page: Page, tmp_path: Path) -> None:
    # Catches: a saved study that opens with other columns than it was saved with.
    opened(page, SEVEN)
    keep(page, {"More votes": ["votes,AAA,150"]})
    page.choose("#columns", "scenarios")
    page.choose("#against", "before")
    page.click("#export")
    name, content = page.downloaded("#export-beside")
    reopened(page, name, content, tmp_path)
    assert page.at("#columns").get_property("value") == "scenarios"
    assert page.at("#against").get_property("value") == "before"


def test_columns_on_a_phone_by_keyboard(page: Page) -> None:
    # Catches: choices that no keyboard reaches, or a table that is wider than a phone's screen without scrolling.
    keep(page, REFORMS)
    page.show(NARROW, 844)
    page.click("#display summary")
    page.run('document.getElementById("columns").focus();')
    page.press(Keys.END)
    page.until(lambda: page.all("#against"), "the choice of what each column is compared with")
    counted(page)
    for tab in ["power", "change", "table"]:
        page.click(f"#tab-{tab}")
        assert page.run("return document.documentElement.scrollWidth <= innerWidth;"), tab


def posted(page: Page, votes: int) -> int:
    """The messages that an edit posts to workers, until all is counted."""
    page.run("window.posted = [0, 0];")
    assert page.act("votes", "XAD", str(votes))
    counted(page)
    return int(page.run("return window.posted[0];"))


def test_an_edit_beside_eight_scenarios(page: Page) -> None:
    # Catches: scenarios that are all counted again at each edit.
    for it in UNSHOWN:
        page.click(f"#at-{it}")
    page.run(POSTED)
    alone = posted(page, 300_000)
    remove_all(page)
    keep(page, {f"Reform {it}": [f"votes,XA{letter},{it}00000"] for it, letter in enumerate("ABCDEFGH", 1)})
    page.choose("#columns", "scenarios")
    page.until(lambda: len(page.run(TITLES)) == 8, "all scenarios")
    assert posted(page, 310_000) == alone > 0
