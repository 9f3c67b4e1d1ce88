"""Operations on chairs: each is one line in the list of changes and several commands in the script, all of them or
none, and the page's figures are those that the program prints for these commands."""
from __future__ import annotations

from pathlib import Path

import pytest
from chromium import Page
from figures import check_figures, shown_majorities
from member_tables import register_of
from operations import Walk, commands_of
from oracle import Oracle
from selenium.webdriver.common.keys import Keys
from test_hands import Finger, changes, finger, focus, live, middle, says
from test_random import TEXTS, table_of

# The fewest numbers that are compared of one list of changes.
FEWEST = 180
MOST_STOPS = 400
__all__ = ["finger"]


def state(page: Page) -> list[str]:
    """The outcomes of the changes in the list."""
    return [str(it.get_attribute("data-state")) for it in page.all("#changes > li")]


def bare(table: str, opened: set[str]) -> list[dict[str, str]]:
    """The rows of a table without names of chairs, which board-study makes in another way, and without the gains of
    chairs that were opened: board-study compares one that was closed and opened again with itself."""
    rows = table_of(table)
    for row in rows:
        gains = [it for it in row if it.endswith("_difference")] if row["chair"] in opened else []
        row |= dict.fromkeys(["name", *gains], "")
    return rows


def check(page: Page, oracle: Oracle, commands: list[str]) -> int:
    """The exported script has these commands one after the other, and with the page's figures it has the program's
    numbers: how many were compared."""
    script, lines = page.wait_for(TEXTS)
    assert script == page.act("exported", "export-script") == oracle.script(commands, shown_majorities(page))
    assert lines.encode() == oracle.lines(script.encode())
    accepted = [command for command, line in zip(commands, oracle.answers(commands)) if line.startswith("accepted")]
    wanted = oracle.study({"changed": accepted} if commands else {}, shown_majorities(page))
    opened = {it.removeprefix("open,") for it in accepted if it.startswith("open,")}
    rows = bare(page.act("exported", "export-csv"), opened)
    assert rows == bare(wanted, opened)
    many = sum(text.lstrip("+-").replace(".", "").isdigit() for row in rows for text in row.values())
    return many + check_figures(page, oracle, commands)


def expected(oracle: Oracle, *operations: str) -> list[str]:
    """The commands of operations on the example."""
    walk = Walk()
    for it in operations:
        walk.take(it.split(","))
    return walk.expanded(oracle)[0]


def tab_to(page: Page, place: str) -> None:
    """Presses Tab until an element has the focus."""
    for _ in range(MOST_STOPS):
        if focus(page) == place:
            return
        page.driver.switch_to.active_element.send_keys(Keys.TAB)
    raise AssertionError(f"Tab doesn't reach {place}")


# Each operation, by mouse.


def test_merge_by_mouse(page: Page, oracle: Oracle) -> None:
    # Catches: a member that stays behind, a chair that stays open, a change for each member, a focus that is lost.
    page.click("#card-10")
    page.click("#merge-10")
    page.choose("#merge-to", "5")
    page.click("#merge-take")
    commands = expected(oracle, "merge,10,5")
    assert len(commands) == 11 and commands[-1] == "close,10"
    words = "Chair 10 is merged into chair 5 (10 members: XAP Galenia, XBC Ostwick, XBW Elsenia and 7 more)"
    says(page, f"{words}.")
    assert changes(page) == [words] and focus(page) == "card-5" and not page.all('[data-place="10"]')
    assert check(page, oracle, commands) >= FEWEST
    page.click("#undo")
    check_figures(page, oracle, [])


def test_split_by_mouse(page: Page, oracle: Oracle) -> None:
    # Catches: a chair that isn't opened first, members that aren't ticked and move, a split of nobody.
    page.click("#card-7")
    page.click("#split-7")
    page.click("#split-take")
    assert page.text("#split-wrong") == "No member is ticked yet: tick at least one." and not changes(page)
    codes = [it.code for it in oracle.table.members if it.chair == 7]
    page.at("#split-filter").send_keys(codes[2])
    page.click("#split-all")
    page.at("#split-filter").clear()
    page.at("#split-filter").send_keys("7")
    page.click(f"#split-tick-{codes[1]}")
    assert page.text("#split-words") == f"2 of {len(codes)} are ticked."
    page.choose("#split-to", "31")
    page.click("#split-take")
    commands = ["open,31", f"move,{codes[1]},31", f"move,{codes[2]},31"]
    assert changes(page)[0].startswith("Chair 7 is split: ") and changes(page)[0].endswith(" → new chair 31")
    assert check(page, oracle, commands) >= FEWEST


@pytest.mark.parametrize(("percent", "shown"), [("+12.5", "+12.5 %"), ("−3,5 %", "-3.5 %")])
def test_votes_of_a_chair(page: Page, oracle: Oracle, percent: str, shown: str) -> None:
    # Catches: the chair's sum that is rounded, one member that keeps its votes, per cent as people type it.
    page.click("#card-10")
    page.click("#scale-10")
    page.write("#scale-percent", percent)
    number = shown.replace(" ", "")
    commands = expected(oracle, f"scale,10,{number}")
    assert len(commands) == 10 and changes(page)[0].startswith(f"Each member of chair 10: votes {shown} (XAP Galenia")
    assert check(page, oracle, commands) >= FEWEST
    assert page.run("return document.querySelector('#words-1').title.split('; ').length;") == 10


def test_per_cent_that_is_none(page: Page) -> None:
    # Catches: 10 that is taken as plus 10, or a dialog that closes on a text that means nothing.
    page.click("#card-10")
    page.click("#scale-10")
    for text in ["10", "", "+x"]:
        page.write("#scale-percent", text)
        assert page.text("#scale-percent-wrong") and not changes(page)


@pytest.mark.parametrize("target", ["none", "24"])
def test_dissolve_by_mouse(page: Page, oracle: Oracle, target: str) -> None:
    # Catches: members in no chair that still count among the votes cast, or that are withdrawn.
    page.click("#card-3")
    page.click("#dissolve-3")
    where = "to the chosen chair, or to no chair, where no vote is cast, and chair 3 is closed."
    assert page.texts("#dissolve p")[0].startswith("Its ") and where in page.texts("#dissolve p")[0]
    page.choose("#dissolve-to", target)
    page.click("#dissolve-take")
    commands = expected(oracle, f"dissolve,3,{target}")
    where = "no chair" if target == "none" else "chair 24"
    assert changes(page)[0].startswith(f"Chair 3 is dissolved, and its members go to {where} (")
    assert check(page, oracle, commands) >= FEWEST
    assert focus(page) == f"card-{target}"


def test_several_members(page: Page, oracle: Oracle) -> None:
    # Catches: ticks of members that the filter hides and that are lost; a slider that changes the first member alone.
    page.click("#group-open")
    filter_field = page.at("#group-filter")
    filter_field.send_keys("chair 10")
    page.click("#group-all")
    filter_field.send_keys(Keys.CONTROL, "a", Keys.NULL, "XAA")
    page.click("#group-tick-XAA")
    assert page.text("#group-words") == "11 of 190 are ticked."
    page.at("#group-percent").send_keys("-10")
    page.click("#group-percent-take")
    codes = ["XAA", *(it.code for it in oracle.table.members if it.chair == 10)]
    commands = expected(oracle, f"scale,{'+'.join(codes)},-10%")
    assert check(page, oracle, commands) >= FEWEST
    page.run(
        """
      const range = document.getElementById("slide-1");
      range.value = 25;
      range.dispatchEvent(new Event("input", { bubbles: true }));"""
    )
    page.settle()
    assert changes(page)[0].startswith("11 members: votes +25 % (XAA Marenia 921,417 → 1,151,771, ")
    check_figures(page, oracle, expected(oracle, f"scale,{'+'.join(codes)},+25%"))
    page.write("#number-1", "1.5")
    check_figures(page, oracle, expected(oracle, f"scale,{'+'.join(codes)},+1.5%"))


# Without a mouse.


def test_operations_by_keyboard(page: Page, oracle: Oracle) -> None:
    # Catches: a dialog, a tick or a button that no key reaches; a focus that starts at the top after each operation.
    page.run('document.getElementById("card-10").focus();')
    page.press(Keys.ENTER)
    tab_to(page, "merge-10")
    page.press(Keys.ENTER)
    tab_to(page, "merge-to")
    page.press("5")
    tab_to(page, "merge-take")
    page.press(Keys.ENTER)
    page.until(lambda: focus(page) == "card-5", "the chair with the members")
    tab_to(page, "split-5")
    page.press(Keys.ENTER)
    for code in ["XAE", "XAP"]:
        tab_to(page, f"split-tick-{code}")
        page.press(Keys.SPACE)
    tab_to(page, "split-take")
    page.press(Keys.ENTER)
    says(page, "Chair 5 is split: XAE Marwick and XAP Galenia → new chair 10.")
    assert focus(page) == "split-5"
    tab_to(page, "scale-5")
    page.press(Keys.ENTER)
    tab_to(page, "scale-percent")
    page.press("+7", Keys.ENTER)
    tab_to(page, "dissolve-5")
    page.press(Keys.ENTER)
    page.press(Keys.ESCAPE)
    assert focus(page) == "dissolve-5"
    operations = ["merge,10,5", "split,lowest,XAE+XAP", "scale,5,+7%"]
    assert check(page, oracle, expected(oracle, *operations)) >= FEWEST and len(changes(page)) == 3


def tap(page: Page, hand: Finger, place: str) -> None:
    """Taps on an element, which is scrolled into view."""
    page.run('arguments[0].scrollIntoView({ block: "center" });', page.at(place))
    hand.down(middle(page, place))
    hand.up()


def test_operations_by_finger(page: Page, oracle: Oracle, finger: Finger) -> None:
    # Catches: a dialog that is wider than a phone, or that the sheet of the chairs covers.
    tap(page, finger, "#card-10")
    tap(page, finger, "#split-10")
    page.until(lambda: page.all("#split"), "the dialog")
    for code in ["XAP", "XBW"]:
        tap(page, finger, f"#split-tick-{code}")
    assert page.text("#split-words") == "2 of 10 are ticked." and not page.look("wide", 390)
    tap(page, finger, "#split-take")
    says(page, "Chair 10 is split: XAP Galenia and XBW Elsenia → new chair 25.")
    tap(page, finger, "#add summary")
    tap(page, finger, "#group-open")
    page.until(lambda: page.all("#group"), "the dialog")
    for code in ["XAA", "XAB"]:
        tap(page, finger, f"#group-tick-{code}")
    page.at("#group-percent").send_keys("+4")
    tap(page, finger, "#group-percent-take")
    page.settle()
    assert check(page, oracle, expected(oracle, "split,lowest,XAP+XBW", "scale,XAA+XAB,+4%")) >= FEWEST


# All of it, or nothing.


def test_refused_as_a_whole(page: Page, oracle: Oracle) -> None:
    # Catches: members before the suspended one that have moved, commands of it in the script, a line without a member.
    assert page.act("suspend", "XBW")
    page.click("#card-10")
    page.click("#merge-10")
    warning = "XBW Elsenia is suspended. Suspended members can't be moved, so the register will refuse the move"
    assert page.text("#merge .wrong").startswith(warning)
    page.choose("#merge-to", "5")
    page.click("#merge-take")
    assert state(page) == ["accepted", "refused"]
    refusal = "XBW Elsenia: refused 5 MemberSuspended: the member's voting rights are suspended (move,XBW,5); "
    assert page.text("#changes .refusal:not([hidden])") == f"{refusal}nothing of the operation was carried out"
    said = f"Not carried out: Chair 10 is merged into chair 5: {refusal}nothing of the operation was carried out."
    assert live(page) == said and page.all('[data-place="10"]')
    check(page, oracle, ["suspend,XBW"])
    page.click("#on-1")
    assert state(page) == ["off", "accepted"]
    assert check(page, oracle, expected(oracle, "merge,10,5")) >= FEWEST
    page.click("#split-5")
    assert not page.text("#split-suspended")
    page.press(Keys.ESCAPE)


def test_a_ticked_member_that_is_suspended(page: Page) -> None:
    # Catches: a warning about a member that isn't ticked, or none about one that is.
    assert page.act("suspend", "XBW")
    page.click("#card-10")
    page.click("#split-10")
    assert not page.text("#split-suspended")
    page.click("#split-tick-XBW")
    assert page.text("#split-suspended").startswith("XBW Elsenia is suspended.")
    page.click("#split-tick-XBW")
    assert not page.text("#split-suspended")


def test_a_full_board(page: Page, oracle: Oracle) -> None:
    # Catches: a dialog that offers a chair 33.
    for _ in range(8):
        assert page.act("open")
    page.click("#card-10")
    page.click("#split-10")
    assert "All 32 chairs are open: close one first." in page.text("#split") and not page.all("#split-to")
    page.press(Keys.ESCAPE)
    assert page.act("merge", "10", "5") and page.act("split", "lowest", "XAE")
    opened = [f"open,{chair}" for chair in range(25, 33)]
    moved = commands_of(register_of(oracle.table), "merge,10,5")
    check_figures(page, oracle, [*opened, *moved, "open,10", "move,XAE,10"])


# The list, scenarios and files.


def test_operations_in_the_list(page: Page, oracle: Oracle) -> None:
    # Catches: an operation on the members of an earlier list; half of one that is undone; a name of a closed chair.
    for act in [["move", "XAA", "10"], ["merge", "10", "5"], ["scale", "5", "+10%"]]:
        assert page.act(*act)
    moved = "move,XAA,10"
    check_figures(page, oracle, expected(oracle, moved, "merge,10,5", "scale,5,+10%"))
    assert page.act("earlier", "1")
    assert state(page) == ["accepted", "refused", "accepted"]
    check_figures(page, oracle, expected(oracle, "merge,10,5", moved, "scale,5,+10%"))
    assert page.act("undo") and page.act("switch", "0")
    check_figures(page, oracle, expected(oracle, "merge,10,5", "scale,5,+10%"))
    assert page.act("switch", "1")
    check_figures(page, oracle, expected(oracle, "scale,5,+10%"))
    for _ in range(5):
        assert page.act("undo")
    assert not changes(page) and not page.at("#undo").is_enabled()


def test_operations_are_kept(page: Page, oracle: Oracle, tmp_path: Path) -> None:
    # Catches: a saved study or a scenario that has the commands of an operation and not the operation, or loses it.
    acts = [["merge", "10", "5"], ["split", "lowest", "XAE+XAP"], ["scale", "5", "-2.5%"], ["scale", "XAA+XAB", "+1%"]]
    for act in [*acts, ["dissolve", "2", "none"]]:
        assert page.act(*act)
    page.write("#scenario-name", "Few")
    page.click("#clear-changes")
    page.click('[aria-label="Show Few"]')
    commands = expected(oracle, *(",".join(it) for it in acts), "dissolve,2,none")
    check_figures(page, oracle, commands)
    words = changes(page)
    name, content = page.downloaded("#save-study")
    (tmp_path / name).write_bytes(content)
    page.open()
    page.at("#file").send_keys(str(tmp_path / name))
    page.until(lambda: changes(page) == words, "the study")
    page.settle()
    assert page.all('#scenarios tr[data-scenario="Few"]')
    assert check_figures(page, oracle, commands) >= FEWEST
    assert page.act("move", "XBC", "none") and page.act("earlier", "5")
    check_figures(page, oracle, [*commands[: -len(seats(oracle, 2)) - 1], "move,XBC,none", *commands[-2:]])


def seats(oracle: Oracle, chair: int) -> list[str]:
    return [it.code for it in oracle.table.members if it.chair == chair]
