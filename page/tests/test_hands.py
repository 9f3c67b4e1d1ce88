"""Hands on the page: mouse, finger, keyboard, fields, paper, and leaving."""
from __future__ import annotations

import base64
import json
import subprocess
import time
from collections.abc import Iterator
from pathlib import Path
from typing import Any

import pytest
from chromium import ACTS, NARROW, SECONDS, Page
from conftest import BUILT
from figures import check_figures, open_chair, open_menu
from firefox import Firefox, firefox
from oracle import MAJORITIES, UNSHOWN, Oracle
from selenium.webdriver.common.action_chains import ActionChains
from selenium.webdriver.common.keys import Keys
from test_exports import DROP
from test_tables import take

# Longer than a finger rests before its touch is a drag.
HELD = 0.6
HEADS = 'return [...document.querySelectorAll(".card-title")].map((it) => it.textContent);'
MIDDLE = """
  const {left, top, width, height} = arguments[0].getBoundingClientRect();
  return [left + width / 2, top + height / 2];"""


def mouse(page: Page) -> Any:
    chain: Any = ActionChains
    return chain(page.driver, duration=50)


def send_mouse(page: Page, kind: str, at: tuple[float, float]) -> None:
    """Sends an event of a mouse whose button is held, at a point of the window."""
    event = {"type": kind, "x": at[0], "y": at[1], "button": "left", "buttons": 1, "clickCount": 1}
    page.driver.execute_cdp_cmd("Input.dispatchMouseEvent", event)


def middle(page: Page, place: str) -> tuple[int, int]:
    """The middle of an element in the window."""
    x, y = page.run(MIDDLE, page.at(place))
    return round(x), round(y)


def live(page: Page) -> str:
    """What a screen reader heard last, once the count has ended."""
    page.settle()
    return str(page.run('return document.getElementById("live").textContent;'))


def says(page: Page, words: str) -> None:
    """A screen reader hears a sentence."""
    page.until(lambda: live(page) == words, f"{words!r}, not {live(page)!r}")


def focus(page: Page) -> str:
    return str(page.run("return document.activeElement.id;"))


def changes(page: Page) -> list[str]:
    return page.texts("#changes .change-words")


def head(card: str) -> str:
    return f'.card[data-place="{card}"] .card-head'


# The mouse.


def test_a_drop_on_its_own_chair(page: Page) -> None:
    # Catches: a red row for a member that is dropped where it was, or a menu that opens after a drag.
    page.click("#card-1")
    chip = page.at("#chip-XAA")
    mouse(page).click_and_hold(chip).move_by_offset(20, 0).move_by_offset(-20, 0).release().perform()
    says(page, "XAA Marenia stays in chair 1 Harbours.")
    assert not page.all("dialog") and not page.all("#changes > li") and not page.at("#undo").is_enabled()


def test_escape_leaves_a_drag(page: Page) -> None:
    # Catches: a drag that can't be given up; a menu or a move when the button is released after Escape.
    page.click("#card-1")
    mouse(page).click_and_hold(page.at("#chip-XAA")).move_to_element(page.at(head("2"))).perform()
    assert page.all(".ghost") and page.all(".card.aimed")
    mouse(page).send_keys(Keys.ESCAPE).perform()
    assert not page.all(".ghost") and not page.all(".card.aimed")
    mouse(page).release().perform()
    says(page, "XAA Marenia stays where it was.")
    mouse(page).click_and_hold(page.at("#chip-XAA")).move_by_offset(9, 0).send_keys(Keys.ESCAPE).release().perform()
    assert not page.all("dialog") and not page.all("#changes > li")
    page.click("#chip-XAA")
    assert page.all("#member")


def test_the_window_scrolls_at_its_edge(page: Page, oracle: Oracle) -> None:
    # Catches: a chair below the window's edge that no drag can reach.
    page.show(height=500)
    page.click("#card-1")
    x, y = middle(page, "#chip-XAA")
    assert middle(page, head("20"))[1] > 500
    send_mouse(page, "mousePressed", (x, y))
    for at in [(x, y + 20), (x, 495)]:
        send_mouse(page, "mouseMoved", at)
    page.until(lambda: middle(page, head("20"))[1] < 400, "chair 20 in the window")
    for at in [(x, 250), middle(page, head("20"))]:
        send_mouse(page, "mouseMoved", at)
    send_mouse(page, "mouseReleased", middle(page, head("20")))
    page.settle()
    check_figures(page, oracle, ["move,XAA,20"])


def test_what_is_said_of_a_drop(page: Page) -> None:
    # Catches: "XAA is moved" to people who don't see that the register refused it.
    page.click("#sort-number")
    page.click("#card-1")
    page.click("#card-2")
    assert page.act("suspend", "XAB")
    refused = "refused 5 MemberSuspended: the member's voting rights are suspended (move,XAB,3)"
    refusal = f"XAB Roswick isn't moved: {refused}."
    for code, words in [("XAB", refusal), ("XAA", "XAA Marenia is moved to chair 3 Plains.")]:
        mouse(page).drag_and_drop(page.at(f"#chip-{code}"), page.at(head("3"))).perform()
        says(page, words)
        page.click("#undo")
    for code, steps, words in [
        ("XAB", 1, refusal),
        ("XAA", 1, "XAA Marenia is moved to chair 2 Hills."),
        ("XAA", 0, "XAA Marenia stays in chair 2 Hills."),
    ]:
        page.run(f'document.getElementById("chip-{code}").focus();')
        for key in [Keys.SPACE, *[Keys.ARROW_DOWN] * steps, Keys.ENTER]:
            page.press(key)
        says(page, words)
    assert len(changes(page)) == 3


# A finger.


class Finger:
    """A finger on a screen that has no mouse."""

    def __init__(self, page: Page):
        self.page = page

    def send(self, kind: str, *points: tuple[float, float]) -> None:
        at = [{"x": x, "y": y} for x, y in points]
        self.page.driver.execute_cdp_cmd("Input.dispatchTouchEvent", {"type": kind, "touchPoints": at})

    def down(self, at: tuple[float, float]) -> None:
        self.send("touchStart", at)

    def glide(self, start: tuple[float, float], end: tuple[float, float], steps: int = 10) -> None:
        (left, top), (right, bottom) = start, end
        for part in (step / steps for step in range(1, steps + 1)):
            self.send("touchMove", (left + (right - left) * part, top + (bottom - top) * part))
            time.sleep(0.02)

    def up(self) -> None:
        self.send("touchEnd")
        self.page.settle()


@pytest.fixture
def finger(page: Page) -> Iterator[Finger]:
    """A phone with the first chair open."""
    page.driver.execute_cdp_cmd("Emulation.setTouchEmulationEnabled", {"enabled": True, "maxTouchPoints": 1})
    page.open()
    page.show(NARROW, 844)
    page.click("#card-1")
    page.run('document.getElementById("card-1").scrollIntoView();')
    yield Finger(page)
    page.driver.execute_cdp_cmd("Emulation.setTouchEmulationEnabled", {"enabled": False})


def test_drag_by_finger(page: Page, oracle: Oracle, finger: Finger) -> None:
    # Catches: a phone on which nothing can be dragged; a menu that opens after the drag.
    start, end = middle(page, "#chip-XAA"), middle(page, head("3"))
    finger.down(start)
    time.sleep(HELD)
    finger.glide(start, end)
    assert [it.get_attribute("data-place") for it in page.all(".card.aimed")] == ["3"]
    finger.up()
    says(page, "XAA Marenia is moved to chair 3 Plains.")
    assert not page.all("dialog")
    check_figures(page, oracle, ["move,XAA,3"])


def test_finger_that_moves_aside(page: Page, finger: Finger) -> None:
    # Catches: a drag that only starts for people who know that they must wait.
    start, end = middle(page, "#chip-XAA"), middle(page, head("2"))
    finger.down(start)
    finger.glide(start, (start[0] + 60, start[1]), 5)
    finger.glide((start[0] + 60, start[1]), end)
    finger.up()
    says(page, "XAA Marenia is moved to chair 2 Hills.")


def test_finger_that_scrolls(page: Page, finger: Finger) -> None:
    # Catches: a list that can't be scrolled by a finger that happens to begin on a member.
    start = middle(page, "#chip-XAA")
    scrolled = "return scrollY;"
    begun = page.run(scrolled)
    finger.down(start)
    finger.glide(start, (start[0], start[1] - 200))
    finger.up()
    page.until(lambda: page.run(scrolled) > begun + 100, "a list that is scrolled")
    assert not page.all("#changes > li") and not page.all("dialog") and not page.all(".ghost")


def test_finger_that_taps(page: Page, finger: Finger) -> None:
    # Catches: a tap that is taken for a drag.
    finger.down(middle(page, "#chip-XAA"))
    finger.up()
    page.until(lambda: page.all("#member"), "the menu")


def test_touch_that_is_taken_away(page: Page, finger: Finger) -> None:
    # Catches: a member that is dropped, or carried for ever, when the system takes the touch for itself.
    start = middle(page, "#chip-XAA")
    finger.down(start)
    time.sleep(HELD)
    finger.glide(start, middle(page, head("2")))
    finger.send("touchCancel")
    says(page, "XAA Marenia stays where it was.")
    assert not page.all(".ghost") and not page.all(".card.aimed") and not page.all("#changes > li")


def test_the_phone_scrolls_at_its_edge(page: Page, oracle: Oracle, finger: Finger) -> None:
    # Catches: a chair below the screen's edge, or under the bar there, that no finger can reach.
    start = middle(page, "#chip-XAA")
    bottom = page.run('return document.querySelector(".sheets").getBoundingClientRect().top;')
    assert middle(page, head("22"))[1] > bottom
    finger.down(start)
    time.sleep(HELD)
    finger.glide(start, (start[0], bottom - 4))
    page.until(lambda: middle(page, head("22"))[1] < bottom - 60, "chair 22 on the screen")
    rest = (start[0], bottom - 200)
    finger.glide((start[0], bottom - 4), rest, 3)
    finger.glide(rest, middle(page, head("22")), 3)
    finger.up()
    check_figures(page, oracle, ["move,XAA,22"])


def test_a_phone(page: Page, finger: Finger) -> None:
    # Catches: sentences above the chart; targets too small for a finger; something wider than the screen.
    assert page.act("votes", "XAD", "+40%") and page.act("move", "XAA", "2")
    small = """
      const all = [...document.querySelectorAll("button, select, input, summary")];
      const target = (it) => (/checkbox|radio/.test(it.type) ? it.closest("label") : it);
      const seen = all.filter((it) => it.checkVisibility()).map(target);
      return seen.filter((it) => it.getBoundingClientRect().height < 40).map((it) => it.outerHTML);"""
    for place in ["#chip-XAA", "#name-2", "#admit-open", "#merge-2", "#split-2", "#scale-2", "#group-open"]:
        page.run("document.querySelector(arguments[0]).scrollIntoView({ block: 'center' });", place)
        page.click(place)
        assert not page.run(small) and not page.look("wide", NARROW), place
        page.click(".close")
    page.click('.sheets [data-sheet="right"]')
    assert not page.run(small) and not page.look("wide", NARROW)
    page.press(Keys.ESCAPE)
    assert not page.all("#right.open")
    assert focus(page) == "" and page.run("return document.activeElement.dataset.sheet;") == "right"
    order = [middle(page, it)[1] for it in ["#tabs", "#choose", ".said.main", "#cards", ".said:not(.main)"]]
    assert order == sorted(order)


# The keyboard.


def test_keys_of_undo(page: Page) -> None:
    # Catches: Ctrl+Z that is dead while a tick box, a slider or a button has the focus; Ctrl+Y that is nobody's.
    assert page.act("votes", "XAD", "300000") and page.act("votes", "XAD", "310000")
    for place in ["#at-half", "#slide-1", "#tab-power", "#measure"]:
        page.run("document.querySelector(arguments[0]).focus();", place)
        page.press(Keys.CONTROL, "z")
        assert len(changes(page)) == 1, place
        page.press(Keys.CONTROL, "y")
        assert len(changes(page)) == 2, place
        page.press(Keys.CONTROL, "z")
        page.press(Keys.CONTROL, Keys.SHIFT, "z")
        assert len(changes(page)) == 2, place
    page.at("#filter").send_keys("Lom", Keys.CONTROL, "z")
    page.settle()
    assert len(changes(page)) == 2 and page.at("#filter").get_property("value") != "Lom"


def test_save_by_key(page: Page) -> None:
    # Catches: Ctrl+S that saves the page without the study, or a saved study that the page asks about.
    assert page.act("votes", "XAD", "300000") and asks(page)
    for file in page.downloads.iterdir():
        file.unlink()
    page.run('document.getElementById("at-half").focus();')
    page.press(Keys.CONTROL, "s")
    page.until(lambda: [it for it in page.downloads.iterdir() if it.suffix != ".crdownload"], "a saved study")
    page.until(lambda: not asks(page), "a page that can be left")


def asks(page: Page) -> bool:
    """Whether the page asks before it is left."""
    return bool(page.run('return !dispatchEvent(new Event("beforeunload", { cancelable: true }));'))


def test_leaving(page: Page) -> None:
    # Catches: F5 that drops an afternoon's work; a question where there is nothing to lose.
    assert not asks(page)
    assert page.act("move", "XAA", "2") and asks(page)
    page.click("#undo")
    assert not asks(page)
    page.click("#redo")
    assert asks(page)
    name, _ = page.downloaded("#save-study")
    page.until(lambda: not asks(page), f"a page that can be left after {name}")
    assert page.act("suspend", "XAA") and asks(page)


def test_focus_after_removals(page: Page) -> None:
    # Catches: a focus that falls back to the page's start whenever a change is removed, moved or undone.
    for votes in ["300000", "310000", "320000"]:
        assert page.act("votes", "XAD", votes)
    removals = [("#remove-3", "remove-1"), ("#remove-1", "changes-title")]
    for press, then in [("#down-1", "down-1"), ("#down-1", "up-1"), *removals]:
        page.run("document.querySelector(arguments[0]).focus();", press)
        page.press(Keys.ENTER)
        assert focus(page) == then, press
    page.run('document.getElementById("remove-2").focus();')
    page.press(Keys.CONTROL, "z")
    assert focus(page) == "remove-2"
    page.run('document.getElementById("clear-changes").focus();')
    page.press(Keys.ENTER)
    assert focus(page) == "changes-title" and not page.all("#changes > li")


def test_focus_after_undo(page: Page) -> None:
    # Catches: Undo that loses the focus once there is nothing more to undo.
    assert page.act("move", "XAA", "2")
    page.run('document.getElementById("undo").focus();')
    page.press(Keys.ENTER)
    assert focus(page) == "redo"
    page.press(Keys.ENTER)
    assert focus(page) == "undo"
    page.run('document.getElementById("chip-XAA").focus();')
    page.press(Keys.ENTER)
    page.press(Keys.ESCAPE)
    assert focus(page) == "chip-XAA"
    page.press(Keys.ENTER)
    page.click("#suspend")
    assert focus(page) == "chip-XAA"


def test_focus_when_a_card_goes(page: Page) -> None:
    # Catches: a focus that is lost with a chair that is closed, or with a member that withdraws.
    page.click("#open-new")
    open_chair(page, 25)
    page.run('document.getElementById("close-25").focus();')
    page.press(Keys.ENTER)
    assert focus(page) == "filter" and not page.all("#card-25")
    open_menu(page, "XHH")
    page.click("#withdraw")
    assert focus(page) == "filter" and not page.all("#chip-XHH")


def test_escape_closes_a_note(page: Page) -> None:
    # Catches: a note over the page that stays for its twelve seconds.
    page.click("#summary span")
    assert page.all("#note")
    page.press(Keys.ESCAPE)
    assert not page.all("#note")


# The filter.


def shown(page: Page) -> list[str]:
    return [str(it.get_attribute("data-code")) for it in page.all(".chip")]


COUNTRIES = """code,name,votes,chair,chair_name
TUR,Türkiye,40,1,Ms. Øster
POL,Łódź,26,1,
DEU,Große Ægir,15,12,Mr. Ünal
ISK,Işık,9,2,
"""


def load(page: Page, text: str, name: str) -> None:
    """Reads a dropped table."""
    page.run(DROP, f"{name}.csv", text)
    take(page, name)


@pytest.mark.parametrize(
    ("text", "codes"),
    [
        ("Turkiye", ["TUR"]),
        ("lodz", ["POL"]),
        ("GROSSE AEGIR", ["DEU"]),
        ("isik", ["ISK"]),
        ("tur", ["TUR"]),
        ("1", ["TUR", "POL"]),
        ("chair 12", ["DEU"]),
        ("oster", ["TUR", "POL"]),
        ("unal", ["DEU"]),
        ("xyz", []),
    ],
)
def test_filter(page: Page, text: str, codes: list[str]) -> None:
    # Catches: Turkiye that doesn't find Türkiye, a Director who isn't found, chair 1 that finds chair 12.
    load(page, COUNTRIES, "countries")
    page.write("#filter", text)
    assert shown(page) == codes
    assert len(page.all(".card")) == 5 and (page.text("#filter-words") == "") == bool(codes)


def test_filter_of_an_empty_chair(page: Page) -> None:
    # Catches: "no chair has this number" of a chair that is there and empty.
    page.click("#open-new")
    page.write("#filter", "25")
    assert page.run(HEADS)[0] == "25 chair 25 (new)" and page.text("#filter-words") == ""
    page.click("#close-25")
    assert page.text("#filter-words") == "No member and no open chair has this code, name or number."


def test_move_under_a_filter(page: Page, oracle: Oracle) -> None:
    # Catches: a filter that hides the chairs where its member could go.
    page.write("#filter", "XAD")
    assert page.run(HEADS)[0] == "4 Lakes" and len(page.all(".card.line")) == len(page.all(".card")) - 1
    mouse(page).drag_and_drop(page.at("#chip-XAD"), page.at(head("2"))).perform()
    page.settle()
    assert page.run(HEADS)[0] == "2 Hills" and shown(page) == ["XAD"] and len(page.all(".card")) == 26
    check_figures(page, oracle, ["move,XAD,2"])


# Fields.


@pytest.mark.parametrize(
    ("field", "text", "command"),
    [
        ("number", "419,166", "votes,XAD,419166"),
        ("number", "419 166", "votes,XAD,419166"),
        ("number", "419\u202f166", "votes,XAD,419166"),
        ("number", "419'166", "votes,XAD,419166"),
        # 227,217 votes: 112.5 per cent of them are 255,619.125, and 87.5 per cent 198,814.875.
        ("own", "+12,5", "votes,XAD,255619"),
        ("own", "\u221212,5 %", "votes,XAD,198815"),
    ],
)
def test_numbers_that_are_taken(page: Page, oracle: Oracle, field: str, text: str, command: str) -> None:
    # Catches: a number that its reader writes every day, and that the page refuses.
    open_menu(page, "XAD")
    page.write(f"#votes-{field}", text)
    check_figures(page, oracle, [command])


@pytest.mark.parametrize(
    ("field", "text", "words"),
    [
        ("number", "12,5", "“12,5” has decimals: write a whole number, such as 12."),
        ("number", "", "There is no number yet: write a whole number, such as 419,166."),
        ("number", "1099511627777", "“1099511627777” is above the limit of 1,099,511,627,776."),
        ("total", "12,500", "“12,500” has two meanings: write 12.5 or 12500."),
        ("own", "40", "“40” has no sign: write +40 to add per cent, or -40 to take them away."),
    ],
)
def test_numbers_that_are_refused(page: Page, field: str, text: str, words: str) -> None:
    # Catches: a field that does nothing and says nothing.
    open_menu(page, "XAD")
    page.at(f"#votes-{field}").send_keys(text, Keys.ENTER)
    assert page.text(f"#votes-{field}-wrong") == words and not page.all("#changes > li")
    assert page.at(f"#votes-{field}").get_attribute("aria-invalid") == "true" and focus(page) == f"votes-{field}"
    page.at(f"#votes-{field}").send_keys("1")
    assert page.text(f"#votes-{field}-wrong") == ""


def test_box_of_a_change(page: Page, oracle: Oracle) -> None:
    # Catches: "12,5" in the box of a percentage, which is neither taken nor refused.
    assert page.act("votes", "XAD", "+40%")
    assert page.at("#number-1").get_property("value") == "+40"
    page.write("#number-1", "12,5 %")
    check_figures(page, oracle, ["votes,XAD,255619"])
    page.write("#number-1", "12,500")
    assert page.text("#number-1-wrong") == "“12,500” has two meanings: write 12.5 or 12500."
    assert page.at("#number-1").get_property("value") == "12,500"
    check_figures(page, oracle, ["votes,XAD,255619"])
    page.press(Keys.TAB)
    assert focus(page) != "number-1" and page.text("#number-1-wrong")
    page.write("#number-1", "-12,5")
    assert page.text("#number-1-wrong") == ""
    check_figures(page, oracle, ["votes,XAD,198815"])
    page.write("#number-1", "x")
    page.click("#undo")
    assert page.text("#number-1-wrong") == "" and page.at("#number-1").get_property("value") == "+12.5"


def test_admission(page: Page, oracle: Oracle) -> None:
    # Catches: an admission that is refused by a field without a word for each that is wrong.
    page.click("#admit-open")
    page.at("#admit-code").send_keys("za")
    page.at("#admit-votes").send_keys("1,5", Keys.ENTER)
    assert page.text("#admit-code-wrong") == "“za” isn't a code: write three capitals, A to Z."
    assert page.text("#admit-votes-wrong") == "“1,5” has decimals: write a whole number, such as 1."
    assert focus(page) == "admit-code"
    page.write("#admit-code", "ZAA")
    page.write("#admit-votes", "500'000")
    check_figures(page, oracle, ["admit,ZAA,500000"])


def test_published_total(page: Page) -> None:
    # Catches: 5,049,012.00 read as 504,901,200; 504.90 read as 50,490; a refused total that is lost or compared.
    same = "the votes add up to 5,767,303: 718,291 more"
    for text in ["5,049,012.00", "5.049.012", "5049012"]:
        page.write("#published", text)
        assert page.text("#published-words") == same, text
    page.write("#published", "504.90")
    page.run("document.activeElement.blur();")
    page.click("#at-70")
    assert page.text("#published-wrong") == "“504.90” has decimals: write a whole number, such as 504."
    assert page.at("#published").get_property("value") == "504.90" and page.text("#published-words") == same
    page.write("#published", "99999999999999999999")
    assert page.text("#published-wrong") == ("“99999999999999999999” is above the limit of 281,474,976,710,656.")
    page.write("#published", Keys.BACKSPACE)
    assert page.text("#published-wrong") == page.text("#published-words") == ""


# Names.


def test_name_of_a_member(page: Page, oracle: Oracle) -> None:
    # Catches: a misspelt name that stays on every figure; a name that changes a number, or takes two steps to undo.
    assert page.act("suspend", "XAD")
    open_menu(page, "XAD")
    page.write("#member-name", "Côte d'Or")
    assert page.text("#chip-XAD span:first-child") == "XAD Côte d'Or"
    assert changes(page) == ["XAD Côte d'Or is suspended"]
    check_figures(page, oracle, ["suspend,XAD"])
    page.click("#undo")
    assert page.text("#chip-XAD span:first-child") == "XAD Lomenia"
    page.click("#chip-XAD")
    page.write("#member-name", "a" * 201)
    assert page.text("#member-name-wrong") == "This name has 201 characters; 200 are the most."


def test_name_of_an_admitted_member(page: Page) -> None:
    # Catches: a name that only the table's members can have.
    assert page.act("admit", "ZAA", "500000")
    open_menu(page, "ZAA")
    page.write("#member-name", "Zealand")
    assert page.text("#chip-ZAA span:first-child") == "ZAA Zealand"
    assert changes(page) == ["ZAA Zealand is admitted with 500,000 votes"]


def title(page: Page, chair: int) -> str:
    """The number and the name of a chair in its row."""
    return page.text(f"#card-{chair} .card-title")


def test_name_of_a_chair(page: Page, oracle: Oracle) -> None:
    # Catches: a Director who has left and can't be replaced; a chair without a name that shows the old one.
    page.click("#card-4")
    page.click("#name-4")
    assert page.at("#chair-name-text").get_property("value") == "Lakes"
    page.write("#chair-name-text", "Ms. Lake")
    assert title(page, 4) == "4 Ms. Lake" and focus(page) == "name-4"
    check_figures(page, oracle, [])
    page.click("#name-4")
    page.write("#chair-name-text", Keys.BACKSPACE)
    largest = max((it for it in oracle.table.members if it.chair == 4), key=lambda it: it.votes)
    seated = sum(it.chair == 4 for it in oracle.table.members)
    assert title(page, 4) == f"4 {largest.name}" + (f" and {seated - 1} more" if seated > 1 else "")
    for name in ["4 Ms. Lake", "4 Lakes"]:
        page.click("#undo")
        assert title(page, 4) == name
    assert not page.at("#undo").is_enabled()


HEBREW = "ישראל"


def test_names_from_right_to_left(page: Page) -> None:
    # Catches: a name that turns the numbers next to it, so that old and new votes change places.
    load(page, f"code,name,votes,chair,chair_name\nAAA,{HEBREW},40,1,{HEBREW}\nBBB,Belland,26,2,\n", "two")
    for card in ["1", "2"]:
        page.click(f"#card-{card}")
    parts = """
      const [chip, side] = arguments, range = document.createRange(), words = chip.querySelector("span");
      range.selectNodeContents(words.firstChild);
      const code = range.getBoundingClientRect(), name = words.querySelector("bdi").getBoundingClientRect();
      return [code.right <= name.left + 1, name.right <= chip.querySelector(".number").getBoundingClientRect().left];"""
    assert page.run(parts, page.at("#chip-AAA")) == [True, True]
    assert f"\u2068{HEBREW}\u2069, 40 votes" in str(page.at("#chip-AAA").get_attribute("aria-label"))
    assert page.all(".card-title bdi")
    assert page.act("votes", "AAA", "30")
    assert page.run('return document.getElementById("words-1").textContent;') == f"AAA \u2068{HEBREW}\u2069: 40 → 30"
    page.click("#chip-BBB")
    options = page.run('return [...document.getElementById("move-to").options].map((it) => it.textContent);')
    assert options[:2] == ["choose a place", f"1 \u2068{HEBREW}\u2069"]
    page.choose("#move-to", "1")
    page.click("#move-take")
    says(page, f"BBB Belland is moved to chair 1 \u2068{HEBREW}\u2069.")
    assert page.act("move", "AAA", "none")
    summary = page.run('return document.getElementById("summary").textContent;')
    assert f"in no chair: AAA \u2068{HEBREW}\u2069" in summary


# Paper.


def printed(page: Page, folder: Path) -> str:
    """The text of the page on A4 paper."""
    size = {"paperWidth": 210 / 25.4, "paperHeight": 297 / 25.4}
    data = page.driver.execute_cdp_cmd("Page.printToPDF", size)["data"]
    file = folder / "page.pdf"
    file.write_bytes(base64.b64decode(data))
    done = subprocess.run(["pdftotext", "-layout", str(file), "-"], capture_output=True, check=True)
    return done.stdout.decode()


def test_paper(page: Page, tmp_path: Path) -> None:
    # Catches: columns that fall off the paper at all majorities.
    for majority in UNSHOWN:
        page.click(f"#at-{majority}")
    assert page.act("votes", "XAD", "+40%")
    page.click("#tab-table")
    cells = page.run(
        """return [...document.querySelectorAll("#chair-table tbody tr")].map(
      (row) => [...row.cells].map((it) => it.textContent));"""
    )
    found = "".join(printed(page, tmp_path).split())
    assert len(cells) == 24 and len(cells[0]) == 7 + 4 * len(MAJORITIES)
    for row in cells:
        assert "".join("".join(row).split()) in found, row


@pytest.mark.parametrize("digits", ["1", "3", "6", "10"])
def test_paper_of_every_tab(page: Page, digits: str) -> None:
    # Catches: something on paper that is wider than the paper, in any tab.
    for majority in UNSHOWN:
        page.click(f"#at-{majority}")
    assert page.act("votes", "XAD", "+40%")
    page.write("#scenario-name", "More votes for one of them")
    page.choose("#digits", digits)
    # The width of A4 within the page's own margins.
    width = round((210 - 24) / 25.4 * 96)
    for tab in ["power", "change", "curve", "table", "coalition"]:
        page.click(f"#tab-{tab}")
        if tab == "curve":
            page.choose("#sweep-who", "XAD")
            page.at("#sweep-run").click()
            page.until(lambda: page.all("#sweep-table"), "the sweep")
        page.show(width, 1000)
        page.run('dispatchEvent(new Event("beforeprint"));')
        page.driver.execute_cdp_cmd("Emulation.setEmulatedMedia", {"media": "print"})
        wide = page.look("wide", width)
        page.driver.execute_cdp_cmd("Emulation.setEmulatedMedia", {"media": ""})
        page.run('dispatchEvent(new Event("afterprint"));')
        page.show()
        assert not wide, (tab, wide)


# Firefox.


def middle_in(fox: Firefox, place: str) -> tuple[int, int]:
    """The middle of an element in Firefox's window."""
    x, y = fox.run(MIDDLE.replace("arguments[0]", f"document.querySelector({json.dumps(place)})"))
    return round(x), round(y)


def drag_in(fox: Firefox, kind: str, places: list[tuple[int, int]], pause: int) -> None:
    """Drags from the first place to the last one, by mouse or by a finger that rests first."""
    moves = [{"type": "pointerMove", "x": x, "y": y, "duration": 100, "origin": "viewport"} for x, y in places]
    down: list[dict[str, Any]] = [{"type": "pointerDown", "button": 0}, {"type": "pause", "duration": pause}]
    acts = [moves[0], *down, *moves[1:], {"type": "pointerUp", "button": 0}]
    pointer = {"type": "pointer", "id": kind, "parameters": {"pointerType": kind}, "actions": acts}
    fox.send("WebDriver:PerformActions", actions=[pointer])
    fox.send("WebDriver:ReleaseActions")


def words_in(fox: Firefox, words: list[str]) -> None:
    """The list of changes becomes these words, and they are counted."""
    script = """
      const words = [...document.querySelectorAll("#changes .change-words")].map((it) => it.textContent);
      return [document.documentElement.dataset.state, words];"""
    end = time.monotonic() + SECONDS
    while fox.run(script) != ["ready", words] and time.monotonic() < end:
        time.sleep(0.05)
    assert fox.run(script) == ["ready", words]


def test_hands_in_firefox() -> None:
    # Catches: a drag, a filter, a field or a key that works in Chromium alone.
    with firefox() as fox:
        fox.send("WebDriver:SetWindowRect", width=1280, height=900)
        fox.send("WebDriver:Navigate", url=BUILT.as_uri())
        words_in(fox, [])
        for card in ["1", "2"]:
            fox.run(f'document.getElementById("card-{card}").click();')
        start, end = middle_in(fox, "#chip-XAA"), middle_in(fox, head("3"))
        drag_in(fox, "mouse", [start, (start[0], start[1] + 20), end], 0)
        words_in(fox, ["XAA Marenia: chair 1 → chair 3"])
        start = middle_in(fox, "#chip-XAA")
        drag_in(fox, "mouse", [start, (start[0] + 20, start[1]), start], 0)
        assert not fox.run('return document.querySelector("dialog, .ghost");')
        start, end = middle_in(fox, "#chip-XAB"), middle_in(fox, head("4"))
        drag_in(fox, "touch", [start, (start[0], start[1] + 20), end], round(1000 * HELD))
        words_in(fox, ["XAA Marenia: chair 1 → chair 3", "XAB Roswick: chair 2 → chair 4"])
        assert not fox.run('return document.querySelector("dialog, .ghost");')
        keys = [
            {"type": kind, "value": key}
            for kind, key in [
                ("keyDown", Keys.CONTROL),
                ("keyDown", "z"),
                ("keyUp", "z"),
                ("keyDown", "y"),
                ("keyUp", "y"),
                ("keyDown", "z"),
                ("keyUp", "z"),
                ("keyUp", Keys.CONTROL),
            ]
        ]
        fox.run('document.getElementById("at-half").focus();')
        fox.send("WebDriver:PerformActions", actions=[{"type": "key", "id": "keys", "actions": keys}])
        words_in(fox, ["XAA Marenia: chair 1 → chair 3"])
        assert fox.send("WebDriver:ExecuteAsyncScript", script=ACTS, args=["votes", "XAD", "+12,5%"])["value"] is True
        words_in(fox, ["XAA Marenia: chair 1 → chair 3", "XAD Lomenia: 227,217 → 255,619 (+12.5 %)"])
