"""The page for people who use a keyboard, a screen reader, a phone or a dark screen."""
from __future__ import annotations

import re
from itertools import pairwise
from typing import Any

import inputs
import pytest
from chromium import NARROW, Page
from figures import check_figures, drawn_chairs, open_menu, rows
from oracle import Oracle
from selenium.webdriver.common.keys import Keys
from test_exports import DROP

LEAST_CONTRAST = 4.5
# The width of the smallest phones.
SMALLEST = 320
# More presses of Tab than the page has controls.
MOST_STOPS = 400
# Higher than the page, so that nothing is scrolled away.
TALL = 12_000
OPENERS = ["#name-1", "#find-1", "#export", "#paste", "#seal", "#admit-open", "#best-open", "#recount-open"]
OPENERS += ["#cite-open", "#merge-1", "#split-1", "#scale-1", "#dissolve-1", "#group-open"]
TABS = ["#tab-power", "#tab-change", "#tab-curve", "#tab-table", "#tab-coalition"]


def controls(page: Page) -> list[dict[str, Any]]:
    """The elements that may have the focus, in the browser's accessibility tree."""
    nodes = page.driver.execute_cdp_cmd("Accessibility.getFullAXTree", {})["nodes"]
    can: dict[str, Any] = {"name": "focusable", "value": {"type": "booleanOrUndefined", "value": True}}
    return [it for it in nodes if can in it.get("properties", []) and it["role"]["value"] != "RootWebArea"]


def check_names(page: Page, where: str) -> None:
    """Every element that may have the focus has a role and a name."""
    found = [(it["role"]["value"], it.get("name", {}).get("value", "")) for it in controls(page)]
    assert found and not [it for it in found if it[0] in ("generic", "none") or not it[1].strip()], (where, found)


def test_names_and_roles(page: Page) -> None:
    # Catches: a button with a picture alone, a field without a label, a box that is clicked and isn't a button.
    assert page.act("votes", "XAD", "300000") and page.act("suspend", "XAD") and page.act("move", "XAD", "5")
    page.write("#scenario-name", "Kept")
    page.click("#card-1")
    for tab in TABS:
        page.click(tab)
        check_names(page, tab)


@pytest.mark.parametrize("opener", ["#chip-XAA", *OPENERS])
def test_names_in_dialogs(page: Page, opener: str) -> None:
    # Catches: a dialog without a name, with a field that has none, or that can't be left by keyboard.
    page.click("#card-1")
    page.click(opener)
    check_names(page, opener)
    nodes = page.driver.execute_cdp_cmd("Accessibility.getFullAXTree", {})["nodes"]
    dialogs = [it["name"]["value"] for it in nodes if it["role"]["value"] == "dialog"]
    assert len(dialogs) == 1 and dialogs[0].strip()
    # What one would type or press first isn't "Close", but where the content is made later and is only to be read.
    is_inside = page.run("return Boolean(document.activeElement.closest('.dialog-body'))")
    assert is_inside == (opener not in ("#seal", "#cite-open"))
    page.press(Keys.ESCAPE)
    page.until(lambda: not page.all("dialog"), "the dialog's end")
    assert page.run("return `#${document.activeElement.id}`;") == opener


def check_contrast(page: Page, where: str) -> None:
    faint = page.look("faint", LEAST_CONTRAST)
    assert not faint, f"{where}: {faint}"


@pytest.mark.parametrize("scheme", ["light", "dark"])
def test_contrast(page: Page, scheme: str) -> None:
    # Catches: grey letters on white, red ones on grey, and letters that stay black in the dark.
    page.show(height=TALL, scheme=scheme)
    for act in [["suspend", "XAA"], ["move", "XAA", "2"], ["votes", "XAD", "+40%"], ["switch", "2"]]:
        assert page.act(*act)
    page.click("#card-1")
    for tab in TABS:
        page.click(tab)
        check_contrast(page, tab)
    page.click("#tab-power")
    for opener in ["#chip-XAA", *OPENERS]:
        page.click(opener)
        check_contrast(page, opener)
        page.press(Keys.ESCAPE)
    page.run(DROP, "faulty.csv", inputs.FAULTY)
    page.until(lambda: page.all("#table-dialog"), "the preview")
    check_contrast(page, "the preview")


@pytest.mark.parametrize("scheme", ["light", "dark"])
def test_contrast_of_what_is_refused(page: Page, scheme: str) -> None:
    # Catches: a sentence under a field, or a chair that a filter dims, that can't be read.
    page.show(height=TALL, scheme=scheme)
    page.write("#published", "504.90")
    page.write("#filter", "XAD")
    assert page.all(".line") and page.text("#published-wrong")
    check_contrast(page, "the page")
    page.click("#chip-XAD")
    page.write("#votes-total", "12,500")
    assert page.text("#votes-total-wrong")
    check_contrast(page, "the menu")
    check_names(page, "the menu")


@pytest.mark.parametrize("width", [NARROW, 360])
def test_width_of_a_phone(page: Page, width: int) -> None:
    # Catches: a page that must be scrolled sideways on a phone, since something in it is wider than the screen.
    page.show(width, 844)
    for tab in TABS:
        page.click(tab)
        assert not page.look("wide", width), tab


def test_tabs_on_the_smallest_phone(page: Page) -> None:
    # Catches: a tab that a finger can't reach, or whose word is broken.
    page.show(SMALLEST, 640)
    for tab in TABS:
        page.run('document.querySelector(arguments[0]).scrollIntoView({ block: "center" });', tab)
        page.click(tab)
        assert page.look("lines", tab) == 1, tab
        assert not page.look("wide", SMALLEST), tab


def stops(page: Page) -> list[dict[str, Any]]:
    """The elements that Tab leads to, one after another, from the page's start to its end."""
    page.run("document.activeElement.blur(); scrollTo(0, 0);")
    found = list[dict[str, Any]]()
    for _ in range(MOST_STOPS):
        page.driver.switch_to.active_element.send_keys(Keys.TAB)
        stop = page.look("focused")
        if stop["isBody"] or stop in found:
            return found
        found.append(stop)
    raise AssertionError(f"Tab doesn't come to an end: {found[-3:]}")


def test_order_of_tab(page: Page) -> None:
    # Catches: a focus that isn't visible, or that jumps back to something above in the same column.
    page.show(height=TALL)
    found = stops(page)
    assert len(found) > 20 and not [it for it in found if not it["isRinged"] or not it["width"] * it["height"]]
    back = [
        (one["what"], next["what"])
        for one, next in pairwise(found)
        if next["top"] + next["height"] <= one["top"] and next["left"] < one["left"] + one["width"]
    ]
    assert not back, back


def tab_to(page: Page, place: str) -> None:
    """Presses Tab until a place has the focus."""
    for _ in range(MOST_STOPS):
        if page.run("return document.activeElement.matches(arguments[0]);", place):
            return
        page.driver.switch_to.active_element.send_keys(Keys.TAB)
    raise AssertionError(f"Tab doesn't lead to {place}")


def test_keyboard_alone(page: Page, oracle: Oracle) -> None:
    # Catches: a step of a study that needs a mouse.
    tab_to(page, "#filter")
    page.press("XAD")
    tab_to(page, "#chip-XAD")
    page.press(Keys.ENTER)
    tab_to(page, "#votes-own")
    page.press("+40", Keys.ENTER)
    check_figures(page, oracle, ["votes,XAD,318104"])
    tab_to(page, "#display summary")
    page.press(Keys.ENTER)
    tab_to(page, "#digits")
    page.press("3")
    assert page.at("#digits").get_property("value") == "3"
    tab_to(page, "#sort-power-85")
    page.press(Keys.ENTER)
    assert page.at("#sort-power-85").get_attribute("aria-pressed") == "true"
    tab_to(page, "#tab-power")
    page.press(Keys.ARROW_RIGHT, Keys.ARROW_RIGHT)
    tab_to(page, "#sweep-run")
    page.press(Keys.ENTER)
    page.until(lambda: page.all("#sweep-table"), "the sweep")
    tab_to(page, "#changes input[type=checkbox]")
    page.press(Keys.SPACE)
    tab_to(page, "#tab-curve")
    page.press(Keys.ARROW_RIGHT)
    check_figures(page, oracle, [])


def test_a_study_by_keyboard(page: Page) -> None:
    # Catches: a table that can't be loaded without a mouse, or a study that can't be changed, kept, exported or undone.
    tab_to(page, "#paste")
    page.press(Keys.ENTER)
    assert page.run("return document.activeElement.id") == "paste-text"
    page.run("document.activeElement.value = arguments[0];", inputs.PRINTED.replace("|", "\t"))
    for place in ["#paste-take", "#table-take"]:
        tab_to(page, place)
        page.press(Keys.ENTER)
    page.until(lambda: not page.all("dialog") and page.all("#card-2"), "the table")
    page.settle()
    tab_to(page, "#card-2")
    page.press(Keys.ENTER)
    tab_to(page, "#cards .chip")
    page.press(Keys.SPACE)
    page.press(Keys.ARROW_UP)
    page.press(Keys.ENTER)
    page.until(lambda: len(page.all("#changes > li")) == 1, "the move")
    tab_to(page, "#keep summary")
    page.press(Keys.ENTER)
    tab_to(page, "#scenario-name")
    page.press("Moved", Keys.ENTER)
    page.until(lambda: page.all("#scenarios"), "the scenario")
    tab_to(page, "#tab-power")
    page.press(Keys.ARROW_RIGHT, Keys.ARROW_RIGHT, Keys.ARROW_RIGHT)
    page.until(lambda: page.all("#chair-table"), "the table of chairs")
    tab_to(page, "#export")
    page.press(Keys.ENTER)
    tab_to(page, "#export-copy")
    page.press(Keys.ENTER)
    page.until(lambda: page.at("#export-words").text, "what was copied")
    page.press(Keys.ESCAPE)
    page.until(lambda: not page.all("dialog"), "the dialog's end")
    for _ in range(2):
        page.driver.switch_to.active_element.send_keys(Keys.CONTROL, "z")
        page.settle()
    assert not page.all("#changes > li") and not page.all("#scenarios")


# Where the parts of the dialog that reads a table are: the preview, its fields, and the buttons at its foot; and the
# height of the screen.
DIALOG = """
  const box = (place) => document.querySelector(`#table-dialog ${place}`).getBoundingClientRect();
  document.getElementById("table-dialog").scrollTop = arguments[0];
  const take = box("#table-take");
  return [box("#preview").top, box("#header-row").top, take.top, take.bottom, innerHeight];
"""


@pytest.mark.parametrize("width, height", [(1280, 720), (NARROW, 844), (SMALLEST, 640)])
def test_dialog_of_a_table(page: Page, width: int, height: int) -> None:
    # Catches: a table's preview below nine fields, a button that is scrolled away, two that look like the one to press,
    # and a screen full of notices.
    page.show(width, height)
    *first, last, one, two, three = inputs.PRINTED.splitlines()
    rows = [f"\tLand {chr(97 + at % 26)}{at}\t{1000 + at:,}\t\t" for at in range(40)]
    page.run(DROP, "long.txt", "\n".join([*first, *rows, last, one, two, three]))
    page.until(lambda: page.all("#table-take"), "the dialog")
    for preview, fields, above, below, screen in [page.run(DIALOG, it) for it in (0, 99_999)]:
        assert preview < fields and screen - 200 < above < below <= screen
    assert len(page.all("#table-dialog .primary")) == 1
    assert page.at("#table-take").text == "Take this table"
    assert page.at("#notices summary").text.endswith(" tidied or left out")
    assert not page.at("#table-notices").is_displayed()
    assert not page.look("wide", width)


def test_charts_have_tables(page: Page) -> None:
    # Catches: a row that a screen reader can't read: its button has its numbers, and so has the table.
    assert page.act("move", "XAA", "2")
    for tab in TABS[:2]:
        page.click(tab)
        drawn = drawn_chairs(page)
        assert list(rows(page)) == drawn and len(drawn) == 24
        names = [it["name"]["value"] for it in controls(page) if it["role"]["value"] == "button"]
        read = [it for it in names if re.match(r"\d+ .+: [\d,]+ votes, .*; 85 per cent [\d.]+ %", it)]
        assert len(read) == 24, tab


def test_phone(page: Page, oracle: Oracle) -> None:
    # Catches: chairs and changes that can't be reached on a phone, which has no room for two columns.
    page.show(NARROW, 844)
    open_menu(page, "XAA")
    page.choose("#move-to", "2")
    page.click("#move-take")
    page.click('.sheets [data-sheet="right"]')
    assert page.texts("#changes .change-words") == ["XAA Marenia: chair 1 → chair 2"]
    page.click("#right .sheet-close")
    check_figures(page, oracle, ["move,XAA,2"])
