"""What is on the page stays while what it shows is the same: typed text, scroll, selection, what is carried; and what
fails is said."""
from __future__ import annotations

import base64
import re
from math import gcd
from pathlib import Path

import inputs
from chromium import Page
from conftest import BUILT
from figures import drawn_chairs
from selenium.webdriver.common.keys import Keys
from test_exports import DROP
from test_said import exported_table, sha256

# Marks all elements of the page; later, how many of them are still there, and how many could be.
MARK = "window.marked = new Set(document.querySelectorAll('main *'));"
MARKED = """
  const all = [...document.querySelectorAll("main *")];
  return [all.filter((it) => marked.has(it)).length, Math.min(marked.size, all.length)];"""
# Counts how often the sentences are changed.
WATCH = """
  window.heard = 0;
  new MutationObserver((list) => (heard += list.length)).observe(
    document.getElementById("sentences"), { subtree: true, childList: true, characterData: true });"""


def kept(page: Page) -> float:
    """The part of the page's elements that have stayed since they were marked; a row may have more or fewer now."""
    marked, many = page.run(MARKED)
    return float(marked / many)


def test_elements_stay(page: Page) -> None:
    # Catches: a page that is built from scratch at each act, so that a screen reader and a selection lose their place.
    assert page.act("votes", "XAD", "300000")
    page.run(MARK)
    page.write("#number-1", "310000")
    assert kept(page) > 0.95
    for tab in ["#tab-change", "#tab-power"]:
        page.run(MARK)
        page.click(tab)
        assert kept(page) > 0.85, tab
    page.run(MARK)
    page.click("#tab-table")
    page.click("#tab-power")
    assert page.run("return [...document.querySelectorAll('#cards *')].every((it) => marked.has(it));")


def test_elements_of_other_tabs_stay(page: Page) -> None:
    # Catches: a tab Coalition or a curve that is built from scratch at each edit and each tick.
    assert page.act("votes", "XAD", "300000")
    page.click("#tab-coalition")
    page.click("#tick-2")
    page.click("#tick-3")
    page.run(MARK)
    page.write("#number-1", "310000")
    page.run('getSelection().selectAllChildren(document.querySelector("#verdict-table th"));')
    page.run('document.getElementById("on-1").click(); document.getElementById("tick-4").click();')
    page.settle()
    assert kept(page) > 0.95 and page.run("return String(getSelection()).trim();") == "simple majority"
    page.click("#on-1")
    page.click("#tab-curve")
    page.choose("#sweep-on", "changed")
    page.click("#sweep-run")
    page.until(lambda: page.all("#sweep-table"), "the sweep")
    page.click("details:has(#sweep-script) summary")
    page.run(MARK)
    page.write("#number-1", "320000")
    page.until(lambda: "XAD,320000" in page.text("#sweep-script"), "the sweep's new script")
    assert kept(page) > 0.95


def test_typed_text_stays(page: Page) -> None:
    # Catches: a scenario's name, a sweep's field or a refused number that is lost to an act somewhere else.
    assert page.act("votes", "XAD", "+40%")
    page.reach("#scenario-name").send_keys("Half a na")
    page.click("#at-70")
    page.click("#on-1")
    page.click("#tab-curve")
    assert page.at("#scenario-name").get_property("value") == "Half a na"
    page.run('const it = document.getElementById("sweep-from"); it.focus(); it.setSelectionRange(1, 1);')
    page.press("50")
    assert page.act("switch", "0")
    page.write("#number-1", "12,500")
    page.click("#at-quorum")
    assert page.at("#sweep-from").get_property("value") == "150"
    assert page.at("#number-1").get_property("value") == "12,500" and page.text("#number-1-wrong")
    page.at("#sweep-from").send_keys(Keys.HOME)
    page.run("dispatchEvent(new Event('resize'));")
    assert page.run("return document.activeElement.selectionStart;") == 0


def test_scroll_and_selection_stay(page: Page) -> None:
    # Catches: a table that jumps back to its first column, and a selected sentence that is deselected, at each edit.
    page.click("#at-70")
    assert page.act("votes", "XAD", "300000")
    page.click("#tab-table")
    page.run('document.querySelector("#panel .scroll").scrollLeft = 150;')
    page.run('getSelection().selectAllChildren(document.querySelector("#board-table th"));')
    page.run(
        """const box = document.getElementById("number-1");
      box.value = "500000";
      box.dispatchEvent(new Event("change", { bubbles: true }));"""
    )
    page.settle()
    assert page.run('return document.querySelector("#panel .scroll").scrollLeft;') == 150
    assert page.run("return String(getSelection());") == "Open chairs"


def test_sentences_are_heard_once(page: Page) -> None:
    # Catches: a screen reader that reads all sentences again at each tab, or at an edit that changes one of them.
    page.run(WATCH)
    for tab in ["#tab-change", "#tab-table", "#tab-power"]:
        page.click(tab)
    page.click("#sort-number")
    assert page.run("return heard;") == 0
    assert page.act("votes", "XAD", "300000")
    assert page.run("return heard;") > 0


def test_a_carried_member_stays(page: Page) -> None:
    # Catches: a member that is dropped without a word where a count ends, or where the window gets another size.
    assert page.act("votes", "XAD", "300000")
    page.write("#scenario-name", "Kept")
    page.click("#card-1")
    page.run('document.getElementById("chip-XAA").focus();')
    for key in [Keys.SPACE, Keys.ARROW_DOWN]:
        page.press(key)
    page.show(width=1100)
    page.run('document.getElementById("at-70").click();')
    page.settle()
    page.until(lambda: "counting" not in page.text("#scenarios"), "the scenario")
    assert [it.get_attribute("data-place") for it in page.all(".card.aimed")] == ["2"]
    assert page.at("#chip-XAA").get_attribute("aria-pressed") == "true"
    page.press(Keys.ENTER)
    assert page.texts("#changes .change-words")[1] == "XAA Marenia: chair 1 → chair 2"


def test_rows_move_whole(page: Page) -> None:
    # Catches: a row that shows another chair's members after the order of rows has changed.
    page.click("#card-2")
    page.run(MARK)
    page.click("#sort-number")
    assert drawn_chairs(page) == list(range(1, 25))
    assert page.run("return marked.has(document.getElementById('card-2'));")
    assert page.texts("[data-place='2'] .chip span:first-child") == ["XAB Roswick"]


def slide(page: Page, key: str) -> str:
    """Presses a key on the slider, and returns the number of the change."""
    page.run('document.getElementById("slide-1").focus();')
    page.press(key)
    return str(page.at("#number-1").get_property("value"))


def test_the_slider_follows_the_number(page: Page) -> None:
    # Catches: half a million votes that become 199 by one press of an arrow key.
    script = "member,votes\nAAA,100\nBBB,50\nscript\nopen,1\nmove,AAA,1\npublish\nread,1,half\nvotes,AAA,30\n"
    page.run(DROP, "small.csv", script)
    page.until(lambda: page.all("#slide-1"), "the slider")
    page.write("#number-1", "500000")
    assert slide(page, Keys.ARROW_LEFT) == "499999"
    page.run(DROP, "large.csv", script.replace("votes,AAA,30", "votes,AAA,4000000"))
    page.until(lambda: page.text("#study-name") == "large", "the other study")
    page.settle()
    assert slide(page, Keys.ARROW_LEFT) == "3999999"


def test_the_slider_of_per_cent(page: Page) -> None:
    # Catches: a typed +400 per cent that one press of an arrow key makes +99.9.
    assert page.act("votes", "XAD", "+30%")
    page.write("#number-1", "+400")
    assert slide(page, Keys.ARROW_LEFT) == "+399.9"


def test_every_kind_of_file_is_offered(page: Page) -> None:
    # Catches: a kind of file that the documents name and that the chooser of "Open…" greys out.
    offered = str(page.at("#file").get_attribute("accept")).split(",")
    guide = (page.file.parent.parent.parent / "docs" / "PAGE.md").read_text()
    named = re.findall(r"`(\.[a-z]+)`", guide.partition('"Open…" offers ')[2].partition(";")[0])
    assert sorted(offered) == sorted(named) and {".xlsx", ".htm", ".html", ".csv", ".json"} <= set(offered)


def test_hashes_over_plain_http(page: Page) -> None:
    # Catches: exports without hashes where the browser computes none, since the page came over plain http.
    page.open(None, "crypto")
    assert page.run("return globalThis.crypto === undefined;")
    assert page.text("#seal").endswith("module checked")
    head, _ = exported_table(page)
    assert f"script sha256 {sha256(page.act('exported', 'export-script'))}" in head


def test_another_module_over_plain_http(page: Page, tmp_path: Path) -> None:
    # Catches: "module checked" of a module that nobody has checked.
    text = BUILT.read_text()
    [module] = re.findall(r'id="module">([A-Za-z0-9+/=]*)<', text)
    # A section of the module's own, with the name x and nothing in it.
    other = base64.b64encode(base64.b64decode(module) + b"\x00\x02\x01x").decode()
    file = tmp_path / "other.html"
    file.write_text(text.replace(module, other))
    page.open(file, "crypto")
    assert page.text("#seal").endswith("MODULE CHANGED")
    page.click("#seal")
    assert page.texts("#checks .wrong") == ["The module isn't the one that this page was built with."]


def test_unsaved_work_shows_in_the_title(page: Page) -> None:
    # Catches: a window that doesn't say that closing it loses work, or that says so of work that is saved.
    assert not page.driver.title.startswith("•")
    assert page.act("votes", "XAD", "300000") and page.driver.title.startswith("• Example")
    page.click("#undo")
    assert not page.driver.title.startswith("•")
    page.click("#redo")
    page.downloaded("#save-study")
    page.until(lambda: not page.driver.title.startswith("•"), "a title without the mark")


def test_what_fails_is_said(page: Page) -> None:
    # Catches: a seal, a citation or a count that never comes and says nothing.
    page.run("crypto.subtle.digest = () => Promise.reject(new Error('no digest'));")
    page.click("#seal")
    page.until(lambda: "The sources can't be shown: no digest" in page.text("#provenance"), "why there are no sources")
    page.press(Keys.ESCAPE)
    page.click("#cite-open")
    page.until(lambda: "It can't be cited: no digest" in page.text("#cite"), "why there is no citation")
    page.press(Keys.ESCAPE)
    # Nothing else on the page speaks of this promise, which fails for want of an element.
    page.run("document.getElementById('live').remove();")
    assert page.act("move", "XAA", "2")
    page.until(lambda: page.text("#fault") == "Something failed: the page has no #live", "the sentence")
    page.driver.get_log("browser")
    assert page.act("votes", "XAD", "300000") and page.text("#fault") == ""


def test_undo_says_what_it_covers(page: Page) -> None:
    # Catches: an undo that seems to cover the choice of a measure, and takes back the change before it.
    assert page.act("votes", "XAD", "300000")
    page.choose("#measure", "prevent")
    assert "What is displayed stays." in str(page.at("#undo").get_attribute("title"))
    page.click("#undo")
    assert page.at("#measure").get_property("value") == "prevent" and not page.all("#changes > li")


def test_lowest_terms(page: Page) -> None:
    # Catches: one fraction that is 2/4 in the table and 1/2 in a file.
    page.run(DROP, "it.csv", inputs.PLAIN)
    page.until(lambda: page.all("#table-take"), "the preview")
    page.click("#table-take")
    page.until(lambda: page.act("votes", "CCC", "35"), "the member to be changed")
    page.click("#tab-table")
    cells = page.run("return [...document.querySelectorAll('#chair-table td')].map((it) => it.title);")
    fractions = [re.match(r"(-?\d+)/(\d+) ", str(it)) for it in cells]
    shown = {(int(it[1]), int(it[2])) for it in fractions if it}
    _, table = exported_table(page)
    found = {
        (int(row[f"{of}_numerator"]), int(row[f"{of}_denominator"]))
        for row in table
        for of in ("vote_share", "power_share")
    }
    assert all(gcd(one, other) == 1 for one, other in shown | found) and found <= shown
