"""The first look at the page: what is seen at once, and that nothing moves under the pointer."""
from __future__ import annotations

import pytest
from chromium import NARROW, Page

# The first row's top, and how many of the chairs with their marks are wholly above the window's end, or a phone's bar.
SEEN = """
  const rows = [...document.querySelectorAll("#cards .card:has(.plot)")].map((it) => it.getBoundingClientRect());
  const end = innerHeight - document.querySelector(".sheets").offsetHeight;
  return [rows[0].top, rows.filter(({ top, bottom }) => top >= 0 && bottom <= end).length, rows.length];"""
# The tops and the heights of all rows, and how far the page is scrolled.
PLACES = """
  const rows = [...document.querySelectorAll(".card-head, #panel, #sentences")].map((it) => it.getBoundingClientRect());
  return [scrollY, ...rows.flatMap(({ top, height }) => [top, height])];"""


@pytest.mark.parametrize(
    ("width", "height", "most", "least"), [(1440, 900, 260, 24), (1280, 720, 300, 18), (NARROW, 844, 420, 9)]
)
def test_chairs_at_first_sight(page: Page, width: int, height: int, most: int, least: int) -> None:
    # Catches: controls, notices or tall rows that push the answer below the first screen.
    page.show(width, height)
    page.open()
    page.show(width, height)
    top, seen, rows = page.run(SEEN)
    assert top <= most and seen >= least and rows == 24, (top, seen)
    heads = page.run("return [...document.querySelectorAll('#cards .card-head')].map((it) => it.offsetHeight);")
    assert width < 700 or all(20 <= it <= 24 for it in heads), heads


def test_what_the_page_is(page: Page) -> None:
    # Catches: a first look that leaves open what this is, whose votes these are, and what to do next.
    assert page.text("h1").startswith("Voting power on the IMF's Executive Board")
    assert page.text("#study-name") == "Example with invented votes" and page.text("#welcome").startswith("Paste the")
    page.click("#welcome-close")
    assert not page.at("#welcome").is_displayed() and page.run("return document.activeElement.id;") == "paste"
    assert page.text("#summary").endswith("Paste or open the Fund's table of Directors")
    assert page.act("votes", "XAD", "300000")
    assert page.text("#summary").endswith("Paste or open the Fund's table of Directors")


def test_nothing_moves_under_the_pointer(page: Page) -> None:
    # Catches: numbers beside the pointer that push the chart away from it.
    assert page.act("votes", "XAD", "+40%")
    page.click("#at-70")
    page.run("document.activeElement.blur(); scrollTo(0, 0);")
    before = page.run(PLACES)
    for chair in [1, 23, 12]:
        x, y = page.run(
            """const { left, top, width, height } = document.getElementById(arguments[0]).getBoundingClientRect();
            return [left + width / 2, top + height / 2];""",
            f"card-{chair}",
        )
        page.driver.execute_cdp_cmd("Input.dispatchMouseEvent", {"type": "mouseMoved", "x": x, "y": y})
        page.until(lambda: page.text("#readout").startswith(f"{chair} "), "the numbers beside the pointer")
        assert page.run(PLACES) == before
        assert "/" not in page.text("#readout")


def test_order_by_a_heading(page: Page) -> None:
    # Catches: a heading that looks like one that orders, and doesn't.
    page.click("#sort-power-85")
    first, second = page.texts("#cards .card-title")[:2]
    assert (first, second) == ("1 Harbours", "2 Hills")
    assert page.at("#sort-power-85").get_attribute("aria-pressed") == "true"
    page.click("#sort-number")
    assert page.texts("#cards .card-title")[3] == "4 Lakes"
    assert page.at("#sort-number").get_attribute("aria-pressed") == "true"
