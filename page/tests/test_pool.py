"""Long orders in several workers: the numbers of one worker."""
from __future__ import annotations

from chromium import Page
from oracle import UNSHOWN
from test_studies import CELLS, sweep

PROCESSORS = "Object.defineProperty(Navigator.prototype, 'hardwareConcurrency', {{ get: () => {} }});"


def open_with(page: Page, processors: int) -> None:
    """Opens the page as if the computer had this number of processors."""
    wanted = {"source": PROCESSORS.format(processors)}
    script = page.driver.execute_cdp_cmd("Page.addScriptToEvaluateOnNewDocument", wanted)
    page.open()
    page.driver.execute_cdp_cmd("Page.removeScriptToEvaluateOnNewDocument", script)
    for majority in UNSHOWN:
        page.click(f"#at-{majority}")


def workers(page: Page) -> int:
    """The number of workers that the page says were running."""
    words = page.text("#sweep-words").split(" with ")
    return int(words[1].split()[0]) if len(words) > 1 else 1


def swept(page: Page) -> tuple[object, list[str], str, str]:
    """All that a sweep of a chair on a changed board says: its table, its thresholds, its script and its CSV."""
    assert page.act("votes", "XAA", "+10%") and page.act("move", "XAB", "7")
    # It takes longer than the time after which further workers start.
    sweep(page, "5", "changed", "0.6", "60", "0.2")
    page.click("#panel summary")
    page.until(lambda: page.text("#sweep-script"), "the script")
    script = str(page.at("#sweep-script").get_property("textContent"))
    return page.run(CELLS), page.texts("#thresholds li"), script, page.act("exported", "export-csv")


def test_the_numbers_of_one_worker(page: Page) -> None:
    # Catches: a point of another board or in another order, or a threshold of other neighbours, with several workers.
    open_with(page, 1)
    one, many = swept(page), workers(page)
    assert many == 1 and len(one[1]) > 4
    open_with(page, 4)
    assert swept(page) == one and workers(page) == 4
    page.open(None, "Worker")
    for majority in UNSHOWN:
        page.click(f"#at-{majority}")
    assert swept(page) == one and workers(page) == 1
