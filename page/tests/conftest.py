"""Fixtures of the tests: one browser of a kind for all of them, and the page opened from scratch for each.

A module with `BROWSERS = EVERY` is run in Chromium and in Firefox, the others in Chromium. A landing runs three of the
former in Firefox, drawn by the commit: what Firefox alone does wrong is found up to a few landings later."""
from __future__ import annotations

import os
from collections.abc import Iterator
from pathlib import Path
from random import Random

import pytest
from chromium import EVERY, Page
from firefox import FirefoxPage, firefox
from oracle import TOP, Oracle
from tests.shared.sizes import IS_DEEP, seed

BUILT = TOP / "page" / "out" / "board.html"
# Chromium's words when a test leaves a page that would ask first, but that nobody has clicked on.
LEFT = "Blocked attempt to show a 'beforeunload' confirmation panel"

IN_BOTH = sorted(it.stem for it in Path(__file__).parent.glob("test_*.py") if "\nBROWSERS = EVERY\n" in it.read_text())
DRAWN = Random(seed()).sample(IN_BOTH, 3)


@pytest.fixture(scope="session")
def oracle() -> Oracle:
    return Oracle(Path(os.environ["BOARD"]))


def pytest_generate_tests(metafunc: pytest.Metafunc) -> None:
    """Runs the tests of a module in its browsers, all of them in one before the other."""
    if "page" not in metafunc.fixturenames:
        return
    is_in_both = metafunc.function.__name__ not in getattr(metafunc.module, "NOT_IN_FIREFOX", ())
    is_in_both &= IS_DEEP or metafunc.module.__name__ in DRAWN
    browsers = getattr(metafunc.module, "BROWSERS", EVERY[:1]) if is_in_both else EVERY[:1]
    metafunc.parametrize("browser", browsers, indirect=True, scope="session")


@pytest.fixture(scope="session")
def browser(request: pytest.FixtureRequest, tmp_path_factory: pytest.TempPathFactory) -> Iterator[Page]:
    downloads = tmp_path_factory.mktemp("downloads")
    if request.param == "firefox":
        with firefox(downloads) as fox:
            yield FirefoxPage(BUILT, downloads, fox)
        return
    page = Page(BUILT, downloads)
    yield page
    page.driver.quit()


@pytest.fixture
def page(browser: Page) -> Iterator[Page]:
    """The page, just opened. A test fails if anything appears on Chromium's console."""
    browser.driver.get_log("browser")
    browser.open()
    yield browser
    said = [it for it in browser.driver.get_log("browser") if LEFT not in it["message"]]
    assert not said, f"on the console: {said}"
