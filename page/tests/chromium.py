"""Chromium with board.html in it. Tests find the parts of the page by their ids."""
from __future__ import annotations

from collections.abc import Callable
from pathlib import Path
from typing import Any

from tests.shared.browser import set_width, started
from selenium.common.exceptions import StaleElementReferenceException
from selenium.webdriver.common.by import By
from selenium.webdriver.common.keys import Keys
from selenium.webdriver.remote.webelement import WebElement
from selenium.webdriver.support.select import Select
from selenium.webdriver.support.wait import WebDriverWait

SECONDS = 60.0
# The browsers of a module of tests that is run in all of them.
EVERY = ["chromium", "firefox"]
WIDE, NARROW = 1280, 390
# The ends of the names of files that are still being downloaded, in Chromium and in Firefox.
PARTIAL = (".crdownload", ".part")
HERE = Path(__file__).parent
# Opens the folds around an element, from outside in, and closes the menu Display unless the element is in it.
REACH = """
  const thing = document.querySelector(arguments[0]), display = document.querySelector("#display[open]");
  if (!thing) return;
  if (display && !display.contains(thing)) display.open = false;
  const folds = [];
  for (let it = thing.parentElement; it; it = it.parentElement) if (it.matches("details:not([open])")) folds.push(it);
  for (const it of folds.reverse()) if (!it.firstElementChild.contains(thing)) it.firstElementChild.click();
"""
ACCESS, ACTS = ((HERE / name).read_text() for name in ["access.js", "acts.js"])


# Counts what the page posts to its workers from now on: the messages, and the characters in them.
POSTED = """
  const post = Worker.prototype.postMessage;
  window.posted = [0, 0];
  Worker.prototype.postMessage = function (message, ...others) {
    window.posted = [window.posted[0] + 1, window.posted[1] + JSON.stringify(message).length];
    return post.call(this, message, ...others);
  };"""


class Page:
    """The page, opened from disk in a browser without a network."""

    def __init__(self, file: Path, downloads: Path):
        self.file, self.downloads = file, downloads
        # Selenium's own types are partial.
        self.driver: Any = started()
        to = {"behavior": "allow", "downloadPath": str(downloads)}
        self.driver.execute_cdp_cmd("Browser.setDownloadBehavior", to)

    def open(self, file: Path | None = None, *without: str) -> None:
        """Opens the page from scratch, or another file, in a browser that lacks the named features."""
        self.load(file, *without)
        self.settle()

    def load(self, file: Path | None = None, *without: str) -> None:
        """Loads the page like `open`, without waiting for figures."""
        self.show()
        wanted = {"source": "".join(f"delete window.{it};" for it in without)}
        script = self.driver.execute_cdp_cmd("Page.addScriptToEvaluateOnNewDocument", wanted)
        self.driver.get((file or self.file).as_uri())
        self.driver.execute_cdp_cmd("Page.removeScriptToEvaluateOnNewDocument", script)

    def show(self, width: int = WIDE, height: int = 900, scheme: str = "light") -> None:
        """Sets the size of the screen, and whether it is light or dark."""
        set_width(self.driver, width, height)
        features = [{"name": "prefers-color-scheme", "value": scheme}]
        self.driver.execute_cdp_cmd("Emulation.setEmulatedMedia", {"features": features})

    def run(self, script: str, *words: object) -> Any:
        """The value that a script returns in the page."""
        return self.driver.execute_script(script, *words)

    def wait_for(self, script: str, *words: object) -> Any:
        """The value that a script in the page passes to its last argument, a function."""
        return self.driver.execute_async_script(script, *words)

    def look(self, check: str, *words: object) -> Any:
        """The result of a check of access.js."""
        return self.run(ACCESS, check, *words)

    def until(self, holds: Callable[[], Any], what: str) -> Any:
        """Waits until a condition holds, and returns its value."""
        # Between finding and reading an element, the page may have replaced it: then both are tried again.
        wait: Any = WebDriverWait(self.driver, SECONDS, 0.01, [StaleElementReferenceException])
        return wait.until(lambda _: holds(), f"it never came: {what}")

    def again(self, act: Callable[[], Any]) -> Any:
        """What a function returns, called again while the page replaces the elements that it uses."""
        return self.until(lambda: [act()], "an element that stays")[0]

    def settle(self) -> str:
        """Waits until the figures on the screen are those of the last edit: `ready`, or `fault`."""
        state = "const state = document.documentElement.dataset.state; return state !== 'counting' && state;"
        return str(self.until(lambda: self.run(state), "figures"))

    def all(self, place: str) -> list[WebElement]:
        """The elements that a CSS selector finds."""
        return list(self.driver.find_elements(By.CSS_SELECTOR, place))

    def at(self, place: str) -> WebElement:
        """The one element that a CSS selector finds."""
        found = self.all(place)
        assert len(found) == 1, f"{len(found)} things are at {place}"
        return found[0]

    def reach(self, place: str) -> WebElement:
        """The one element that a CSS selector finds, after the folds around it are opened as a user opens them."""
        self.run(REACH, place)
        return self.at(place)

    def text(self, place: str) -> str:
        return str(self.again(lambda: self.reach(place).text))

    def texts(self, place: str) -> list[str]:
        self.run(REACH, place)
        return list(self.again(lambda: [it.text for it in self.all(place)]))

    def click(self, place: str) -> None:
        self.again(lambda: self.reach(place).click())
        self.settle()

    def choose(self, place: str, value: str) -> None:
        """Chooses from a list."""
        chosen: Any = Select(self.reach(place))
        chosen.select_by_value(value)
        self.settle()

    def write(self, place: str, text: str) -> None:
        """Replaces the text of a field by typing, and presses Enter."""
        self.reach(place).send_keys(Keys.CONTROL, "a", Keys.NULL, text, Keys.ENTER)
        self.settle()

    def press(self, *keys: str) -> None:
        """Presses keys where the focus is."""
        self.driver.switch_to.active_element.send_keys(*keys)
        self.settle()

    def act(self, *words: object) -> Any:
        """Runs an act of acts.js, much faster than by mouse and keyboard, and returns its answer."""
        return self.wait_for(ACTS, *words)

    def downloaded(self, place: str) -> tuple[str, bytes]:
        """The file that a button downloads: its name and its bytes."""
        for file in self.downloads.iterdir():
            file.unlink()
        self.at(place).click()

        def ended() -> Path | None:
            """The file, once it is complete: before that it is empty, and a partial file is next to it."""
            file, *others = [*self.downloads.iterdir(), None]
            is_whole = file and others == [None] and file.suffix not in PARTIAL and file.stat().st_size
            return file if is_whole else None

        file = self.until(ended, f"what {place} downloads")
        return file.name, file.read_bytes()
