"""Firefox without a window, driven by its own Marionette protocol, since Debian has no geckodriver."""
from __future__ import annotations

import json
import socket
import subprocess
import tempfile
import time
from collections.abc import Iterator
from contextlib import contextmanager
from pathlib import Path
from typing import Any

from chromium import Page
from selenium.common.exceptions import StaleElementReferenceException
from selenium.webdriver.common.keys import Keys
from selenium.webdriver.remote.webelement import WebElement

PROGRAM = "/usr/bin/firefox-esr"
SECONDS = 60.0
# Port 0 has Firefox choose a free port, which it writes into a file of the profile.
SETTINGS: dict[str, object] = {
    "marionette.port": 0,
    "datareporting.policy.dataSubmissionEnabled": False,
    "browser.download.folderList": 2,
}
ELEMENT = "element-6066-11e4-a52e-4f735466cecf"


class Firefox:
    """A session over the socket. A message is its length, a colon, and JSON: [0, number, command, arguments] for a
    command and [1, number, error, result] for its answer."""

    def __init__(self, port: int):
        self.socket = socket.create_connection(("127.0.0.1", port), SECONDS)
        self.answers = self.socket.makefile("rb")
        self.number = 0
        self.receive()
        self.send("WebDriver:NewSession", capabilities={})

    def receive(self) -> Any:
        """The next message."""
        length = b""
        while (byte := self.answers.read(1)) not in (b":", b""):
            length += byte
        return json.loads(self.answers.read(int(length)))

    def send(self, command: str, **arguments: object) -> Any:
        """The result of a command."""
        self.number += 1
        message = json.dumps([0, self.number, command, arguments]).encode()
        self.socket.sendall(b"%d:%s" % (len(message), message))
        _, _, error, result = self.receive()
        if error and error["error"] == "stale element reference":
            raise StaleElementReferenceException(error["message"])
        assert error is None, f"{command}: {error}"
        return result

    def run(self, script: str) -> Any:
        """The value that a script returns in the page."""
        return self.send("WebDriver:ExecuteScript", script=script, args=[])["value"]


def port_of(profile: Path, process: subprocess.Popen[bytes]) -> int:
    """The port that Firefox listens on, once it is open."""
    file, end = profile / "MarionetteActivePort", time.monotonic() + SECONDS
    while time.monotonic() < end and process.poll() is None:
        if file.exists() and (text := file.read_text()):
            return int(text)
        time.sleep(0.05)
    raise AssertionError("Firefox doesn't listen")


@contextmanager
def firefox(downloads: Path | None = None) -> Iterator[Firefox]:
    """A Firefox with a separate profile, which ends with the block. Files are downloaded into a folder."""
    with tempfile.TemporaryDirectory(ignore_cleanup_errors=True) as folder:
        settings = SETTINGS | ({"browser.download.dir": str(downloads)} if downloads else {})
        lines = [f"user_pref({json.dumps(name)}, {json.dumps(value)});\n" for name, value in settings.items()]
        Path(folder, "user.js").write_text("".join(lines))
        words = [PROGRAM, "--headless", "--marionette", "--no-remote", "--profile", folder]
        with subprocess.Popen(words, stdout=subprocess.DEVNULL, stderr=subprocess.DEVNULL) as process:
            try:
                yield Firefox(port_of(Path(folder), process))
            finally:
                process.terminate()


class Element:
    """An element of the page in Firefox, with the part of Selenium's elements that the tests use."""

    def __init__(self, fox: Firefox, reference: str):
        self.fox, self.reference = fox, reference

    def ask(self, command: str, **arguments: object) -> Any:
        return self.fox.send(f"WebDriver:{command}", id=self.reference, **arguments)["value"]

    @property
    def text(self) -> str:
        return str(self.ask("GetElementText"))

    def click(self) -> None:
        self.ask("ElementClick")

    def clear(self) -> None:
        self.ask("ElementClear")

    def send_keys(self, *keys: str) -> None:
        self.ask("ElementSendKeys", text="".join(keys))

    def get_property(self, name: str) -> Any:
        return self.ask("GetElementProperty", name=name)

    def get_attribute(self, name: str) -> Any:
        return self.ask("GetElementAttribute", name=name)

    def is_enabled(self) -> bool:
        return bool(self.ask("IsElementEnabled"))

    def is_displayed(self) -> bool:
        return bool(self.ask("IsElementDisplayed"))

    def is_selected(self) -> bool:
        return bool(self.ask("IsElementSelected"))


class Driver:
    """Firefox, with the part of Selenium's drivers that `Page` uses."""

    def __init__(self, fox: Firefox):
        self.fox = fox

    def execute_script(self, script: str, *words: object) -> Any:
        return self.fox.send("WebDriver:ExecuteScript", script=script, args=words)["value"]

    def execute_async_script(self, script: str, *words: object) -> Any:
        return self.fox.send("WebDriver:ExecuteAsyncScript", script=script, args=words)["value"]

    def find_elements(self, _: str, place: str) -> list[Element]:
        found = self.fox.send("WebDriver:FindElements", using="css selector", value=place)
        return [Element(self.fox, it[ELEMENT]) for it in found]

    @property
    def switch_to(self) -> Driver:
        return self

    @property
    def active_element(self) -> Element:
        return Element(self.fox, self.fox.send("WebDriver:GetActiveElement")["value"][ELEMENT])

    def get(self, url: str) -> None:
        self.fox.send("WebDriver:Navigate", url=url)

    def get_log(self, _: str) -> list[str]:
        """Firefox gives no console."""
        return []


class FirefoxPage(Page):
    """The page in Firefox."""

    def __init__(self, file: Path, downloads: Path, fox: Firefox):
        self.file, self.downloads = file, downloads
        self.driver = Driver(fox)
        fox.send("WebDriver:SetWindowRect", width=1280, height=900)

    def load(self, file: Path | None = None, *without: str) -> None:
        assert not without, "Firefox has all features here"
        self.driver.get((file or self.file).as_uri())

    def at(self, place: str) -> WebElement:
        """The one element that a CSS selector finds, in view: Firefox clicks on nothing else."""
        script = "document.querySelector(arguments[0])?.scrollIntoView({ block: 'center' });"
        self.run(script, place)
        return super().at(place)

    def write(self, place: str, text: str) -> None:
        self.reach(place)
        self.run("document.querySelector(arguments[0]).select();", place)
        self.at(place).send_keys(text, Keys.ENTER)
        self.settle()

    def choose(self, place: str, value: str) -> None:
        script = """
          const list = document.querySelector(arguments[0]);
          list.value = arguments[1];
          list.dispatchEvent(new Event("change", { bubbles: true }));
        """
        self.run(script, place, value)
        self.settle()
