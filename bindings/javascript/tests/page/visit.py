#!/usr/bin/env python3
"""Runs the package in Chromium: visit.py PACKAGE BUNDLE, the folder of the installed package and a bundle of its tests

The bundle is a script of a page that is opened from disk. Another page and its worker import the package as it is from
a server on this machine. No other address can be reached, and what a page writes to its console counts as failed.
Prints a line for each failure, and last 'N passed, M failed'."""
from __future__ import annotations

import re
import sys
import tempfile
import threading
from collections.abc import Iterator
from functools import partial
from http.server import SimpleHTTPRequestHandler, ThreadingHTTPServer
from pathlib import Path
from typing import Any

HERE = Path(__file__).resolve().parent
sys.path.insert(0, str(HERE.parents[3]))
from tests.shared.browser import started  # noqa: E402
from selenium.webdriver.support.ui import WebDriverWait  # noqa: E402

SECONDS = 600
PAGE = '<!doctype html><meta charset="utf-8"><title>tests</title><link rel="icon" href="data:,"><script {}></script>\n'
FILES = "files are read in Node 20.16 or later only: fetch the file, and pass its bytes"
SHARES = "3/5 1/5 1/5"
README = re.compile("```html\n(.*?)```", re.DOTALL)
WANTED = [SHARES] * 4 + [5, "board.wasm isn't at none.wasm: status 404", FILES, "BadSheet"]


class Plain(SimpleHTTPRequestHandler):
    """Serves files with the types of scripts and pages, and any other as text."""

    extensions_map = {".mjs": "text/javascript", ".js": "text/javascript", ".html": "text/html", "": "text/plain"}

    def log_message(self, *_: object) -> None:
        pass


def ended(browser: Any, address: str) -> Any:
    """What a page comes to."""
    browser.get(address)
    wait = "const end = arguments[0]; Promise.resolve(window.ended).then(end, (why) => end(String(why)))"
    browser.set_script_timeout(SECONDS)
    WebDriverWait(browser, SECONDS).until(lambda it: it.execute_script("return window.ended !== undefined"))
    return browser.execute_async_script(wait)


def failures(browser: Any, room: Path, port: int) -> Iterator[tuple[int, list[str]]]:
    """How many tests of each page passed, and what failed."""
    ran = ended(browser, (room / "bundle.html").as_uri())
    yield (ran["passed"], ran["failed"]) if isinstance(ran, dict) else (0, [str(ran)])
    found = ended(browser, f"http://127.0.0.1:{port}/loaded.html")
    for name, it in zip(["the page", "its worker"], found if isinstance(found, list) else [found] * 2):
        yield (1, []) if it == WANTED else (0, [f"{name}: {it}"])
    browser.get(f"http://127.0.0.1:{port}/readme.html")
    WebDriverWait(browser, SECONDS).until(lambda it: it.execute_script("return document.body.textContent.trim()"))
    text = browser.execute_script("return document.body.textContent")
    yield (1, []) if text == SHARES else (0, [f"README.md: {text}"])
    said = [entry["message"] for entry in browser.get_log("browser") if "none.wasm" not in entry["message"]]
    yield 0, said


def main() -> int:
    package, bundle = (Path(it).resolve() for it in sys.argv[1:3])
    with tempfile.TemporaryDirectory() as folder:
        room = Path(folder)
        (room / "node_modules").mkdir()
        (room / "node_modules" / "voting-board").symlink_to(package)
        (room / "readme.html").write_text(PAGE.format("") + README.findall((package / "README.md").read_text())[0])
        (room / "loaded.mjs").symlink_to(HERE / "loaded.mjs")
        (room / "bundle.js").symlink_to(bundle)
        (room / "bundle.html").write_text(PAGE.format('src="bundle.js"'))
        (room / "loaded.html").write_text(PAGE.format('type="module" src="loaded.mjs"'))
        server = ThreadingHTTPServer(("127.0.0.1", 0), partial(Plain, directory=folder))
        threading.Thread(target=server.serve_forever, daemon=True).start()
        browser: Any = started("--host-resolver-rules=MAP * ~NOTFOUND, EXCLUDE 127.0.0.1", is_offline=False)
        try:
            results = [*failures(browser, room, server.server_port)]
        finally:
            browser.quit()
            server.shutdown()
    failed = [it for _, list_ in results for it in list_]
    for it in failed:
        print(f"Chromium: {it}")
    print(f"{sum(passed for passed, _ in results)} passed, {len(failed)} failed")
    return 1 if failed else 0


if __name__ == "__main__":
    sys.exit(main())
