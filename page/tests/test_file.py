"""The file board.html: its size and bytes, the module in it, and that it asks no network for anything."""
from __future__ import annotations

import json
import re
import shutil
import subprocess
import tempfile
from pathlib import Path

from chromium import Page
from figures import check_figures
from oracle import TOP, Oracle
from selenium.webdriver.common.keys import Keys
from test_tables import open_file

MOST_BYTES = 1024 * 1024
BUILT = TOP / "page" / "out" / "board.html"
COMMITTED = TOP / "board.html"
# The parts of a page, and last the whole. The module is in base64: its first bytes are a zero and asm.
MODULE = r"AGFzb[A-Za-z0-9+/]+=*"
PARTS = {"module": MODULE, "script": "<script.*?</script>", "style": "<style.*?</style>", "text": ".*"}


def text_of(page: Path) -> str:
    return page.read_bytes().decode()


def part_of(text: str, pattern: str) -> list[str]:
    return re.findall(pattern, text, re.DOTALL)


def other_tools() -> str:
    """The tools here that differ from those that made the committed page."""
    done = subprocess.run([TOP / "tools" / "made-with", "--compare"], stdout=subprocess.PIPE, text=True)
    return done.stdout or "none"


def test_size(page: Page) -> None:
    # Catches: a page that no longer passes by mail, since a library got into it twice.
    assert BUILT.stat().st_size <= MOST_BYTES, f"{BUILT.stat().st_size} bytes"


def test_same_bytes(page: Page) -> None:
    # Catches: a time or an order by chance in what is built, so that nobody can check the bytes.
    first = BUILT.read_bytes()
    subprocess.run([TOP / "page" / "build"], check=True, capture_output=True)
    # Of bytes in an assertion, pytest takes many minutes to show where they differ.
    is_same = BUILT.read_bytes() == first
    assert is_same, "two builds differ"


def test_no_way_to_a_folder(page: Page) -> None:
    # Catches: a module of Debian's that is named by its way from the clone, so that each folder makes other bytes.
    assert "../" not in text_of(BUILT) and str(TOP) not in text_of(BUILT)


def test_committed(page: Page) -> None:
    # Catches: a board.html at the top of the repository that isn't what the repository makes.
    committed, built = text_of(COMMITTED), text_of(BUILT)
    differ = [name for name, pattern in PARTS.items() if part_of(committed, pattern) != part_of(built, pattern)]
    assert not differ, f"board.html and page/out/board.html differ in the {differ[0]}. Other tools:\n{other_tools()}"


def test_no_request(page: Page) -> None:
    # Catches: a font, a script or a picture that is fetched from somewhere, which says who looks at what.
    page.driver.get_log("performance")
    page.open()
    messages = [json.loads(it["message"])["message"] for it in page.driver.get_log("performance")]
    asked = [it["params"]["request"]["url"] for it in messages if it["method"] == "Network.requestWillBeSent"]
    assert asked and all(re.match("(file|data|blob):", it) for it in asked), asked
    assert asked.count(page.file.as_uri()) == len([it for it in asked if it.startswith("file:")]) == 1, asked


def test_policy(page: Page) -> None:
    # Catches: a policy that is there and forbids nothing: each way to ask a network for something is tried.
    script = """
        const [done] = [...arguments].slice(-1), seen = [];
        document.addEventListener("securitypolicyviolation", (it) => seen.push(it.effectiveDirective));
        const address = "https://board.invalid/it";
        fetch(address).catch(() => {});
        try { new WebSocket("wss://board.invalid/"); } catch {}
        for (const [name, key] of [["img", "src"], ["iframe", "src"], ["script", "src"]]) {
          document.body.append(Object.assign(document.createElement(name), { [key]: address }));
        }
        document.head.append(Object.assign(document.createElement("link"), { rel: "stylesheet", href: address }));
        setTimeout(() => done(seen), 300);
    """
    seen = page.wait_for(script)
    wanted = {"connect-src": 2, "img-src": 1, "frame-src": 1, "script-src-elem": 1, "style-src-elem": 1}
    assert {it: seen.count(it) for it in seen} == wanted, seen
    page.driver.get_log("browser")


def test_other_folder(page: Page) -> None:
    # Catches: a page that opens in its own folder alone, or under its own name alone.
    with tempfile.TemporaryDirectory() as folder:
        copy = Path(folder, "board (1) é.html")
        shutil.copy(BUILT, copy)
        page.open(copy)


def test_without_a_worker(page: Page, oracle: Oracle, tmp_path: Path) -> None:
    # Catches: an empty page where a browser makes no worker for a file, and workbooks that a worker alone can read.
    page.open(None, "Worker")
    assert page.act("votes", "XAD", "+40%")
    check_figures(page, oracle, ["votes,XAD,318104"])
    page.click("#export")
    name, content = page.downloaded("#export-xlsx")
    page.press(Keys.ESCAPE)
    open_file(page, tmp_path / name, content, "#refusal")
    assert "the workbook of results that this page exports" in page.text("#refusal")


def test_without_webassembly(page: Page) -> None:
    # Catches: an empty page, or a count of another kind, where the module can't run.
    page.load(None, "Worker", "WebAssembly")
    page.until(lambda: page.text("#needs").startswith("This page needs a browser"), "the sentence")
    assert not page.all("#chair-table, .chart")
    page.driver.get_log("browser")
