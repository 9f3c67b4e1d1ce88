"""The pages that board-study writes: this page with a study in it, from which its reader goes on."""
from __future__ import annotations

import subprocess
from pathlib import Path

import pytest
from chromium import EVERY, Page
from figures import check_figures
from oracle import EXAMPLE, MAJORITIES, TOP, Oracle
from test_random import table_of

BROWSERS = EVERY
SCENARIOS = {
    "XAD +40% & <b>": ["votes,XAD,+40%", "move,XAA,2"],
    "Two together": ["votes,XAB+XAC,20% of total", "suspend,XAA", "open,25", "move,XAD,25"],
    "In and out": ["move,XBC,none", "withdraw,XBC", "admit,ZZZ,500000", "move,ZZZ,3", "votes,ZZZ,10% of total"],
}
SWEEP = "XAD 10..20 by 2.5 %"


def wait(page: Page) -> None:
    """Waits for the sweep and the scenarios."""
    page.click("#tab-curve")
    page.until(lambda: page.all("#sweep-table"), "the sweep")
    page.until(lambda: "counting" not in page.text("#scenarios"), "the scenarios")


@pytest.fixture
def made(page: Page, tmp_path: Path) -> Path:
    """The folder of a study's files; its page is open."""
    words = [
        word for label, commands in SCENARIOS.items() for word in ("--scenario", f"{label}: {'; '.join(commands)}")
    ]
    words += ["--sweep", SWEEP, "--title", "What if?", str(tmp_path / "it")]
    command = TOP / "bindings" / "python" / "commands" / "board-study"
    subprocess.run([command, EXAMPLE, *words], check=True, stdout=subprocess.DEVNULL)
    page.open(tmp_path / "it.html")
    wait(page)
    return tmp_path


def test_page_of_a_study(page: Page, oracle: Oracle, made: Path) -> None:
    # Catches: a page whose register, scenarios or sweep aren't those of the table next to it.
    assert page.text("#study-name") == "What if?"
    assert page.at("#columns").get_property("value") == "scenarios"
    page.choose("#columns", "changed")
    page.click("#tab-power")
    check_figures(page, oracle, [])
    rows = table_of((made / "it.csv").read_text())
    assert table_of(page.act("exported", "export-csv")) == rows and len({it["scenario"] for it in rows}) == 9
    page.click('[aria-label^="Show XAD"]')
    assert page.texts("#changes .change-words")[0] == "XAD Lomenia: 227,217 → 318,104 (+40 %)"
    assert len(page.all(f"#at-{MAJORITIES[0]}[aria-pressed=true]")) == 1


def test_saved_again(page: Page, made: Path) -> None:
    # Catches: a study that the page can't save again as it was.
    page.click("#export")
    _, content = page.downloaded("#export-page")
    (made / "again.html").write_bytes(content)
    wanted = table_of((made / "it.csv").read_text())
    page.open(made / "again.html")
    wait(page)
    assert table_of(page.act("exported", "export-csv")) == wanted
