"""The page in Firefox: it opens from disk, counts, and takes a change."""
from __future__ import annotations

import json
import time

from chromium import ACTS, SECONDS
from conftest import BUILT
from firefox import Firefox, firefox
from oracle import Oracle

TEXTS = """
  document.getElementById("source")?.setAttribute("open", "");
  return ["script", "lines"].map((it) => document.getElementById(`${it}-text`)?.textContent);
"""


def check_lines(fox: Firefox, oracle: Oracle, commands: list[str]) -> None:
    """The script on the page becomes that of the commands, and the lines are the program's."""
    script = oracle.script(commands, ["half", "85"])
    end = time.monotonic() + SECONDS
    while fox.run(TEXTS)[0] != script and time.monotonic() < end:
        time.sleep(0.05)
    assert fox.run(TEXTS) == [script, oracle.lines(script.encode()).decode()]


def test_firefox(oracle: Oracle) -> None:
    # Catches: a page that runs in Chromium alone.
    with firefox() as fox:
        fox.send("WebDriver:Navigate", url=BUILT.as_uri())
        check_lines(fox, oracle, [])
        assert fox.send("WebDriver:ExecuteAsyncScript", script=ACTS, args=["votes", "XAD", "+40%"])["value"] is True
        check_lines(fox, oracle, ["votes,XAD,318104"])
        drawn = fox.run('return document.querySelectorAll("#cards .card:has(.plot)").length;')
        asked = fox.run('return performance.getEntriesByType("resource").map((it) => it.name);')
        # What is pasted first goes into the field.
        assert fox.run('document.getElementById("paste").click(); return document.activeElement.id;') == "paste-text"
        assert drawn == 24 and not [it for it in asked if not it.startswith(("blob:", "data:"))], json.dumps(asked)
