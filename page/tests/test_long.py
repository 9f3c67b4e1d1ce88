"""A script as long as board replay reads: it opens, and an edit after it costs what the edit costs."""
from __future__ import annotations

import random

import pytest
from chromium import POSTED, Page
from oracle import Oracle, text_of
from test_exports import DROP

INPUT_BYTES = 4_194_304
SEED = 20_260_102
# The characters that an edit may post to the worker.
MOST_POSTED = 4_000
OPEN = f"""
  const [done] = [...arguments].slice(-1), name = document.getElementById("study-name");
  (() => {{ {DROP} }})(...arguments);
  (function wait() {{
    const isReady = document.documentElement.dataset.state === "ready" && name.textContent === "long";
    if (isReady) done();
    else setTimeout(wait, 1);
  }})();
"""


@pytest.fixture(scope="module")
def script(oracle: Oracle) -> str:
    """A script of the example's members with commands up to the most bytes that board replay reads."""
    some = random.Random(SEED)
    codes = [it.code for it in oracle.table.members]
    records = oracle.script([], ["half", "85"]).splitlines()
    end = ["publish", "read,1,half", "read,1,85"]
    size = len(text_of([*records, *end]))
    while True:
        code = some.choice(codes)
        votes = f"votes,{code},{some.randint(1, 900_000)}"
        record = votes if some.random() < 0.7 else f"move,{code},{some.randint(1, 24)}"
        size += len(record) + 1
        if size > INPUT_BYTES:
            return text_of([*records, *end])
        records.append(record)


def test_as_long_as_there_may_be(page: Page, oracle: Oracle, script: str) -> None:
    # Catches: a page that replays the whole script at each edit, or lists hundreds of thousands of changes.
    page.run(POSTED)
    page.wait_for(OPEN, "long.csv", script)
    assert page.run("return window.posted[1];") > INPUT_BYTES
    assert "the base is the board after all of them" in page.text("#choices")
    last = oracle.lines(script.encode()).decode().splitlines()
    total = last[-1 - len([it for it in last[-25:] if it.startswith("chair,")])].split(",")[7]
    assert f"{int(total):,} votes" in page.text("#summary")
    page.run("window.posted = [0, 0];")
    assert page.act("votes", "XAD", "300000")
    assert 0 < page.run("return window.posted[1];") < MOST_POSTED
