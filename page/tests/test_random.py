"""Random lists of acts: after any of them, the exported script gives the numbers on the page."""
from __future__ import annotations

import csv
import random
from fractions import Fraction

import pytest
from actions import Model, drawn_act
from chromium import NARROW, Page
from figures import shown_majorities
from oracle import UNSHOWN, Oracle
from tests.shared.sizes import drawn, seed

PARTS, LISTS, MOST_ACTS = drawn(2, 10), 20, 9
# Opens the script and the lines, reads both, and closes them.
TEXTS = """
  const [done] = [...arguments].slice(-1), source = document.getElementById("source");
  const texts = () => ["script", "lines"].map((it) => document.getElementById(`${it}-text`).textContent);
  source.open = true;
  (function read() {
    if (!texts()[1]) return setTimeout(read, 1);
    done(texts());
    source.open = false;
  })();
"""


def acted(page: Page, oracle: Oracle, some: random.Random) -> Model:
    """Runs a list of acts from the base on, and keeps the expected state."""
    page.run('document.getElementById("clear-changes").click();')
    model = Model()
    for _ in range(some.randint(2, MOST_ACTS)):
        act = drawn_act(some, model, oracle)
        if page.act(*act):
            model.take(act)
    return model


def table_of(text: str) -> list[dict[str, str]]:
    """The rows of a table that is exported, without the lines of its provenance, with fractions in lowest terms."""
    rows = list(csv.DictReader(line for line in text.splitlines(keepends=True) if not line.startswith("# ")))
    for row in rows:
        for name in [it.removesuffix("_numerator") for it in row if it.endswith("_numerator")]:
            if row[f"{name}_denominator"]:
                value = Fraction(int(row[f"{name}_numerator"]), int(row[f"{name}_denominator"]))
                row[f"{name}_numerator"], row[f"{name}_denominator"] = map(str, value.as_integer_ratio())
    return rows


@pytest.mark.parametrize("part", range(PARTS))
def test_random_lists(page: Page, oracle: Oracle, part: int) -> None:
    # Catches: any sequence of acts after which the page shows other numbers than its script gives.
    some = random.Random(seed() + part)
    for majority in some.sample(UNSHOWN, part % 3):
        page.click(f"#at-{majority}")
    majorities = shown_majorities(page)
    # Painting takes most of the time, and there is least of it here.
    page.click("#tab-curve")
    page.show(NARROW, 200)
    for number in range(LISTS):
        commands = acted(page, oracle, some).commands(oracle)
        script, lines = page.wait_for(TEXTS)
        assert script == page.act("exported", "export-script") == oracle.script(commands, majorities), f"list {number}"
        assert lines.encode() == oracle.lines(script.encode()), f"list {number}: {commands}"
        accepted = [command for command, line in zip(commands, oracle.answers(commands)) if line.startswith("acc")]
        wanted = oracle.study({"changed": accepted} if commands else {}, majorities)
        assert table_of(page.act("exported", "export-csv")) == table_of(wanted), f"list {number}: {commands}"
