"""The Fund's table in the layouts in which it goes around: read right, with one question at most."""
from __future__ import annotations

from pathlib import Path
from random import Random

import pytest
from chromium import EVERY, Page
from layouts import LAYOUTS, drawn_board
from test_tables import open_file, records, take
from tests.shared.sizes import drawn, seed

BROWSERS = EVERY
SOME = Random(seed()).sample(list(LAYOUTS), drawn(4, len(LAYOUTS)))
# What a reader who knows the table answers, by how the question's id begins.
ANSWERS = {"merged": "yes", "alternate": "yes", "single": "own", "headings": "yes", "outside": "add"}


def answered(page: Page) -> int:
    """Answers what is open: how many questions there were."""
    many = 0
    while found := page.run("return document.querySelector('fieldset.question.open')?.id ?? '';"):
        [key] = [answer for begin, answer in ANSWERS.items() if found.startswith(begin)][:1]
        page.click(f"#{found}-{key}")
        many += 1
    return many


@pytest.mark.parametrize("name", SOME)
def test_layout(page: Page, name: str, tmp_path: Path) -> None:
    # Catches: a layout in which a member comes to another chair, a total or an alternate becomes a member or a chair,
    # or that asks about what the table itself proves.
    board = drawn_board(Random(f"{seed()} {name}"))
    open_file(page, tmp_path / name, LAYOUTS[name](board))
    assert answered(page) <= 1, page.texts("fieldset.question legend")
    take(page, name.partition(".")[0])
    lines = records(page)
    mark = lines.index("script")
    votes = dict(it.split(",") for it in lines[:mark])
    chairs: dict[str, list[int]] = {}
    for _, code, chair in (it.split(",") for it in lines[mark + 1 :] if it.startswith("move,")):
        chairs.setdefault(chair, []).append(int(votes[code]))
    assert list(chairs.values()) == [[votes for _, votes in it.members] for it in board]
    assert len(votes) == 190
