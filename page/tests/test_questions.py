"""A researcher's day: twenty questions one after the other on one table, each of which ends in an answer."""
from __future__ import annotations

from collections.abc import Callable
from hashlib import sha256
from pathlib import Path
from random import Random

from chromium import Page
from figures import remove_all
from layouts import HEAD, LAYOUTS, Block, drawn_board, rows_of, text_of
from oracle import Oracle
from test_layouts import answered
from test_studies import sweep
from test_tables import open_file, paste, take
from tests.shared.sizes import seed


def changes(page: Page) -> int:
    return len(page.all('#changes > li[data-state="accepted"]'))


def tick(page: Page, names: list[str]) -> None:
    """Ticks members of a dialog by a list that is pasted."""
    page.click("#group-open")
    page.run(
        """const [list, text] = arguments;
      list.value = text;
      list.dispatchEvent(new Event("input", { bubbles: true }));""",
        page.at("#group-list"),
        "\n".join(names),
    )
    assert page.text("#group-words").startswith(f"{len(names)} of ") and not page.text("#group-unknown")


def keep(page: Page, name: str) -> None:
    page.write("#scenario-name", name)
    assert page.all(f'#scenarios tr[data-scenario="{name}"]')


class Day:
    """The page, and the table that is on it."""

    def __init__(self, page: Page, oracle: Oracle, folder: Path):
        self.page, self.oracle, self.folder = page, oracle, folder
        self.board: list[Block] = drawn_board(Random(seed()))
        self.small = [name for it in self.board for name, _ in it.members if len(it.members) > 1]

    def which_members(self) -> None:
        """Load the Fund's table, with members outside of it that its per cents show."""
        rows, total = rows_of(self.board), sum(it.votes for it in self.board) + 2_451
        share = [*HEAD[:3], "Percent of Fund total"]
        body = [[*row[:3], f"{100 * int(row[2].replace(',', '')) / total:.4f}"] for row in rows]
        whole = ["", "Total", f"{total - 2_451:,}", f"{100 - 100 * 2_451 / total:.4f}"]
        paste(self.page, text_of([share, *body, whole]).decode())
        assert answered(self.page) == 2
        take(self.page)
        assert self.page.all('[data-place="none"]')
        open_file(self.page, self.folder / "first.txt", LAYOUTS["tabs.txt"](self.board))
        assert not answered(self.page)
        take(self.page, "first")

    def who_has_most(self) -> None:
        """Who has most power, at four majorities?"""
        for majority in ("70", "quorum"):
            self.page.click(f"#at-{majority}")
        for majority in ("half", "70", "85", "quorum"):
            self.page.click(f"#sort-power-{majority}")
            assert self.page.at(f"#sort-power-{majority}").get_attribute("aria-pressed") == "true"
        said = self.page.texts("#sentences p")
        assert len(said) == 4 and all(" a veto" in it or "vetoes" in it for it in said)

    def two_chairs_as_one(self) -> None:
        """Two chairs as one."""
        assert self.page.act("merge", "20", "21") and changes(self.page) == 1
        keep(self.page, "Merger")

    def more_for_six(self) -> None:
        """40 per cent more for six members."""
        remove_all(self.page)
        tick(self.page, self.small[:6])
        self.page.write("#group-percent", "+40")
        assert changes(self.page) == 1
        keep(self.page, "More")

    def six_points(self) -> None:
        """6 per cent of the total move to them, and the total stays."""
        remove_all(self.page)
        tick(self.page, self.small[:6])
        self.page.choose("#group-others", "pay")
        self.page.write("#group-share", "+6")
        assert changes(self.page) == 1
        assert "+6 percentage points of the total, the others pay in proportion" in self.page.text("#changes")
        keep(self.page, "Six points")

    def a_union(self) -> None:
        """A union of 27 members as one chair; the chairs that it empties are closed."""
        tick(self.page, self.small[10:37])
        self.page.click("#group-take")
        assert changes(self.page) == 2
        if self.page.all("#close-emptied"):
            self.page.click("#close-emptied")

    def side_by_side(self) -> None:
        """Three reforms side by side."""
        self.page.choose("#columns", "scenarios")
        names = {it.get_attribute("data-scenario") for it in self.page.all("#scenarios tr[data-scenario]")}
        assert names == {"Merger", "More", "Six points"}
        self.page.choose("#columns", "changed")

    def another_year(self) -> None:
        """Another published table: who has other votes, who is new, who left?"""
        doubled = [[(name, 2 * votes) for name, votes in it.members[1:] or it.members] for it in self.board]
        later = [Block(f"{it.director}son", it.alternate, members) for it, members in zip(self.board, doubled)]
        open_file(self.page, self.folder / "later.txt", LAYOUTS["tabs.txt"](later))
        assert not answered(self.page)
        self.page.click("#table-compare")
        self.page.until(lambda: self.page.all("#compared"), "the report")
        gone = sum(len(it.members) > 1 for it in self.board)
        said = self.page.text("#compared")
        assert (
            f"{190 - gone} members with other votes; gone: " in said
            and f"another name of a chair: 1 {self.board[0].director} is " in said
        )
        self.page.click("#compared-ok")
        assert changes(self.page) == 190 - gone + 2 * gone and self.page.all('#scenarios tr[data-scenario="later"]')

    def from_how_many(self) -> None:
        """From how many votes has a chair a veto at 85 per cent?"""
        remove_all(self.page)
        self.page.click("#tab-curve")
        self.page.click("#find-open")
        self.page.choose("#find-who", "1")
        self.page.click("#find-run")
        place = '#find-table tr[data-majority="85"][data-what="prevents"]'
        self.page.until(lambda: self.page.all(place), "the votes")
        assert any(it.isdigit() for it in self.page.text(place))
        self.page.click("#find .close")

    def a_curve(self) -> None:
        """The largest from 10 to 20 per cent."""
        sweep(self.page, "1", "base", "10", "20", "0,5")
        assert len(self.page.all("#sweep-table tbody tr")) == 21

    def the_best_move(self) -> None:
        """Which single move helps a chair most?"""
        self.page.click("#best-open")
        self.page.choose("#best-chair", "12")
        self.page.click("#best-run")
        self.page.until(lambda: self.page.all("#best-table tbody tr"), "the moves")
        self.page.click("#best .close")

    def can_five_block(self) -> None:
        """Can five chairs block at 85 per cent?"""
        self.page.click("#tab-coalition")
        for chair in range(8, 13):
            self.page.click(f"#tick-{chair}")
        place = '#verdict-table tr[data-part="blocks"] td[data-majority="85"]'
        assert self.page.text(place) in ("yes", "no")

    def which_block(self) -> None:
        """How many coalitions can block, and which of them are the smallest?"""
        assert all(any(it.isdigit() for it in line) for line in self.page.texts("#blocking li"))
        self.page.choose("#smallest-kind", "blocking")
        assert self.page.all("#smallest-list tr[data-chairs]")

    def the_smallest_with(self) -> None:
        """The smallest winning coalitions with a chair."""
        self.page.choose("#smallest-kind", "winning")
        self.page.choose("#smallest-chair", "9")
        found = [it.get_attribute("data-chairs") for it in self.page.all("#smallest-list tr[data-chairs]")]
        assert found and all("9" in str(it).replace(",", " ").split() for it in found)

    def a_suspension(self) -> None:
        """A member is suspended, and restored."""
        self.page.click("#tab-power")
        self.page.click("#card-1")
        code = self.page.run("return document.querySelector('.chip').dataset.code;")
        assert self.page.act("suspend", code) and self.page.act("restore", code) and changes(self.page) == 2

    def outside_the_table(self) -> None:
        """What if members are outside of the table, as a published total says?"""
        total = sum(it.votes for it in self.board)
        self.page.write("#published", f"{total + 2_451:,}")
        assert "2,451" in self.page.text("#published-words") + self.page.text("#published-wrong")
        self.page.write("#published", f"{total:,}")

    def a_figure(self) -> None:
        """A figure for a paper."""
        self.page.click("#export")
        name, content = self.page.downloaded("#export-svg")
        assert name.endswith(".svg") and b"<svg" in content

    def a_table(self) -> None:
        """A table for a paper."""
        name, content = self.page.downloaded("#export-tex")
        assert name.endswith(".tex") and content.count(b"\\\\") > 24
        self.page.click("#export-dialog .close")

    def save_and_reopen(self) -> None:
        """Save, reopen, undo all, redo all."""
        before = changes(self.page)
        name, content = self.page.downloaded("#save-study")
        (self.folder / name).write_bytes(content)
        for _ in range(before):
            assert self.page.act("undo")
        for _ in range(before):
            assert self.page.act("redo")
        self.page.open()
        self.page.at("#file").send_keys(str(self.folder / name))
        self.page.until(lambda: self.page.text("#study-name") == "first" and changes(self.page) == before, "the study")

    def cite_and_count_again(self) -> None:
        """Cite it, and count it again by the program."""
        self.page.click("#export")
        _, script = self.page.downloaded("#export-script")
        self.page.click("#export-dialog .close")
        self.page.click("#cite-open")
        assert sha256(script).hexdigest() in self.page.at("#cite-text").get_attribute("textContent")
        assert self.oracle.lines(script).count(b"reading,") == 8


QUESTIONS: list[Callable[[Day], None]] = [it for name, it in vars(Day).items() if not name.startswith("__")]


def test_twenty_questions(page: Page, oracle: Oracle, tmp_path: Path) -> None:
    # Catches: a question that ends nowhere, alone or after the others.
    day = Day(page, oracle, tmp_path)
    assert len(QUESTIONS) == 20
    for question in QUESTIONS:
        try:
            question(day)
        except Exception as why:
            raise AssertionError(question.__doc__) from why
