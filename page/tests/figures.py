"""The figures on the page, compared with the program's output."""
from __future__ import annotations

from fractions import Fraction

from chromium import Page
from oracle import MAJORITIES, Oracle
from replay_output import Chair, Ratio
from rounding import exact

# For each row of the table of the chart, or on the tab Table: its chair, and its name and other cells as texts and
# fractions; and before them, for each of the other cells, the heading of its group and its own.
TABLE = """
  const [done] = [...arguments].slice(-1), box = document.getElementById("behind");
  if (box) box.open = true;
  (function read() {
    const [groups, own, ...rows] = document.querySelectorAll("#chair-table :is(thead, tbody) tr");
    if (!rows.length) return setTimeout(read, 1);
    const wide = [...groups.cells].flatMap((it) => Array(it.colSpan).fill(it.textContent));
    const heads = [...own.cells].map((it, at) => [wide[at], it.textContent]).slice(2);
    const fraction = ({ title }) => (title.includes("isn't open") ? "" : title.split(" ")[0]);
    const cells = (row) => [...row.querySelectorAll("td")].map((it) => [it.textContent, fraction(it)]);
    done([heads, rows.map((row) => [Number(row.dataset.chair), cells(row)])]);
  })();
"""
# The cells of a row before those of the majorities: the name, and votes.
BEFORE = 6
# The cells of a majority: base, changed, and the gain.
EACH = 3
Cell = tuple[str, str]
# What is added where nothing is changed.
NOTHING = ("+0", "0/1")


def things(heads: list[Cell], cells: list[Cell]) -> dict[str, list[Cell]]:
    """The cells of a row by what they are of: those of the base, then of each column with what is added. Before a
    change the base stands alone, and is the changed board, too."""
    found: dict[str, list[Cell]] = {}
    for (group, own), cell in zip(heads, cells):
        if not own.startswith("over votes"):
            found.setdefault("Share of votes" if own == "share" else group, []).append(cell)
    return {it: of * 2 + [NOTHING] * (it != "Votes") if len(of) == 1 else of for it, of in found.items()}


def table_rows(page: Page) -> dict[int, list[Cell]]:
    """The table's cells by chair, in its own order: the name, and the numbers."""
    _, lines = page.wait_for(TABLE)
    return {chair: [(text, fraction) for text, fraction in cells] for chair, cells in lines}


def rows(page: Page) -> dict[int, list[Cell]]:
    """The table's cells by chair: the text, and the exact fraction; first the name and the votes, then those of each
    majority. A chair that was closed and opened again has two rows, one with the cells of the base and one with those
    of the changed board."""
    found: dict[int, list[Cell]] = {}
    heads, lines = page.wait_for(TABLE)
    for chair, (name, *cells) in lines:
        of = things(heads, [(text, fraction) for text, fraction in cells])
        votes = of.pop("Votes") + of.pop("Share of votes")
        line: list[Cell] = [(name[0], name[1]), *votes, *(cell for cells in of.values() for cell in cells)]
        earlier = found.get(chair, [("", "")] * len(line))
        found[chair] = [old if old[1] else new for old, new in zip(earlier, line)]
    return found


def shown_majorities(page: Page) -> list[str]:
    return [it for it in MAJORITIES if page.at(f"#at-{it}").get_attribute("aria-pressed") == "true"]


def measure_of(chair: Chair, measure: str, cast: int = 0) -> Ratio | None:
    if measure == "ratio":
        if chair.share is None or not chair.weight:
            return None
        return Ratio(*(exact(chair.share) * cast / chair.weight).as_integer_ratio())
    return Ratio(chair.swings, 1) if measure == "swings" else getattr(chair, measure)


def lowest(ratio: Ratio | None) -> str:
    """A fraction as the page has it: in lowest terms, and with a denominator of 1, too."""
    value = ratio and exact(ratio)
    return "-" if value is None else f"{value.numerator}/{value.denominator}"


def fraction_text(ratio: Ratio | None, measure: str) -> str:
    """A value in the page's form: a fraction, and swings as a number."""
    return str(ratio.numerator) if ratio and measure == "swings" else lowest(ratio)


def check_figures(page: Page, oracle: Oracle, commands: list[str], measure: str = "share") -> int:
    """The fractions of base and changed, and the votes, are those that the program prints: how many were compared."""
    majorities, cells, many = shown_majorities(page), rows(page), 0
    for which, some in enumerate((list[str](), commands)):
        for at, reading in enumerate(oracle.output(some, majorities).readings):
            found = {chair: of[BEFORE + EACH * at + which][1] for chair, of in cells.items()}
            wanted = {it.chair: fraction_text(measure_of(it, measure, reading.cast), measure) for it in reading.chairs}
            assert {chair: it for chair, it in found.items() if it} == wanted, (reading.majority, some)
            votes = {chair: of[1 + which][1] for chair, of in cells.items() if of[1 + which][1]}
            assert votes == {it.chair: str(it.weight) for it in reading.chairs}
            many += len(wanted) + len(votes)
    return many


def gains(oracle: Oracle, commands: list[str], majority: str) -> dict[int, Fraction]:
    """The gain in each chair's share of power by commands that close no chair and open none."""
    before, after = (oracle.output(it, [majority]).readings[0].chairs for it in (list[str](), commands))
    shares = [{it.chair: exact(it.share) for it in chairs if it.share} for chairs in (before, after)]
    return {chair: share - shares[0][chair] for chair, share in shares[1].items()}


def drawn_chairs(page: Page) -> list[int]:
    """The chairs of the list, from top to bottom: those that are open now."""
    places = page.run("return [...document.querySelectorAll('#cards .card:has(.plot)')].map((it) => it.dataset.place);")
    return [int(it) for it in places if not it.startswith("closed")]


def open_chair(page: Page, chair: int) -> None:
    """Opens a chair's row."""
    if page.at(f"#card-{chair}").get_attribute("aria-expanded") == "false":
        page.click(f"#card-{chair}")


def open_menu(page: Page, code: str) -> None:
    """Opens a member's menu by mouse and keyboard."""
    page.write("#filter", code)
    page.click(f"#chip-{code}")


def remove_all(page: Page) -> None:
    """Removes all changes: two or more have a button, and one has its own."""
    has_one = page.run('return document.getElementById("clear-changes").hidden;')
    page.click("#changes [id^='remove-']" if has_one else "#clear-changes")
