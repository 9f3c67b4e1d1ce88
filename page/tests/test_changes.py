"""Changes of the board: each is entered as a user enters it, and the program's numbers must appear."""
from __future__ import annotations

import time
from typing import Any

import pytest
from chromium import Page
from figures import check_figures, open_chair, open_menu, remove_all
from oracle import Oracle
from selenium.webdriver.common.action_chains import ActionChains
from selenium.webdriver.common.keys import Keys


def carry(page: Page, code: str, card: str) -> None:
    """Drags a member to a card by the mouse."""
    chip, target = page.at(f"#chip-{code}"), page.at(f'.card[data-place="{card}"] .card-head')
    mouse: Any = ActionChains
    mouse(page.driver).click_and_hold(chip).move_by_offset(0, 20).move_to_element(target).release().perform()
    page.settle()


def test_drag_by_mouse(page: Page, oracle: Oracle) -> None:
    # Catches: a member that is dropped and stays, or that goes to the next card.
    page.click("#card-1")
    carry(page, "XAA", "2")
    assert page.texts("#changes .change-words") == ["XAA Marenia: chair 1 → chair 2"]
    check_figures(page, oracle, ["move,XAA,2"])


def test_drag_to_none_and_to_a_new_chair(page: Page, oracle: Oracle) -> None:
    # Catches: a new chair that isn't opened before a member moves into it, or that takes a number in use.
    page.show(height=3000)
    page.click("#card-1")
    carry(page, "XAA", "new")
    page.click("#card-2")
    carry(page, "XAB", "none")
    check_figures(page, oracle, ["open,25", "move,XAA,25", "move,XAB,none"])


def pick_up(page: Page, *keys: str) -> None:
    """Picks XAA up by keyboard, and presses more keys."""
    page.click("#card-1")
    page.run('document.getElementById("chip-XAA").focus();')
    for key in [Keys.SPACE, *keys]:
        page.press(key)


def test_drag_by_keyboard(page: Page, oracle: Oracle) -> None:
    # Catches: a page that can be used by a mouse alone; a focus that is lost with the member that moved.
    pick_up(page, Keys.ARROW_DOWN, Keys.ARROW_DOWN, Keys.ARROW_UP)
    assert [it.get_attribute("data-place") for it in page.all(".card.aimed")] == ["2"]
    page.press(Keys.ENTER)
    check_figures(page, oracle, ["move,XAA,2"])
    assert page.run("return document.activeElement.id;") == "chip-XAA"


def test_drag_given_up(page: Page, oracle: Oracle) -> None:
    # Catches: Escape that drops the member where it is aimed at.
    pick_up(page, Keys.ARROW_DOWN, Keys.ESCAPE)
    assert not page.all("#changes > li")
    check_figures(page, oracle, [])


def test_move_by_menu(page: Page, oracle: Oracle) -> None:
    # Catches: a phone, on which nothing is dragged, without a way to move a member.
    open_menu(page, "XAD")
    page.choose("#move-to", "23")
    page.click("#move-take")
    check_figures(page, oracle, ["move,XAD,23"])


@pytest.mark.parametrize(
    ("field", "text", "votes", "words"),
    [
        ("number", "318104", 318_104, "XAD Lomenia: 227,217 → 318,104"),
        ("own", "+40", 318_104, "XAD Lomenia: 227,217 → 318,104 (+40 %)"),
        ("own", "-12.5", 198_815, "XAD Lomenia: 227,217 → 198,815 (-12.5 %)"),
        ("total", "40", None, "XAD Lomenia: 227,217 → {:,} (40 % of the total)"),
    ],
)
def test_votes(page: Page, oracle: Oracle, field: str, text: str, votes: int | None, words: str) -> None:
    # Catches: a sign that changes what per cent means; a share of the old total; rounding that isn't half to even.
    rest = sum(it.votes for it in oracle.table.members if it.code != "XAD")
    wanted = round(rest * 40 / 60) if votes is None else votes
    open_menu(page, "XAD")
    page.write(f"#votes-{field}", text)
    check_figures(page, oracle, [f"votes,XAD,{wanted}"])
    assert page.texts("#changes .change-words") == [words.format(wanted)]


@pytest.mark.parametrize(("field", "text"), [("number", "+40"), ("number", "4e5"), ("own", "40"), ("total", "+40")])
def test_votes_that_are_none(page: Page, field: str, text: str) -> None:
    # Catches: 40 in the field for plus and minus, taken as 40 per cent of the total, or 4e5 as 4 votes.
    open_menu(page, "XAD")
    page.write(f"#votes-{field}", text)
    assert page.at(f"#votes-{field}").is_displayed() and not page.all("#changes > li")


def test_suspend_and_restore(page: Page, oracle: Oracle) -> None:
    # Catches: a suspended member whose votes stay in the total, and a menu that offers what can only be refused.
    open_menu(page, "XAB")
    assert not page.all("#restore")
    page.click("#suspend")
    check_figures(page, oracle, ["suspend,XAB"])
    assert "suspended: XAB Roswick" in page.text("#summary")
    page.click("#chip-XAB")
    assert not page.all("#suspend")
    page.click("#restore")
    check_figures(page, oracle, [])


def test_a_move_without_a_place(page: Page) -> None:
    # Catches: Enter in a member's menu that moves it to the first chair of the list.
    open_menu(page, "XAC")
    assert page.at("#move-to").get_property("value") == ""
    page.click("#move-take")
    assert page.all("#member") and not page.all("#changes > li")


def test_admit_and_withdraw(page: Page, oracle: Oracle) -> None:
    # Catches: a member that is admitted into a chair before it is a member, or withdrawn while it sits.
    page.click("#admit-open")
    for field, text in {"code": "ZAA", "name": "Zealand", "votes": "500000"}.items():
        page.at(f"#admit-{field}").send_keys(text)
    page.choose("#admit-chair", "3")
    page.click("#admit-take")
    open_menu(page, "XHH")
    page.click("#withdraw")
    check_figures(page, oracle, ["admit,ZAA,500000", "move,ZAA,3", "withdraw,XHH"])


def test_refused_in_red(page: Page, oracle: Oracle) -> None:
    # Catches: a refused command that vanishes, that is shown as done, or that changes a number.
    open_menu(page, "XAA")
    page.click("#suspend")
    page.click("#chip-XAA")
    page.choose("#move-to", "2")
    page.click("#move-take")
    assert [it.get_attribute("data-state") for it in page.all("#changes > li")] == ["accepted", "refused"]
    refusal = page.at("#changes [data-state=refused] .refusal")
    assert refusal.text.startswith("refused 5 MemberSuspended: the member's voting rights are suspended")
    red, green, blue = map(int, refusal.value_of_css_property("color").strip("rgba()").split(",")[:3])
    assert red > 1.5 * max(green, blue)
    check_figures(page, oracle, ["suspend,XAA", "move,XAA,2"])


def numbers(page: Page) -> list[str]:
    """What the page says of the board: its summary, its sentences, and the table behind the list."""
    return [page.text(it) for it in ("#summary", "#sentences", "#panel")]


def test_undo_and_redo(page: Page, oracle: Oracle) -> None:
    # Catches: an undo that leaves a part of a change, or that undoes two at once.
    check_figures(page, oracle, [])
    seen = [numbers(page)]
    for act in [["move", "XAA", "2"], ["votes", "XAB", "+10%"], ["suspend", "XAC"], ["remove", "1"], ["switch", "0"]]:
        assert page.act(*act)
        seen.append(numbers(page))
    for before in seen[-2::-1]:
        page.run("document.activeElement.blur();")
        page.press(Keys.CONTROL, "z")
        assert numbers(page) == before
    assert not page.at("#undo").is_enabled()
    check_figures(page, oracle, [])
    for after in seen[1:]:
        page.click("#redo")
        assert numbers(page) == after
    check_figures(page, oracle, ["suspend,XAC"])


def test_list_of_changes(page: Page, oracle: Oracle) -> None:
    # Catches: a change that is switched off and counts, or per cent of votes that an earlier change no longer gives.
    for act in [["votes", "XAA", "100000"], ["votes", "XAA", "+50%"]]:
        assert page.act(*act)
    more = round(1.5 * next(it.votes for it in oracle.table.members if it.code == "XAA"))
    check_figures(page, oracle, ["votes,XAA,100000", "votes,XAA,150000"])
    assert page.act("switch", "0")
    check_figures(page, oracle, [f"votes,XAA,{more}"])
    assert page.act("switch", "0") and page.act("earlier", "1")
    check_figures(page, oracle, [f"votes,XAA,{more}", "votes,XAA,100000"])
    remove_all(page)
    check_figures(page, oracle, [])


def test_open_and_close_chairs(page: Page, oracle: Oracle) -> None:
    # Catches: an empty chair that can't be closed, or a closed one that stays in the count.
    seated = [it.code for it in oracle.table.members if it.chair == 24]
    for code in seated:
        assert page.act("move", code, "none")
    moved = [f"move,{code},none" for code in seated]
    open_chair(page, 24)
    page.click("#close-24")
    check_figures(page, oracle, [*moved, "close,24"])
    page.click("#open-new")
    check_figures(page, oracle, [*moved, "close,24", "open,24"])


def test_overtaken_run(page: Page, oracle: Oracle) -> None:
    # Catches: numbers of an earlier edit that come late and stay; old numbers that look like new ones while it counts.
    assert page.act("votes", "XAD", "+40%")
    overtake = """
      const at = (place) => document.querySelector(`#changes ${place}`);
      const cards = document.getElementById("cards");
      // What is counted fast doesn't turn grey at all: this looks at what it will be.
      const look = () => {
        for (const it of cards.getAnimations()) it.finish();
        return Number(getComputedStyle(cards).opacity);
      };
      const looks = [look()];
      for (const percent of [50, 60, 70]) {
        at("input[type=range]").value = percent;
        at("input[type=range]").dispatchEvent(new Event("input", { bubbles: true }));
        looks.push(look());
      }
      at("[id^=remove]").click();
      return looks;
    """
    before, *during = page.run(overtake)
    assert before == 1 and max(during) < 0.6
    page.settle()
    time.sleep(0.5)
    check_figures(page, oracle, [])
    assert not page.all("#changes > li")
