"""What a person did is kept: saved studies open again, scripts in any spelling, and long work can be cancelled."""
from __future__ import annotations

import json
import random
from pathlib import Path

import pytest
from actions import drawn_command, spelled
from chromium import EVERY, Page
from figures import check_figures
from inputs import user_codes
from member_tables import register_of
from oracle import MAJORITIES, TOP, UNSHOWN, Oracle
from test_exports import DROP
from test_random import TEXTS, table_of
from test_said import HEAD, opened
from test_studies import ask
from voting_board.amounts import BadStudy
from voting_board.operations import records_of

BROWSERS = EVERY
SEED, PARTS, SCRIPTS = 20_260_103, 4, 10
LONG = "n" * 3000
PLACES = ["#changes .change-words", "#scenarios tr", "#thresholds li", "#sentences p", "#sweep-table tr"]
NAMES = HEAD + f'AAA,{LONG},40,1,{LONG},\nBBB,"quote "" </script> ,",30,2,a\\b,\nCCC,é\u2028\U0001f600,20,3,,\n'
# 208 members in 32 chairs, which take some milliseconds to count.
WEIGHTY = HEAD + "".join(f"{code},,{10**9 + 7919 * at},{1 + at % 32},,\n" for at, code in enumerate(user_codes(208)))

# As many chairs as the independent count takes.
MANY = HEAD + "".join(f"{code},,{1000 + 7 * at},{1 + at},,\n" for at, code in enumerate(user_codes(26)))


def test_many_tables_that_were_opened(page: Page) -> None:
    # Catches: registers of which only the last few are kept, so that a study before them can't be counted again.
    for votes in range(100, 111):
        opened(page, HEAD + f"AAA,,{votes},1,,\nBBB,,50,2,,\n", f"table {votes}")
    for votes in range(110, 100, -1):
        assert f"{votes + 50} votes" in page.text("#summary")
        page.click("#undo")
    assert page.act("votes", "AAA", "7") and "57 votes" in page.text("#summary")


def reopened(page: Page, name: str, content: bytes, folder: Path) -> None:
    """Opens the page from scratch, and then a file."""
    (folder / name).write_bytes(content)
    page.open()
    page.at("#file").send_keys(str(folder / name))
    page.until(lambda: not page.text("#study-name").startswith("Example"), "the study")
    page.settle()


@pytest.mark.parametrize("way", ["export-beside", "export-page"])
def test_any_study_can_be_saved(page: Page, way: str, tmp_path: Path) -> None:
    # Catches: a saved study that can't be opened, since a name is long or has marks, or loses scenarios and its sweep.
    opened(page, NAMES)
    for act in [["votes", "AAA", "+12.5%"], ["move", "BBB", "none"], ["suspend", "CCC"], ["move", "CCC", "1"]]:
        assert page.act(*act)
    page.write("#published", "281474976710656")
    page.write("#scenario-name", 'A "name"; ñ')
    ask(page, "AAA", "changed", "10", "20", "5")
    page.until(lambda: page.all("#sweep-table"), "the sweep")
    page.until(lambda: "counting" not in page.text("#scenarios"), "the scenarios")
    shown = [page.texts(it) for it in PLACES]
    page.click("#export")
    name, content = page.downloaded(f"#{way}")
    reopened(page, name, content, tmp_path)
    page.until(lambda: page.all("#sweep-table") and "counting" not in page.text("#scenarios"), "all counts")
    assert [page.texts(it) for it in PLACES] == shown
    assert page.at("#published").get_property("value") == "281,474,976,710,656"


def test_a_study_of_the_first_format(page: Page, oracle: Oracle, tmp_path: Path) -> None:
    # Catches: a study that an earlier version saved and that can't be opened any more.
    percent = {"word": "percent", "of": "own", "code": "XAD", "percent": "+40"}
    study = {
        "name": "Old",
        "changes": [{"id": 3, "on": True, "what": {"word": "move", "code": "XAA", "chair": 2}}],
        "scenarios": [{"name": "More", "changes": [{"id": 1, "on": True, "what": percent}]}],
        "published": None,
        "base": {
            "members": [{"code": it.code, "name": it.name, "votes": it.votes, "row": 2} for it in oracle.table.members],
            "commands": [{"word": "open", "chair": chair} for chair in oracle.table.chairs()]
            + [{"word": "move", "code": it.code, "chair": it.chair} for it in oracle.table.members if it.chair],
            "chairNames": oracle.table.chair_names,
            **{"choices": [], "hash": "", "columns": {}},
        },
    }
    view = {"majorities": ["half", "85"], "measure": "share", "order": "number", "orderAt": "85", "digits": 3}
    view |= {"fractions": False, "tab": "power"}
    data = {"format": "board study 1", "provenance": [], "study": study, "view": view}
    reopened(page, "old.json", json.dumps(data).encode(), tmp_path)
    assert page.texts("#changes .change-words") == ["XAA Marenia: chair 1 → chair 2"]
    check_figures(page, oracle, ["move,XAA,2"])
    assert page.all('#scenarios tr[data-scenario="More"]')


def test_file_of_another_study(page: Page, tmp_path: Path) -> None:
    # Catches: the sentence that the study before stays, where the file's is shown.
    assert page.act("votes", "XAD", "1")
    page.click("#export")
    _, study = page.downloaded("#export-beside")
    (tmp_path / "it.study.json").write_bytes(study)
    (tmp_path / "it.csv").write_text((TOP / "examples" / "twenty-four-chairs.csv").read_text())
    page.open()
    page.at("#file").send_keys(f"{tmp_path / 'it.study.json'}\n{tmp_path / 'it.csv'}")
    page.until(lambda: page.all("#refusal"), "the sentence")
    assert "The file's study is shown." in page.text("#refusal") and "stays as it was" not in page.text("#refusal")
    # What was done has no heading that says that it can't be.
    assert page.text("#refusal h2") == "These files are of two studies"
    assert len(page.all("#changes > li")) == 1


def oddly(some: random.Random, script: str) -> str:
    """A script whose fields are quoted in whole or in part, with other line ends and empty lines."""

    def field(text: str) -> str:
        cut = some.randint(0, len(text))
        return some.choice([text, text, f'"{text}"', f'"{text[:cut]}"{text[cut:]}', f'""{text}'])

    lines = [",".join(map(field, it.split(","))) for it in script.splitlines()]
    return "".join(it + some.choice(["\n", "\r\n", "\r", "\n\n"]) for it in lines)


@pytest.mark.parametrize("part", range(PARTS))
def test_scripts_in_odd_spellings(page: Page, oracle: Oracle, part: int) -> None:
    # Catches: a script that the page reads in another way than the program does, whose figures are another register's.
    some = random.Random(SEED + part)
    page.click("#tab-curve")
    for number in range(SCRIPTS):
        majorities = [it for it in MAJORITIES if some.random() < 0.4] or ["85"]
        commands: list[str] = []
        for _ in range(some.randint(0, 9)):
            try:
                drawn = spelled(",".join(drawn_command(some, oracle)))
                commands += records_of(register_of(oracle.table).members, drawn)
            except BadStudy:
                continue
        clean = oracle.script(commands, majorities)
        odd = oddly(some, clean)
        wanted = oracle.lines(odd.encode())
        assert wanted == oracle.lines(clean.encode())
        name = f"odd {number}"
        page.run(DROP, f"{name}.csv", odd)
        page.until(lambda: page.text("#study-name") == name, "the study")
        page.settle()
        script, lines = page.wait_for(TEXTS)
        assert lines.encode() == wanted == oracle.lines(script.encode()), odd
        accepted = [command for command, line in zip(commands, oracle.answers(commands)) if line.startswith("acc")]
        shown = table_of(page.act("exported", "export-csv"))
        rows = table_of(oracle.study({"changed": accepted} if commands else {}, majorities))
        # A script has no names.
        assert [{**it, "name": ""} for it in shown] == [{**it, "name": ""} for it in rows], odd


def test_a_sweep_is_cancelled(page: Page) -> None:
    # Catches: a page that can't be used while it counts, and a Cancel that cancels nothing.
    opened(page, WEIGHTY)
    for majority in UNSHOWN:
        page.click(f"#at-{majority}")
    ask(page, "1", "base", "0", "1000", "1", "votes")
    page.until(lambda: page.all("#waiting progress[value]"), "the progress")
    assert page.text("#waiting").startswith("The sweep is being counted.")
    page.click("#waiting-cancel")
    page.until(lambda: page.text("#sweep-words") == "This can't be swept: cancelled.", "the end")
    assert not page.all("#waiting")
    page.click("#sweep-run")
    page.until(lambda: page.all("#waiting"), "the progress again")
    assert page.act("undo")
    page.until(lambda: not page.all("#waiting"), "the end of what isn't asked for any more")


def test_the_independent_count_is_cancelled(page: Page) -> None:
    # Catches: 2^26 coalitions that nobody can stop.
    opened(page, MANY)
    page.click("#recount-open")
    page.click("#recount-run")
    page.until(lambda: page.all("dialog #waiting"), "the progress")
    page.click("#waiting-cancel")
    page.until(lambda: "cancelled" in page.text("#recount-results"), "the end")
