"""Exported files, and the studies that are read back from them."""
from __future__ import annotations

import base64
import hashlib
import json
import re
import struct
import subprocess
import xml.etree.ElementTree as ElementTree
from pathlib import Path

import pytest
from chromium import Page
from figures import BEFORE, EACH, check_figures, drawn_chairs, lowest, rows, shown_majorities, table_rows
from oracle import EXAMPLE, TOP, Oracle
from replay_output import read_output
from selenium.webdriver.common.keys import Keys
from test_random import table_of

COMMANDS = ["votes,XAD,318104", "move,XAA,2", "suspend,XAC"]
MODULE = re.compile('<script type="text/plain" id="module">(.*?)</script>')
PROVENANCE = ["counted by board ", "module board.wasm sha256 ", "table ", "script sha256 ", "lines sha256 ", "date "]


@pytest.fixture
def study(page: Page) -> Page:
    """The page with three changes, one of them in per cent, and its exports open."""
    for act in [["votes", "XAD", "+40%"], ["move", "XAA", "2"], ["suspend", "XAC"]]:
        assert page.act(*act)
    page.click("#export")
    return page


def sha256(content: bytes) -> str:
    return hashlib.sha256(content).hexdigest()


def check_provenance(text: str, page: Page, oracle: Oracle) -> None:
    """A file gives the version and the hashes of all sources of its numbers."""
    lines = text.splitlines()
    starts = [next((it for it in lines if start in it), "") for start in PROVENANCE]
    assert all(starts) and re.search(r"counted by board \d+\.\d+\.\d+, sources [0-9a-f]{64}", starts[0]), lines[:9]
    script = oracle.script(COMMANDS, shown_majorities(page)).encode()
    assert starts[1].endswith(sha256(base64.b64decode(MODULE.findall(page.file.read_text())[0])))
    assert starts[2].endswith(sha256(EXAMPLE.read_bytes()))
    assert starts[3].endswith(sha256(script)) and starts[4].endswith(sha256(oracle.lines(script)))


def test_script(study: Page, oracle: Oracle) -> None:
    # Catches: a file that isn't the text that was replayed: other line ends, a byte order mark, an older state.
    name, content = study.downloaded("#export-script")
    assert name.endswith(".csv") and content.decode() == oracle.script(COMMANDS, shown_majorities(study))


def test_beside(study: Page, oracle: Oracle) -> None:
    # Catches: a script that is passed on without a word on where its numbers come from.
    name, content = study.downloaded("#export-beside")
    assert name.endswith(".study.json")
    check_provenance("\n".join(json.loads(content)["provenance"]), study, oracle)


def test_csv(study: Page, oracle: Oracle) -> None:
    # Catches: a table with other columns, names or roundings than that of board-study.
    _, content = study.downloaded("#export-csv")
    head = [line for line in content.decode().splitlines() if line.startswith("# ")]
    check_provenance("\n".join(head), study, oracle)
    assert table_of(content.decode()) == table_of(oracle.study({"changed": COMMANDS}, shown_majorities(study)))


def test_csv_of_the_script(study: Page, oracle: Oracle, tmp_path: Path) -> None:
    # Catches: a table that is board-study's only as far as the tests' own call of its modules goes.
    _, content = study.downloaded("#export-csv")
    words = ["examples/members.csv", str(tmp_path / "it")]
    words += ["--at", ",".join(shown_majorities(study)), "--scenario", f"changed: {'; '.join(COMMANDS)}"]
    subprocess.run([TOP / "bindings" / "python" / "commands" / "board-study", *words], check=True, cwd=TOP)
    assert table_of(content.decode()) == table_of((tmp_path / "it.csv").read_text())


@pytest.mark.parametrize("tab", ["power", "change"])
def test_svg(study: Page, oracle: Oracle, tab: str) -> None:
    # Catches: a picture that another program can't read, that lacks a chair or says nothing of its source.
    study.press(Keys.ESCAPE)
    study.click(f"#tab-{tab}")
    study.click("#export")
    _, content = study.downloaded("#export-svg")
    picture = ElementTree.fromstring(content)
    chairs = [int(it.get("data-chair", "")) for it in picture.iter() if it.get("data-chair")]
    assert chairs == drawn_chairs(study) and len(chairs) == 24 and picture.tag == "{http://www.w3.org/2000/svg}svg"
    check_provenance(content.decode().partition("<!--")[2], study, oracle)
    texts = " ".join("".join(it.itertext()) for it in picture.iter("{http://www.w3.org/2000/svg}text"))
    assert "Source: " in texts and study.text("#study-name") in texts
    study.click("#with-title")
    assert study.text("#study-name") + ":" not in study.downloaded("#export-svg")[1].decode().split("-->")[1]


def test_png(study: Page) -> None:
    # Catches: an empty picture, or one too coarse to print.
    _, content = study.downloaded("#export-png")
    width, height = struct.unpack(">II", content[16:24])
    assert content.startswith(b"\x89PNG\r\n\x1a\n") and width >= 1600 and height >= 800 and len(content) > 50_000


@pytest.mark.parametrize("is_exact", [False, True])
def test_clipboard(study: Page, is_exact: bool) -> None:
    # Catches: a copy with thousands or per cent signs in its numbers, which a spreadsheet takes for texts.
    if is_exact:
        study.press(Keys.ESCAPE)
        study.click("#tab-table")
        study.click("#toggle-fractions")
        study.click("#export")
    study.click("#export-copy")
    study.until(lambda: study.text("#export-words"), "word of the copy")
    study.press(Keys.ESCAPE)
    study.click("#paste")
    # As one does it: without a click into the field.
    study.press(Keys.CONTROL, "v")
    text = str(study.at("#paste-text").get_property("value"))
    # The last column has the vetoes.
    copied = {int(line.split("\t")[0]): line.split("\t")[2:-1] for line in text.splitlines()[1:-1]}
    assert text.splitlines()[0].endswith("\tVeto")
    assert text.splitlines()[-1].startswith("\tAll chairs\t")
    shown = {chair: [cell[is_exact] for cell in cells[1:]] for chair, cells in table_rows(study).items()}
    plain = {chair: [re.sub(",| %$", "", it).replace("−", "-") for it in cells] for chair, cells in shown.items()}
    assert copied == plain


def test_page_with_its_study(study: Page, oracle: Oracle, tmp_path: Path) -> None:
    # Catches: a page that is sent to somebody and opens with the example, or with changes that are numbers alone.
    study.press(Keys.ESCAPE)
    study.click("#at-70")
    study.choose("#measure", "prevent")
    study.write("#scenario-name", "Kept")
    changes = study.texts("#changes .change-words")
    study.click("#export")
    _, content = study.downloaded("#export-page")
    file = tmp_path / "study.html"
    file.write_bytes(content)
    study.open(file)
    assert study.texts("#changes .change-words") == changes and changes[0].endswith("(+40 %)")
    assert shown_majorities(study) == ["half", "70", "85"]
    check_figures(study, oracle, COMMANDS, "prevent")
    assert study.all('#scenarios tr[data-scenario="Kept"]')


def taken_back(page: Page, files: dict[str, bytes], folder: Path) -> None:
    """Opens the page from scratch, and then files by its button."""
    for name, content in files.items():
        (folder / name).write_bytes(content)
    page.open()
    page.at("#file").send_keys("\n".join(str(folder / name) for name in files))
    page.until(lambda: page.all("#changes > li") or page.all("dialog"), "the study")
    page.settle()


def test_import_of_the_script(study: Page, oracle: Oracle, tmp_path: Path) -> None:
    # Catches: a script that comes back with its changes in the base, or with another order.
    _, content = study.downloaded("#export-script")
    taken_back(study, {"it.csv": content}, tmp_path)
    assert [it.get_attribute("data-state") for it in study.all("#changes > li")] == ["accepted"] * 3
    check_figures(study, oracle, COMMANDS)
    assert study.act("exported", "export-script").encode() == content


def test_import_of_script_and_file_beside(study: Page, oracle: Oracle, tmp_path: Path) -> None:
    # Catches: names and per cent that are lost, though the file next to the script has them.
    files = dict([study.downloaded("#export-script"), study.downloaded("#export-beside")])
    changes = study.texts("#changes .change-words")
    taken_back(study, files, tmp_path)
    assert study.texts("#changes .change-words") == changes
    check_figures(study, oracle, COMMANDS)


def test_import_of_the_page(study: Page, oracle: Oracle, tmp_path: Path) -> None:
    # Catches: an exported page that opens alone and can't be dropped on another one.
    _, content = study.downloaded("#export-page")
    changes = study.texts("#changes .change-words")
    taken_back(study, {"it.html": content}, tmp_path)
    assert study.texts("#changes .change-words") == changes
    check_figures(study, oracle, COMMANDS)


def test_script_of_another_form(page: Page, oracle: Oracle) -> None:
    # Catches: a script that this page didn't write, whose changes are lost or whose lines become other numbers.
    script = (TOP / "examples" / "twenty-four-chairs.csv").read_bytes()
    page.run(DROP, "chairs.csv", script.decode())
    page.until(lambda: page.text("#study-name") == "chairs", "the study")
    page.settle()
    readings = read_output(oracle.lines(script)).readings
    last = [it for it in readings if it.front == readings[-1].front]
    for reading in last:
        at = shown_majorities(page).index(reading.majority)
        found = {chair: of[BEFORE + EACH * at + 1][1] for chair, of in rows(page).items()}
        assert found == {it.chair: lowest(it.share) for it in reading.chairs}
    assert len(last) == 2 < len(readings)
    assert "another form" in page.text("#choices")


@pytest.mark.parametrize(
    ("old", "new", "fault"),
    [
        ("read,1,half", "read,3,half", "BadReader"),
        ("suspend,XAC", "suspend,xac", "BadRecord"),
        ("XAB,", "XAA,", "DuplicateMember"),
        ("publish", "\n" * 2**22 + "publish", "TooLong"),
    ],
    ids=lambda it: str(it)[-15:].strip(),
)
def test_script_with_a_fault(page: Page, oracle: Oracle, old: str, new: str, fault: str) -> None:
    # Catches: a script that the program can't take, and numbers of the study before it under the script's name.
    script = oracle.script(COMMANDS, ["half"]).replace(old, new, 1)
    page.run(DROP, "bad.csv", script)
    page.until(lambda: page.all("#refusal"), "the refusal")
    assert fault in page.text("#refusal") and oracle.lines(script.encode()).endswith(f",{fault}\n".encode())
    page.press(Keys.ESCAPE)
    assert page.text("#study-name").startswith("Example")
    check_figures(page, oracle, [])


# Drops a file on the page, as a mouse does that carries one from a folder.
DROP = """
  const [name, text] = arguments, dataTransfer = new DataTransfer();
  dataTransfer.items.add(new File([text], name, { type: "text/csv" }));
  document.body.dispatchEvent(new DragEvent("drop", { dataTransfer, bubbles: true, cancelable: true }));
"""
