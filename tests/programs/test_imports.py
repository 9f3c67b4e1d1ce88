"""Tables as LibreOffice, gnumeric, openpyxl, pandas and R save them, opened in the page's reader: each is right without
a question, or is named with its question, its fault or its refusal. None is silently another board."""
from __future__ import annotations

import json
import os
import subprocess
from collections.abc import Iterator
from pathlib import Path
from typing import Any

import pytest

from tests.programs import makers
from tests.programs.tables import LAYOUTS, TOP, wanted

#: What each file that isn't right without a question must say, by a part of its name.
SAID = {
    ".ods": "an OpenDocument file (.ods, .odt)",
    ".fods": "an OpenDocument file (.fods, .fodt)",
    ".dif": "a file of the format DIF",
    ".slk": "a file of the format SYLK",
    ".json": "This is JSON",
    "-table.txt": "as R's write.table has, aren't read",
}
#: Questions that a person answers by a look at the table.
ASKED = ("merged", "alternate", "which-votes")
#: The fault of a file in which R's missing values are a spreadsheet's errors.
FAULTS = {"-openxlsx-na.xlsx": ("chair: a spreadsheet's error",)}


@pytest.fixture(scope="session")
def reader(tmp_path_factory: pytest.TempPathFactory) -> Path:
    """The page's reader as a module of Node."""
    out = tmp_path_factory.mktemp("reader") / "reader.mjs"
    words = ["esbuild", str(TOP / "page" / "tables" / "entry.ts"), "--bundle", "--platform=node", "--format=esm"]
    words += ["--target=es2020", "--loader:.txt=text", "--alias:jszip=/usr/share/nodejs/jszip/lib/index.js"]
    words += ["--external:readable-stream", "--log-level=warning", f"--outfile={out}"]
    subprocess.run(words, check=True, env={**os.environ, "NODE_PATH": "/usr/share/nodejs"})
    return out


def opened(reader: Path, files: list[Path]) -> list[dict[str, Any]]:
    """What the page's reader says of each file."""
    words = ["node", str(Path(__file__).with_name("reader.mjs")), str(reader), *map(str, files)]
    found = subprocess.run(words, check=True, capture_output=True, text=True, timeout=600)
    return [json.loads(line) for line in found.stdout.splitlines()]


def verdict(found: dict[str, Any]) -> str:
    """What the reader says of a file in a word, with the sentence."""
    if found["refused"]:
        return f"refused: {found['refused']}"
    if found["members"] is None:
        return f"asked: {'; '.join([*found['questions'], *found['faults']])}"
    same = sorted(map(tuple, found["members"])) == wanted()
    return "right" if same else f"SILENTLY WRONG: {found['members'][:3]}"


def cells() -> Iterator[tuple[str, str]]:
    for layout in LAYOUTS:
        for program in makers.MAKERS:
            yield program, layout


@pytest.mark.parametrize("program, layout", cells())
def test_saved(program: str, layout: str, reader: Path, tmp_path: Path) -> None:
    # Catches: a file of a real program that is silently read as another board, or that is stopped by a misleading word.
    files = list(makers.MAKERS[program](LAYOUTS[layout](), tmp_path, layout))
    assert files
    found = zip(files, opened(reader, files), strict=True)
    table = [(str(path.relative_to(tmp_path)), verdict(it)) for path, it in found]
    for name, said in table:
        print(f"{name}: {said[:150]}")
    for name, said in table:
        must = next((words for part, words in SAID.items() if name.endswith(part)), None)
        if must:
            assert said.startswith("refused: ") and must in said, (name, said)
        else:
            wanted_words = next((words for part, words in FAULTS.items() if name.endswith(part)), ASKED)
            asked = said.startswith("asked: ") and any(it in said for it in wanted_words)
            assert said == "right" or asked, (name, said)


@pytest.mark.parametrize("kind", ["xlsx", "html", "csv"])
def test_failed_look_up(kind: str, reader: Path, tmp_path: Path) -> None:
    # Catches: an error of a look-up that is a chair of its own.
    source = makers.book_of(LAYOUTS["A"](), tmp_path / "source.xlsx", makers.failed)
    out = tmp_path / "out"
    out.mkdir()
    makers.office(tmp_path, "de-DE", kind, source, out)
    (found,) = opened(reader, [out / f"source.{kind}"])
    assert any("chair: a spreadsheet's error" in it for it in found["faults"]), found


def test_formulas_without_values(reader: Path, tmp_path: Path) -> None:
    # Catches: formulas that openpyxl leaves without values, which are read as blanks or stopped by another sentence.
    for change in (makers.formulas, makers.unvalued):
        source = makers.book_of(LAYOUTS["A"](), tmp_path / "source.xlsx", change)
        (found,) = opened(reader, [source])
        assert "without values: open the workbook in a spreadsheet" in found["refused"], found
    out = tmp_path / "out"
    out.mkdir()
    makers.office(tmp_path, "en-US", "xlsx:Calc MS Excel 2007 XML", source, out)
    assert verdict(opened(reader, [out / "source.xlsx"])[0]) == "right"


def test_raised_footnote(reader: Path, tmp_path: Path) -> None:
    # Catches: a raised footnote that becomes a digit of the votes. (In HTML, Calc writes it on the line.)
    out = tmp_path / "out"
    out.mkdir()
    makers.office(tmp_path, "en-US", "xlsx:Calc MS Excel 2007 XML", makers.raised(tmp_path / "raised.fods"), out)
    (found,) = opened(reader, [out / "raised.xlsx"])
    assert found["members"] == [["Marenia", 5663, 1], ["Roswick", 801, 2], ["Lomenia", 811, 2]], found
