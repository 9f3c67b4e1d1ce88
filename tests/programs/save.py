"""Makes page/tables/saved: a small table as real programs save it. It needs the packages of the deep gate.

    python3 -m tests.programs.save"""
from __future__ import annotations

import shutil
import tempfile
from pathlib import Path

from tests.programs import makers
from tests.programs.tables import Cell
from tests.shared.commands import TOP

OUT = TOP / "page" / "tables" / "saved"
HEADS: list[Cell] = ["Director", "Alternate", "Casting votes of", "Votes", "Total votes", "Per cent"]
ROWS: list[list[Cell]] = [
    HEADS,
    ["Smith", "Corvino", "United States", 831401, 831401, 69.24],
    ["Hilbers", "Dresse", "Belgium", 65567, 169068, 14.08],
    ["", "", "Netherlands", 88825, "", ""],
    ["", "", "Luxembourg", 14676, "", ""],
    ["Moreno", "Guerra", "México", 90587, 200321, 16.68],
    ["", "", "Spain", 109734, "", ""],
]
XLSX = "xlsx:Calc MS Excel 2007 XML"


def office(room: Path, locale: str, kind: str, source: Path, name: str) -> None:
    """A file that Calc saves, by another name."""
    out = room / name
    out.mkdir()
    makers.office(room, locale, kind, source, out)
    (saved,) = out.iterdir()
    shutil.copy(saved, OUT / name)


def main(room: Path) -> None:
    OUT.mkdir(exist_ok=True)
    source = makers.book_of(ROWS, room / "source.xlsx")
    office(room, "en-US", XLSX, source, "calc.xlsx")
    office(room, "de-DE", "html:HTML (StarCalc)", source, "calc-german.html")
    office(room, "de-DE", f"{makers.TEXT}:59,34,1,1,,0,false,true", source, "calc-german.csv")
    office(room, "fr-FR", f"{makers.TEXT}:9,34,65535,1,,0,false,true", source, "calc-french-utf16.csv")
    office(room, "de-DE", XLSX, makers.book_of(ROWS, room / "failed.xlsx", makers.failed), "calc-failed-look-up.xlsx")
    office(room, "de-DE", f"{makers.TEXT}:59,34,76,1,,0,false,true", room / "failed.xlsx", "calc-failed-look-up.csv")
    makers.book_of(ROWS, OUT / "openpyxl-formulas.xlsx", makers.unvalued)
    office(room, "en-US", XLSX, makers.raised(room / "raised.fods"), "calc-raised.xlsx")
    for program, names in {
        "gnumeric": ["gnumeric-A.xlsx", "gnumeric-A.html"],
        "pandas": ["pandas-A-NaN.html", "pandas-A-None.csv", "pandas-A-index-True.xlsx"],
        "R": ["r-A-csv.csv", "r-A-openxlsx.xlsx"],
    }.items():
        list(makers.MAKERS[program](ROWS, room, "A"))
        for name in names:
            shutil.copy(room / name, OUT / name.replace("-A", ""))


with tempfile.TemporaryDirectory() as work:
    main(Path(work))
