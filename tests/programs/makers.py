"""Files with a table as real programs save them. Each maker writes files into a folder and returns their names."""
from __future__ import annotations

import re
import subprocess
from collections.abc import Callable, Iterator, Sequence
from pathlib import Path
from typing import Any

from tests.programs.tables import Cell

Rows = Sequence[Sequence[Cell]]
LOCALES = ("en-US", "de-DE", "fr-FR")
#: LibreOffice's filter for text, and the numbers of its encodings.
TEXT = "csv:Text - txt - csv (StarCalc)"
ENCODINGS = {"utf8": 76, "cp1252": 1, "utf16": 65535}
SETTINGS = """<?xml version="1.0" encoding="UTF-8"?>
<oor:items xmlns:oor="http://openoffice.org/2001/registry"><item oor:path="/org.openoffice.Setup/L10N">
<prop oor:name="ooSetupSystemLocale" oor:op="fuse"><value>{}</value></prop></item></oor:items>
"""


def run(words: Sequence[str], folder: Path) -> None:
    """Runs a program, which must end well."""
    found = subprocess.run(words, cwd=folder, capture_output=True, text=True, timeout=300, check=False)
    assert found.returncode == 0, f"{' '.join(words)}: {found.stdout}{found.stderr}"


def profile(folder: Path, locale: str) -> str:
    """LibreOffice's setting for a profile of its own, in a locale."""
    user = folder / f"profile-{locale}" / "user"
    if not user.exists():
        user.mkdir(parents=True)
        (user / "registrymodifications.xcu").write_text(SETTINGS.format(locale))
    return f"-env:UserInstallation=file://{user.parent}"


def office(folder: Path, locale: str, kind: str, source: Path, out: Path) -> None:
    """Has LibreOffice save a file as another kind, such as `csv` or `ods`, into a folder."""
    words = ["soffice", profile(folder, locale), "--headless", "--convert-to", kind, "--outdir", str(out), str(source)]
    run(words, folder)


def book_of(rows: Rows, path: Path, change: Callable[[Any], None] = lambda sheet: None) -> Path:
    """A workbook that openpyxl saves, with numbers as people print them."""
    import openpyxl  # type: ignore[import]

    book = openpyxl.Workbook()
    sheet: Any = book.active
    for row in rows:
        sheet.append([None if it == "" else it for it in row])
    for cells in sheet.iter_rows():
        for cell in cells:
            if isinstance(cell.value, (int, float)):
                cell.number_format = "#,##0" if isinstance(cell.value, int) else "0.00"
    change(sheet)
    book.save(path)
    return path


def merged(sheet: Any) -> None:
    """Merges each chair's cells down to its last member."""
    starts = [at for at in range(2, sheet.max_row + 1) if sheet.cell(at, 1).value]
    for at, end in zip(starts, [*starts[1:], sheet.max_row + 1]):
        if end - at > 1:
            sheet.merge_cells(start_row=at, end_row=end - 1, start_column=1, end_column=1)


def formulas(sheet: Any) -> None:
    """Puts formulas in place of the totals of chairs."""
    starts = [at for at in range(2, sheet.max_row + 1) if sheet.cell(at, 5).value]
    for at, end in zip(starts, [*starts[1:], sheet.max_row + 1]):
        sheet.cell(at, 5).value = f"=SUM(D{at}:D{end - 1})"


def unvalued(sheet: Any) -> None:
    """Puts formulas in place of votes."""
    for at in range(2, sheet.max_row + 1):
        sheet.cell(at, 4).value = f"={sheet.cell(at, 4).value}+0"


def failed(sheet: Any) -> None:
    """A look-up of the first chair that finds nothing."""
    sheet.cell(2, 1).value = '=VLOOKUP("nobody",B2:B3,1,FALSE())'


SHEET = """<?xml version="1.0" encoding="UTF-8"?>
<office:document xmlns:office="urn:oasis:names:tc:opendocument:xmlns:office:1.0"
 xmlns:style="urn:oasis:names:tc:opendocument:xmlns:style:1.0"
 xmlns:text="urn:oasis:names:tc:opendocument:xmlns:text:1.0"
 xmlns:table="urn:oasis:names:tc:opendocument:xmlns:table:1.0" office:version="1.2"
 office:mimetype="application/vnd.oasis.opendocument.spreadsheet"><office:automatic-styles>
<style:style style:name="R" style:family="text"><style:text-properties style:text-position="super 58%"/></style:style>
</office:automatic-styles><office:body><office:spreadsheet><table:table table:name="One">{}</table:table>
</office:spreadsheet></office:body></office:document>
"""
#: Members with footnotes, which stand between two `^`, behind votes and names.
RAISED = (
    ("Member", "Votes", "Chair"),
    ("Marenia", "5663^2^", "1"),
    ("Roswick^a^", "801", "2"),
    ("Lomenia", "811^[3]^", "2"),
)


def raised(path: Path) -> Path:
    """A spreadsheet of LibreOffice with footnotes above the line."""

    def cell(text: str) -> str:
        inner = re.sub(r"\^(.*?)\^", r'<text:span text:style-name="R">\1</text:span>', text)
        return f'<table:table-cell office:value-type="string"><text:p>{inner}</text:p></table:table-cell>'

    rows = "".join(f"<table:table-row>{''.join(map(cell, row))}</table:table-row>" for row in RAISED)
    path.write_text(SHEET.format(rows))
    return path


def by_openpyxl(rows: Rows, folder: Path, layout: str) -> Iterator[Path]:
    yield book_of(rows, folder / f"openpyxl-{layout}.xlsx")
    if layout == "A":
        yield book_of(rows, folder / "openpyxl-merged.xlsx", merged)


def by_office(rows: Rows, folder: Path, layout: str) -> Iterator[Path]:
    """What Calc saves, in each locale."""
    source = book_of(rows, folder / f"source-{layout}.xlsx")
    for locale in LOCALES:
        out = folder / f"calc-{locale}-{layout}"
        out.mkdir()
        kinds = ["xlsx:Calc MS Excel 2007 XML", "html:HTML (StarCalc)"]
        if locale == LOCALES[0]:
            kinds += ["xlsm:Calc MS Excel 2007 VBA XML", "xltx:Calc MS Excel 2007 XML Template"]
            kinds += ["ods", "fods", "dif", "slk"]
        for kind in kinds:
            office(folder, locale, kind, source, out)
        yield from sorted(out.iterdir())
        for name, number in ENCODINGS.items():
            for mark, character in (("comma", 44), ("semicolon", 59), ("tab", 9)):
                own = out / f"{name}-{mark}"
                own.mkdir()
                office(folder, locale, f"{TEXT}:{character},34,{number},1,,0,false,true", source, own)
                yield own / f"source-{layout}.csv"


def by_gnumeric(rows: Rows, folder: Path, layout: str) -> Iterator[Path]:
    source = book_of(rows, folder / f"gnumeric-source-{layout}.xlsx")
    for kind in ("xlsx", "csv", "html"):
        out = folder / f"gnumeric-{layout}.{kind}"
        run(["ssconvert", str(source), str(out)], folder)
        yield out


def by_pandas(rows: Rows, folder: Path, layout: str) -> Iterator[Path]:
    """What pandas saves: with and without an index, and each way to write a missing value."""
    import pandas  # type: ignore[import]

    frame = pandas.DataFrame(rows[1:], columns=rows[0]).replace("", None)
    whole = {it: "Int64" for it in frame if "otes" in it and "Casting" not in it}
    frame = frame.astype(whole)
    for missing in ("", "NaN", "None", "NA", "n/a", "<NA>", "null"):
        name = re.sub(r"\W", "-", missing) or "blank"
        path = folder / f"pandas-{layout}-{name}.csv"
        frame.to_csv(path, index=False, na_rep=missing)
        yield path
        page = folder / f"pandas-{layout}-{name}.html"
        frame.to_html(page, index=False, na_rep=missing)
        yield page
    for index in (True, False):
        path = folder / f"pandas-{layout}-index-{index}"
        frame.to_csv(f"{path}.csv", index=index)
        frame.to_excel(f"{path}.xlsx", index=index)
        frame.to_html(f"{path}.html", index=index)
        frame.to_json(f"{path}.json")
        yield from (path.with_name(f"{path.name}.{it}") for it in ("csv", "xlsx", "html", "json"))


SCRIPT = """
table <- read.csv("r-source.csv", check.names = FALSE, na.strings = "")
name <- function(it) paste0("r-{0}-", it)
write.csv(table, name("csv.csv"), row.names = FALSE)
write.csv(table, name("csv-rows.csv"))
write.csv(table, name("csv-blank.csv"), row.names = FALSE, na = "")
write.csv2(table, name("csv2.csv"), row.names = FALSE)
write.table(table, name("tabs.tsv"), sep = "\\t", row.names = FALSE)
write.table(table, name("table.txt"))
openxlsx::write.xlsx(table, name("openxlsx.xlsx"))
openxlsx::write.xlsx(table, name("openxlsx-na.xlsx"), keepNA = TRUE)
"""


def by_r(rows: Rows, folder: Path, layout: str) -> Iterator[Path]:
    import csv

    with (folder / "r-source.csv").open("w", newline="", encoding="utf-8") as file:
        csv.writer(file).writerows(rows)
    (folder / "save.R").write_text(SCRIPT.replace("{0}", layout))
    run(["Rscript", "--vanilla", "save.R"], folder)
    yield from sorted(folder.glob(f"r-{layout}-*"))


MAKERS: dict[str, Callable[[Rows, Path, str], Iterator[Path]]] = {
    "openpyxl": by_openpyxl,
    "LibreOffice": by_office,
    "gnumeric": by_gnumeric,
    "pandas": by_pandas,
    "R": by_r,
}
