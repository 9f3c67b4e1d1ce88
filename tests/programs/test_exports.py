"""What the page exports, opened by the programs of its users: figures in Inkscape, LibreOffice, rsvg and cairosvg;
tables in pandas, R's readxl and openxlsx and LibreOffice, LaTeX in pdfLaTeX and biber. Values are compared."""
from __future__ import annotations

import csv
import io
import re
import sys
from collections.abc import Iterator
from pathlib import Path
from typing import Any

import pytest

from tests.programs.makers import TEXT, office, run
from tests.programs.tables import TOP

sys.path.insert(0, str(TOP / "page" / "tests"))
#: A change of votes, so that tables and figures have before and after.
CHANGES = (["votes", "XAD", "+40%"], ["move", "XAA", "2"])
RENDERERS = ("inkscape", "office", "rsvg", "cairosvg")
TABS = ("power", "change", "curve", "coalition")
#: Parts of a picture whose colours are compared, and how far the mean of one may be off, of 255.
PARTS, MOST_OFF = 24, 26
DOCUMENT = """\\documentclass{article}
\\usepackage[T1]{fontenc}\\usepackage{booktabs}
\\begin{document}\\noindent\\input{table.tex}\\end{document}
"""
CITED = """\\documentclass{article}
\\usepackage[backend=biber]{biblatex}\\addbibresource{it.bib}
\\begin{document}\\nocite{*}\\printbibliography\\end{document}
"""
READ = """
for (it in c("Shown", "Table", "Fractions", "Source")) {
  one <- as.data.frame(readxl::read_xlsx("it.xlsx", it, col_types = "text"))
  two <- openxlsx::read.xlsx("it.xlsx", it, sep.names = " ", skipEmptyRows = FALSE, skipEmptyCols = FALSE)
  texts <- function(table) unlist(lapply(table, function(column) column[grepl("[A-Za-z]{3}", column)]))
  stopifnot(nrow(one) == nrow(two), identical(unname(trimws(texts(one))), unname(trimws(texts(two)))))
}
one <- readxl::read_xlsx("it.xlsx", "Table")
write.csv(data.frame(one$name, one$votes, one$power_share), "read.csv", row.names = FALSE)
"""


@pytest.fixture(scope="module")
def exported(tmp_path_factory: pytest.TempPathFactory) -> Iterator[dict[str, bytes]]:
    """The files that the page exports for the example with two changes, by the ends of their names."""
    from chromium import Page  # type: ignore[import]
    from selenium.webdriver.common.keys import Keys

    page = Page(TOP / "page" / "out" / "board.html", tmp_path_factory.mktemp("downloads"))
    page.open()
    assert all(page.act(*it) for it in CHANGES)
    found: dict[str, bytes] = {}
    for tab in TABS:
        page.click(f"#tab-{tab}")
        if tab == "curve":
            page.at("#sweep-run").click()
            page.until(lambda: page.all("#sweep-table"), "the curve")
        page.settle()
        page.click("#export")
        found[f"{tab}.svg"] = page.downloaded("#export-svg")[1]
        page.press(Keys.ESCAPE)
    page.click("#export")
    found |= {end: page.downloaded(f"#export-{end}")[1] for end in ("tex", "xlsx", "csv")}
    page.click("#export-cite")
    page.until(lambda: page.all("#cite-bibtex"), "the citation")
    found["bib"] = page.text("#cite-bibtex").encode()
    page.driver.quit()
    yield found


def pixels(png: bytes) -> tuple[int, int, list[tuple[int, int, int]]]:
    """The size of a PNG of 8 bits and its means of red, green and blue in some parts, each row from left to right."""
    from PIL import Image  # type: ignore[import]

    picture = Image.open(io.BytesIO(png)).convert("RGBA")
    white = Image.new("RGBA", picture.size, "white")
    white.alpha_composite(picture)
    small = white.convert("RGB").resize((PARTS, PARTS), Image.Resampling.BOX)
    return picture.width, picture.height, list(small.getdata())


def drawn(renderer: str, folder: Path) -> bytes:
    """A figure, `it.svg`, as a PNG of a program."""
    out = folder / "it.png"
    if renderer == "inkscape":
        run(["inkscape", "it.svg", "--export-type=png", "--export-width=1000", "--export-filename=it.png"], folder)
    elif renderer == "rsvg":
        run(["rsvg-convert", "it.svg", "-w", "1000", "-o", "it.png"], folder)
    elif renderer == "cairosvg":
        run(["/usr/bin/python3", "-m", "cairosvg", "it.svg", "--output-width", "1000", "-o", "it.png"], folder)
    else:
        office(folder, "en-US", "png:draw_png_Export", folder / "it.svg", folder)
    return out.read_bytes()


@pytest.mark.parametrize("tab", TABS)
@pytest.mark.parametrize("renderer", RENDERERS)
def test_figure(renderer: str, tab: str, exported: dict[str, bytes], tmp_path: Path) -> None:
    # Catches: a figure that a program doesn't load, or draws with dark bands, other colours or another size.
    (tmp_path / "it.svg").write_bytes(exported[f"{tab}.svg"])
    (tmp_path / "other").mkdir()
    (tmp_path / "other" / "it.svg").write_bytes(exported[f"{tab}.svg"])
    wide, high, found = pixels(drawn(renderer, tmp_path))
    other_wide, other_high, wanted = pixels(drawn("rsvg", tmp_path / "other"))
    assert abs(wide / high - other_wide / other_high) < 0.02
    off = [abs(one - two) for mine, its in zip(found, wanted) for one, two in zip(mine, its)]
    assert sum(off) / len(off) < MOST_OFF / 4 and max(off) < 4 * MOST_OFF, (renderer, max(off), sum(off) / len(off))


def rows_of(text: str) -> list[dict[str, str]]:
    return list(csv.DictReader(it for it in io.StringIO(text) if not it.startswith("#")))


def test_workbook_in_r(exported: dict[str, bytes], tmp_path: Path) -> None:
    # Catches: texts that R's openxlsx reads with an attribute in them, or that differ between it and readxl.
    (tmp_path / "it.xlsx").write_bytes(exported["xlsx"])
    (tmp_path / "read.R").write_text(READ)
    run(["Rscript", "--vanilla", "read.R"], tmp_path)
    wanted = rows_of(exported["csv"].decode())
    with (tmp_path / "read.csv").open() as file:
        found = list(csv.DictReader(file))
    assert len(found) == len(wanted) > 24
    for row, it in zip(found, wanted):
        assert [row["one.name"], row["one.votes"]] == [it["name"], it["votes"]]
        assert abs(float(row["one.power_share"]) - float(it["power_share"])) < 1e-9


@pytest.mark.parametrize("locale", ["en-US", "de-DE", "fr-FR"])
def test_workbook_in_libreoffice(locale: str, exported: dict[str, bytes], tmp_path: Path) -> None:
    # Catches: a number that a spreadsheet takes for a text or a date, and units that aren't those of the heads.
    (tmp_path / "it.xlsx").write_bytes(exported["xlsx"])
    out = tmp_path / "out"
    out.mkdir()
    kind = f"{TEXT}:9,34,76,1,,0,false,false,false,false,false,1"
    office(tmp_path, locale, kind, tmp_path / "it.xlsx", out)
    (saved,) = out.iterdir()
    heads, *rows = list(csv.reader(io.StringIO(saved.read_text()), delimiter="\t"))
    tex = exported["tex"].decode()
    points = [at for at, it in enumerate(heads) if "points" in it]
    assert points, heads
    numbers = [float(row[at].replace(",", ".")) for row in rows[:-1] for at in points if row[at]]
    assert max(abs(it) for it in numbers) > 0.01 and all(f"{abs(it):.2f}" in tex for it in numbers), numbers


def test_csv_in_pandas(exported: dict[str, bytes]) -> None:
    import pandas  # type: ignore[import]

    frame: Any = pandas.read_csv(io.BytesIO(exported["csv"]), comment="#")
    wanted = rows_of(exported["csv"].decode())
    assert len(frame) == len(wanted) and frame["votes"].dtype == "int64"
    assert [f"{it:.10f}" for it in frame["power_share"]] == [it["power_share"] for it in wanted]


def test_latex(exported: dict[str, bytes], tmp_path: Path) -> None:
    # Catches: a table that pdfLaTeX refuses, that is wider than the text without a word, or whose width is said wrong.
    (tmp_path / "table.tex").write_bytes(exported["tex"])
    (tmp_path / "it.tex").write_text(DOCUMENT)
    run(["pdflatex", "-interaction=nonstopmode", "-halt-on-error", "it.tex"], tmp_path)
    log = (tmp_path / "it.log").read_text(errors="replace")
    said = re.search(r"% The table is about ([0-9]+) pt wide", exported["tex"].decode())
    over = re.findall(r"Overfull \\hbox \(([0-9.]+)pt", log)
    assert said, exported["tex"][:400]
    width = int(said[1])
    assert not over if width <= 345 else abs(width - 345 - float(over[0])) < 0.1 * width, (width, over)


def test_bibliography(exported: dict[str, bytes], tmp_path: Path) -> None:
    # Catches: an entry that biber or biblatex refuses.
    (tmp_path / "it.bib").write_bytes(exported["bib"])
    (tmp_path / "it.tex").write_text(CITED)
    run(["pdflatex", "-interaction=nonstopmode", "it.tex"], tmp_path)
    run(["biber", "it"], tmp_path)
    run(["pdflatex", "-interaction=nonstopmode", "it.tex"], tmp_path)
    assert "ERROR" not in (tmp_path / "it.blg").read_text()
