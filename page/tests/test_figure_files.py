"""Figures as files: their size, their typeface, their resolution, as SVG, PNG and PDF, and the page after printing."""
from __future__ import annotations

import base64
import re
import struct
import subprocess
import xml.etree.ElementTree as ElementTree
import zlib
from pathlib import Path
from typing import Any

import pytest
from chromium import EVERY, Page
from firefox import Driver
from oracle import MAJORITIES, UNSHOWN, Oracle, text_of
from selenium.webdriver.common.keys import Keys
from test_exports import COMMANDS, sha256
from test_said import opened

BROWSERS = EVERY
INCH = 25.4
WIDTHS = {"single": 84.0, "double": 174.0, "slide": 254.0}
# The generic family that ends each list, and the font that Debian has for it.
FACES = {
    "sans": ("sans-serif", "DejaVuSans"),
    "serif": ("serif", "DejaVuSerif"),
    "mono": ("monospace", "DejaVuSansMono"),
}
SVG = "{http://www.w3.org/2000/svg}"
# Draws a file's figure on the page and gives its texts that reach beyond it, or into another text of the same line.
BEYOND = """
  const place = document.createElement("div");
  place.innerHTML = arguments[0];
  document.body.append(place);
  const svg = place.querySelector("svg"), box = svg.getBoundingClientRect();
  const texts = [...svg.querySelectorAll("text")].map((it) => [it, it.getBoundingClientRect()]);
  const isOut = (it) => it.left < box.left - 1 || it.right > box.right + 1 || it.bottom > box.bottom + 1;
  const out = texts.filter(([, it]) => isOut(it));
  const over = texts.filter(([one, its], at) => texts.slice(at + 1).some(([, other]) =>
    Math.abs(its.bottom - other.bottom) < 2 && its.left < other.right - 1 && other.left < its.right - 1));
  place.remove();
  return [...out, ...over].map(([it]) => it.textContent);
"""
# The opacity of the corners of a PNG.
CORNERS = """
  const [data, done] = arguments, image = new Image();
  image.onload = () => {
    const [{ naturalWidth: width, naturalHeight: height }, canvas] = [image, document.createElement("canvas")];
    Object.assign(canvas, { width, height });
    const pen = canvas.getContext("2d", { willReadFrequently: true });
    pen.drawImage(image, 0, 0);
    const corners = [[0, 0], [width - 1, 0], [0, height - 1], [width - 1, height - 1]];
    done(corners.map(([x, y]) => pen.getImageData(x, y, 1, 1).data[3]));
  };
  image.src = `data:image/png;base64,${data}`;
"""
# The page as it is: its elements, rules and title.
STATE = """
  return [document.documentElement.outerHTML.replace(/<script[^]*?<.script>/g, ""), document.title,
    document.styleSheets[0].cssRules.length, document.documentElement.className];
"""


@pytest.fixture
def study(page: Page) -> Page:
    """The page with three changes."""
    for act in [["votes", "XAD", "+40%"], ["move", "XAA", "2"], ["suspend", "XAC"]]:
        assert page.act(*act)
    return page


def show_tab(page: Page, tab: str) -> None:
    page.click(f"#tab-{tab}")
    if tab == "curve":
        page.at("#sweep-run").click()
        page.until(lambda: page.all("#sweep-table"), "the sweep")
        page.settle()


def choose(page: Page, width: str, face: str) -> None:
    """Opens the exports with a width and a typeface."""
    page.click("#export")
    page.choose("#figure-width", width)
    page.choose("#typeface", face)


def svg_file(page: Page) -> str:
    return page.downloaded("#export-svg")[1].decode()


def names(page: Page) -> list[str]:
    """The names of all chairs on the cards."""
    heads = page.run('return [...document.querySelectorAll(".card-title")].map((it) => it.textContent);')
    return [it for it in heads if re.match(r"[0-9]+ ", it)]


def hashes(page: Page, oracle: Oracle) -> str:
    return sha256(oracle.script(COMMANDS, ["half", "85"]).encode())


@pytest.mark.parametrize("tab", ["power", "change", "curve"])
def test_svg_at_each_width(study: Page, tab: str) -> None:
    # Catches: a figure of another width, letters that shrink with it, or texts that are cut off or over one another.
    show_tab(study, tab)
    sizes = set()
    for width, millimetres in WIDTHS.items():
        for face, (generic, _) in FACES.items():
            choose(study, width, face)
            text = svg_file(study)
            study.press(Keys.ESCAPE)
            # Inkscape draws "transparent" black, and LibreOffice looks for the tag at the file's beginning.
            assert text.startswith("<svg ") and "transparent" not in text
            root = ElementTree.fromstring(text)
            units = [float(it) for it in root.get("viewBox", "").split()]
            assert root.get("width") == f"{millimetres:g}mm" and abs(units[2] - millimetres / INCH * 96) < 0.01
            assert abs(float(root.get("height", "").removesuffix("mm")) - units[3] / 96 * INCH) < 0.01
            families = {it.get("font-family") for it in root.iter() if it.get("font-family")}
            assert len(families) == 1 and families.pop() == root.get("font-family", "")
            assert root.get("font-family", "").endswith(f", {generic}")
            sizes.add(frozenset(it.get("font-size", "") for it in root.iter()))
            assert study.run(BEYOND, text) == [], (width, face)
            assert f"figure {millimetres:g} mm wide, " in text and f"fonts {root.get('font-family')}" in text
    assert len(sizes) == 1


def test_svg_of_another_width(study: Page) -> None:
    # Catches: centimetres taken as millimetres, a width that is mended in silence, a choice that is forgotten.
    study.click("#export")
    study.choose("#figure-width", "own")
    for text, width in [("12 cm", "120mm"), ("90,5", "90.5mm"), ("200 mm", "200mm")]:
        study.write("#own-width", text)
        assert ElementTree.fromstring(svg_file(study)).get("width") == width
    for text, words in [("12 km", "in millimetres or centimetres"), ("20", "from 75 to 500 mm")]:
        study.write("#own-width", text)
        study.click("#export-svg")
        assert words in study.text("#own-width-wrong")
        assert study.run("return document.activeElement.id;") == "own-width"
    study.write("#own-width", "100")
    study.click("#with-title")
    study.press(Keys.ESCAPE)
    study.click("#tab-change")
    study.click("#export")
    text = svg_file(study)
    assert ElementTree.fromstring(text).get("width") == "100mm"
    assert "Example with invented votes:" not in text.split("-->")[1]


def test_installed_font(study: Page) -> None:
    # Catches: a name that ends its place in the file, a font that is missing without a word.
    study.click("#export")
    study.choose("#typeface", "own")
    for bad in ["x'; fill: red", 'a"b', "<svg>", "a, b", "a\\b"]:
        study.write("#font-name", bad)
        study.click("#export-svg")
        assert study.text("#font-name-wrong"), bad
    study.write("#font-name", "DejaVu Serif")
    assert ElementTree.fromstring(svg_file(study)).get("font-family") == "'DejaVu Serif', sans-serif"
    assert not study.text("#font-missing")
    study.write("#font-name", "No Such Font 7")
    study.until(lambda: "no font “No Such Font 7”" in study.text("#font-missing"), "a word on the font")


def chunks(png: bytes) -> dict[str, list[bytes]]:
    """The chunks of a PNG by their kinds. Each has the right check."""
    found: dict[str, list[bytes]] = {}
    at = 8
    while at < len(png):
        length, kind = struct.unpack(">I4s", png[at : at + 8])
        data = png[at + 8 : at + 8 + length]
        assert struct.unpack(">I", png[at + 8 + length : at + 12 + length])[0] == zlib.crc32(kind + data)
        found.setdefault(kind.decode(), []).append(data)
        at += 12 + length
    return found


@pytest.mark.parametrize("tab", ["power", "change"])
@pytest.mark.parametrize("measure", ["share", "swings"])
def test_figures_fit_their_paper(page: Page, tab: str, measure: str) -> None:
    # Catches: a figure of 25 chairs that is higher than its column or its slide, or whose axis has numbers over others.
    assert page.act("open") and page.act("move", "XAD", "25") and page.act("votes", "XAB", "+40%")
    page.choose("#measure", measure)
    page.click(f"#tab-{tab}")
    for width, most in {"single": 200, "double": 200, "slide": 142.875}.items():
        choose(page, width, "sans")
        text = svg_file(page)
        page.press(Keys.ESCAPE)
        root = ElementTree.fromstring(text)
        assert float(root.get("height", "").removesuffix("mm")) <= most + 0.01, width
        assert len([it for it in root.iter() if it.get("data-chair")]) == 25
        assert page.run(BEYOND, text) == [], width


@pytest.mark.parametrize(("width", "dpi"), [("single", 300), ("double", 300), ("single", 600), ("slide", 96)])
def test_png_at_each_resolution(study: Page, oracle: Oracle, width: str, dpi: int) -> None:
    # Catches: a picture of another size on paper, one that was drawn small and stretched, one without its source.
    choose(study, width, "serif")
    height = float(ElementTree.fromstring(svg_file(study)).get("height", "").removesuffix("mm"))
    assert study.at("#resolution").get_property("value") == "300"
    if dpi != 300:
        study.write("#resolution", str(dpi))
    png = study.downloaded("#export-png")[1]
    found = chunks(png)
    assert "IEND" in found and study.wait_for(CORNERS, base64.b64encode(png).decode()) == [255] * 4
    sides = struct.unpack(">II", found["IHDR"][0][:8])
    assert sides == (round(WIDTHS[width] / INCH * dpi), round(height / INCH * dpi))
    metre = round(dpi / 0.0254)
    assert found["pHYs"] == [struct.pack(">IIB", metre, metre, 1)]
    texts = dict(it.decode().split("\0" * 5, 1) for it in found["iTXt"])
    assert f"script sha256 {hashes(study, oracle)}" in texts["Source"] and "Share of power" in texts["Title"]
    assert f"figure {WIDTHS[width]:g} mm wide" in texts["Source"]
    study.write("#resolution", "5000")
    study.click("#export-png")
    assert "from 72 to 1200 dpi" in study.text("#resolution-wrong")
    # The next study has the usual resolution again.
    study.write("#resolution", "300")


def printed(page: Page) -> bytes:
    """The PDF that the browser makes of what a press of PDF has it print."""
    page.run("window.print = () => (window.printed = true);")
    page.click("#export-pdf")
    page.until(lambda: page.run("return window.printed;"), "the browser's print")
    driver: Any = page.driver
    if isinstance(driver, Driver):
        margin = {"top": 0, "bottom": 0, "left": 0, "right": 0}
        data = driver.fox.send("WebDriver:Print", background=True, shrinkToFit=False, margin=margin)["value"]
        page.run('dispatchEvent(new Event("afterprint"));')
    else:
        data = driver.execute_cdp_cmd("Page.printToPDF", {"preferCSSPageSize": True, "printBackground": True})["data"]
    return base64.b64decode(data)


def told(program: str, file: Path, *words: str) -> str:
    """What a program of poppler-utils says of a PDF."""
    to = ["-"] if program == "pdftotext" else []
    return subprocess.run([program, *words, str(file), *to], capture_output=True, check=True).stdout.decode()


def check_pdf(file: Path, size: tuple[float, float], font: str) -> None:
    """One page of a size in millimetres, with letters of one font, and without any picture."""
    info = told("pdfinfo", file)
    sides = re.search(r"Page size: +([0-9.]+) x ([0-9.]+) pts", info)
    assert sides and re.search(r"Pages: +1\n", info), info
    for points, millimetres in zip(map(float, sides.groups()), size):
        assert abs(points - millimetres / INCH * 72) < 1.1, (points, millimetres)
    fonts = [it.split()[0].partition("+")[2] for it in told("pdffonts", file).splitlines()[2:]]
    assert fonts and set(fonts) == {font}, fonts
    assert len(told("pdfimages", file, "-list").splitlines()) == 2 and b"/Subtype /Image" not in file.read_bytes()


@pytest.mark.parametrize("tab", ["power", "change"])
@pytest.mark.parametrize(("width", "face"), [("single", "serif"), ("double", "sans"), ("slide", "mono")])
def test_pdf(study: Page, oracle: Oracle, tab: str, width: str, face: str, tmp_path: Path) -> None:
    # Catches: a PDF of another size or of two pages, a picture in place of lines, a chair or a hash that is missing.
    show_tab(study, tab)
    chairs = names(study)
    choose(study, width, face)
    svg = ElementTree.fromstring(svg_file(study))
    sides = [float(svg.get(it, "").removesuffix("mm")) for it in ("width", "height")]
    file = tmp_path / "figure.pdf"
    file.write_bytes(printed(study))
    check_pdf(file, (sides[0], sides[1]), FACES[face][1])
    text = told("pdftotext", file, "-layout")
    assert len(chairs) == 24
    for name in chairs:
        assert re.search(rf"\b{name}\b", text), name
    plain = "".join(text.split())
    assert f"scriptsha256{hashes(study, oracle)}" in plain and "Source:countedbyboard" in plain


def test_pdf_of_a_curve(study: Page, tmp_path: Path) -> None:
    # Catches: the hash of the study's script on the curve's figure, or a curve that isn't printed.
    show_tab(study, "curve")
    choose(study, "single", "sans")
    text = svg_file(study)
    file = tmp_path / "figure.pdf"
    file.write_bytes(printed(study))
    height = float(ElementTree.fromstring(text).get("height", "").removesuffix("mm"))
    check_pdf(file, (84, height), "DejaVuSans")
    script = re.search(r"script of sweep [^\n]* sha256 ([0-9a-f]{64})", text)
    assert script and script[1] in "".join(told("pdftotext", file).split())


def test_page_after_printing(study: Page) -> None:
    # Catches: a page that keeps the figure's paper, its title or its rules after printing.
    choose(study, "single", "serif")
    study.until(lambda: study.all("#figure-preview svg"), "the preview")
    before = study.run(STATE)
    printed(study)
    study.settle()
    after = study.run(STATE)
    words = "The page for the PDF is 84 mm wide"
    assert study.text("#export-words").startswith(words)
    assert [after[0].replace(study.text("#export-words"), ""), *after[1:]] == before
    # A browser that doesn't say when printing has ended: the next key does.
    study.click("#export-pdf")
    study.until(lambda: study.all("#print-figure"), "the print view")
    assert study.run(STATE)[1].endswith("-power")
    study.press(Keys.SHIFT)
    assert not study.all("#print-figure") and study.run(STATE)[1:] == before[1:]


def test_long_names(study: Page) -> None:
    # Catches: a title of hundreds of lines, a name that is written beyond the figure, a page that stands still.
    name = "A very long name of a council & its seats " * 200
    study.run(
        """const [name, text] = arguments, dataTransfer = new DataTransfer();
        dataTransfer.items.add(new File([text], name, { type: "text/csv" }));
        document.body.dispatchEvent(new DragEvent("drop", { dataTransfer, bubbles: true, cancelable: true }));""",
        f"{name}.csv",
        f"code,name,votes,chair,chair_name\nAAA,Alland,5,1,{name}\nBBB,Belland,4,2,Hills\n",
    )
    study.until(lambda: study.all("#table-take"), "the preview")
    study.at("#table-take").click()
    study.until(lambda: study.text("#study-name").startswith("A very"), "the study")
    study.settle()
    choose(study, "single", "mono")
    text = svg_file(study)
    assert study.run(BEYOND, text) == []
    texts = [it.text or "" for it in ElementTree.fromstring(text).iter(f"{SVG}text")]
    titles = [it for it in texts if it.startswith(("A very", "council", "its", "name", "seats")) or it.endswith("…")]
    assert len(titles) <= 6 and sum(it.endswith("…") for it in texts) == 2


def test_no_figure(study: Page) -> None:
    # Catches: a figure of a tab that has none, or buttons that do nothing without a word.
    study.click("#tab-table")
    study.click("#export")
    assert [study.at(f"#export-{it}").is_enabled() for it in ("svg", "png", "pdf")] == [False] * 3
    assert "no figure on this tab" in study.text("#figure-words")


def test_figure_in_grey(study: Page) -> None:
    # Catches: majorities that only their colour tells apart, or a colour that a copier loses.
    for majority in UNSHOWN:
        study.click(f"#at-{majority}")
    show_tab(study, "change")
    root = ElementTree.fromstring(study.act("exported", "export-svg"))
    paths = [it for it in root.iter(f"{SVG}path") if it.get("fill", "").startswith("#")]
    shapes = {it.get("fill"): it.get("d") for it in paths}
    assert len(shapes) == len(set(shapes.values())) == len(MAJORITIES)
    for colour in [*shapes, *(it.get("fill", "") for it in root.iter(f"{SVG}text") if it.get("fill"))]:
        red, green, blue = (int(str(colour)[at : at + 2], 16) / 255 for at in (1, 3, 5))
        assert 0.2126 * red + 0.7152 * green + 0.0722 * blue < 0.42, colour


def test_tags_in_a_narrow_figure(page: Page) -> None:
    # Catches: a chair that lost its veto and has no power elsewhere, of which a narrow figure shows the first alone.
    rows = ["AAA,Northern Alland,80,1", "BBB,Southern Belland,20,2", "CCC,Western Celland,1,3"]
    opened(page, text_of(["code,name,votes,chair", *rows]))
    assert page.act("votes", "BBB", "10")
    choose(page, "single", "mono")
    svg = svg_file(page)
    page.press(Keys.ESCAPE)
    [row] = [it for it in rows_of_figure(svg) if it[0] == "2"]
    assert row[1:] == ["0", "− V"]
    legend = "".join(ElementTree.fromstring(svg).itertext())
    assert "V: veto, nothing passes without it" in legend and "0: no power, no outcome depends on it" in legend
    assert not page.run(BEYOND, svg)
    # Where there is room the words are whole.
    choose(page, "slide", "sans")
    [row] = [it for it in rows_of_figure(svg_file(page)) if it[0] == "2"]
    assert row[1:] == ["no power", "loses veto"]


def rows_of_figure(svg: str) -> list[list[str]]:
    """The chair of each row of a figure, and the texts after its name."""
    groups = [it for it in ElementTree.fromstring(svg).iter(f"{SVG}g") if it.get("data-chair")]
    texts = [["".join(text.itertext()) for text in it.findall(f"{SVG}text")] for it in groups]
    return [[str(it.get("data-chair")), *own[1:]] for it, own in zip(groups, texts)]
