/** Tests of the parts of exported figures that need no browser: sizes, texts in lines, rows, chunks of a PNG. */
import assert from "node:assert/strict";
import { test } from "node:test";
import { axisText, LIGHT, rowHeight } from "../src/charts/charts";
import { millimetresOf, pointsOf, resolutionOf, unitsOf, widthOf } from "../src/exports/figureSize";
import { withChunks } from "../src/exports/png";
import { fitted, fontName, wrapped, type Typeface } from "../src/exports/typeface";

/** A typeface whose letters all have half the size. */
const FACE: Typeface = { family: "mono", width: (text, size) => (text.length * size) / 2 };

test("widths and resolutions as people type them", () => {
  // Catches: centimetres as millimetres, a comma that is lost, a size that no printer has.
  const widths: Record<string, number> = { "84": 84, "84 mm": 84, "8.4 cm": 84, "8,4CM": 84, " 120.5mm ": 120.5 };
  for (const [text, value] of Object.entries(widths)) assert.deepEqual(widthOf(text), { value }, text);
  for (const text of ["", "12 in", "1e2", "-84", "74", "501", "8 4", "0.84 m"]) {
    assert.ok("wrong" in widthOf(text), text);
  }
  assert.deepEqual(resolutionOf("600"), { value: 600 });
  for (const text of ["", "71", "1201", "300.5", "300 dpi"]) assert.ok("wrong" in resolutionOf(text), text);
  assert.equal(pointsOf(84, 300), 992);
  assert.equal(millimetresOf(unitsOf(174)), 174);
});

test("names of fonts", () => {
  // Catches: a name that ends its quotes, and one of another script that is refused.
  for (const text of ["Palatino", "Source Sans 3", " Noto  Sans JP ", "Ubuntu-Mono", "思源黑体"]) {
    assert.deepEqual(fontName(text), { value: text.trim().replace(/\s+/g, " ") });
  }
  for (const text of ["", "a'b", 'a"b', "a,b", "a;b", "a\\b", "<a>", "-a", "x".repeat(81)]) {
    assert.ok("wrong" in fontName(text), text);
  }
});

test("texts in a width", () => {
  // Catches: a line that is too long, a letter that is lost, and an endless loop over a letter wider than the width.
  const text = "Source: script 0123456789abcdef of a study";
  for (const room of [1, 20, 60, 100, 1000]) {
    const lines = wrapped(text, room, FACE, 10);
    assert.equal(lines.join("").replace(/ /g, ""), text.replace(/ /g, ""));
    if (room >= 5) assert.ok(lines.every((it) => FACE.width(it, 10) <= room), lines.join("|"));
  }
  assert.deepEqual(wrapped("one two", 1000, FACE, 10), ["one two"]);
  assert.deepEqual(wrapped("", 10, FACE, 10), []);
  assert.equal(fitted("Harbours", 40, FACE, 10), "Harbours");
  assert.equal(fitted("Harbours", 30, FACE, 10), "Harbo…");
  assert.equal(fitted("日本日本日本", 1, FACE, 10), "日本…");
});

test("heights of rows", () => {
  // Catches: rows that leave a figure higher than its paper, or so low that letters are over one another.
  const look = { width: 300, palette: LIGHT, title: "", source: [], typeface: FACE, isTight: true, most: 600 };
  assert.equal(rowHeight(look, 25, 200), 16);
  assert.equal(rowHeight(look, 5, 200), 18);
  assert.equal(rowHeight(look, 32, 580), 11);
  assert.equal(axisText(-12_000_000), "−12M");
  assert.equal(axisText(0.30000000000000004), "0.3");
});

test("chunks of a PNG", () => {
  // Catches: a check of a chunk that no reader accepts: that of an empty IEND is known.
  const head = new Uint8Array(33);
  const png = withChunks(new Uint8Array([...head, 7]), 300, { A: "ü" });
  assert.deepEqual([...png.subarray(33, 54)],
    [0, 0, 0, 9, 0x70, 0x48, 0x59, 0x73, 0, 0, 0x2e, 0x23, 0, 0, 0x2e, 0x23, 1, 0x78, 0xa5, 0x3f, 0x76]);
  assert.deepEqual([...png.subarray(54, 62)], [0, 0, 0, 8, 0x69, 0x54, 0x58, 0x74]);
  assert.equal(png[png.length - 1], 7);
});
