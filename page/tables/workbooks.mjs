/** Workbooks as their unpacked parts, and those of the cases. */
const REL = '<Relationship Id="r1" Target="worksheets/sheet1.xml"/><Relationship Id="r2" Target="worksheets/two.xml"/>';

/** The parts of a workbook with two sheets. */
export function workbook(one, two, more = {}) {
  return {
    "xl/workbook.xml": '<workbook><sheet name="One" r:id="r1"/><sheet name="Two" r:id="r2"/></workbook>',
    "xl/_rels/workbook.xml.rels": `<x:Relationships>${REL}</x:Relationships>`,
    "xl/worksheets/sheet1.xml": one,
    "xl/worksheets/two.xml": two,
    ...more,
  };
}

const escaped = (text) => text.replace(/&/g, "&amp;").replace(/</g, "&lt;");
const FONTS = { "~~": "<b/><strike/>", "^^": '<vertAlign val="superscript"/>' };

/** The runs of a cell: between two `~~` it is struck out, and between two `^^` raised. */
function runsOf(cell) {
  const parts = cell.split(/(~~|\^\^)/);
  const run = (text, at) => {
    const open = parts.slice(0, at).filter((it) => it in FONTS);
    const font = open.length % 2 ? `<rPr>${FONTS[open.pop()]}</rPr>` : "";
    return text === "" ? "" : `<r>${font}<t>${escaped(text)}</t></r>`;
  };
  return parts.map((text, at) => (text in FONTS ? "" : run(text, at))).join("");
}

/** A cell, whose text is among the strings if parts of it have a font. One that begins with `=` has no value. */
function cellOf(cell, strings) {
  if (cell.startsWith("=")) return `<c><f>${escaped(cell.slice(1))}</f><v></v></c>`;
  if (!/~~|\^\^/.test(cell)) return `<c t="str"><v>${escaped(cell)}</v></c>`;
  strings.push(`<si>${runsOf(cell)}</si>`);
  return `<c t="s"><v>${strings.length - 1}</v></c>`;
}

/** The parts of a workbook with the rows of a text, whose cells have a tab between them. */
export function workbookOf(text) {
  const strings = [];
  const rows = text.trimEnd().split("\n").map((line) => line.split("\t").map((cell) => cellOf(cell, strings)));
  const sheet = rows.map((cells) => `<row>${cells.join("")}</row>`).join("");
  return workbook(sheet, "<row/>", { "xl/sharedStrings.xml": `<sst>${strings.join("")}</sst>` });
}
