/** The table of words: what is a missing value, an error, a raised mark, and where commas separate. */
import assert from "node:assert/strict";
import { readFileSync } from "node:fs";
import { test } from "node:test";
import { workbook } from "./workbooks.mjs";

const { contentsOf, errorWords, plainCell, raised, sheetOf } = await import(process.env.READER);
const XML = '<?xml version="1.0" encoding="UTF-8"?>\n';
/** The first letters of files that programs save and that are no tables, and words of the sentence on each. */
const KINDS = {
  [`${XML}<office:document xmlns:office="urn:x">`]: "an OpenDocument file (.fods, .fodt)",
  [`${XML}<!-- made by x -->\n<office:document>`]: "an OpenDocument file (.fods, .fodt)",
  [`${XML}<?mso-application progid="Excel.Sheet"?>\n<Workbook>`]: "a spreadsheet of Excel 2003 (.xml)",
  [`${XML}<members/>`]: "This is XML",
  'TABLE\n0,1\n"EXCEL"\nVECTORS\n0,3\n': "a file of the format DIF",
  "ID;PSCALC3\nC;X1;Y1;K\"code\"\n": "a file of the format SYLK",
  '[{"code": "AAA", "votes": 40}]': "This is JSON",
  '{"columns": ["code"], "data": []}': "This is JSON",
  '"code" "votes" "chair"\n"1" "AAA" 40 1\n': "a quoted cell isn't closed, or something follows its quotes: cells with",
  "reading,reader,front,pending,majority,open_chairs,quota,chair,name\n1,1,9,0,half,3,51,1,A\n": "board-figures writes",
  "scenario;sweep;majority;chair;name\nbase;;half;1;A\n": "board-study or board-figures writes",
};
const rows = readFileSync(new URL("./words.txt", import.meta.url), "utf8").split("\n")
  .filter((line) => line !== "" && !line.startsWith("# ")).map((line) => line.split("\t"));
const of = (kind) => rows.filter(([it]) => it === kind).map(([, ...cells]) => cells);

test("there are words of each kind", () => {
  // Catches: a table that isn't found, or a kind that no test knows.
  const kinds = ["missing", "error", "kept", "raised", "thousands", "cells"];
  assert.deepEqual([...new Set(rows.map(([kind]) => kind))], kinds);
});

test("missing values are blanks, and errors and names aren't", () => {
  // Catches: a word for a missing value that is a name, and a name that is a blank or an error.
  for (const [cell] of of("missing")) assert.equal(plainCell(cell), "", cell);
  for (const [cell] of of("error")) assert.ok(plainCell(cell) === cell && errorWords(cell) !== "", cell);
  for (const [cell] of of("kept")) assert.deepEqual([plainCell(cell), errorWords(cell)], [cell, ""]);
});

test("what is raised becomes a mark", () => {
  // Catches: a digit, a bracket or a letter above the line that becomes a part of the number before it.
  for (const [text, mark] of of("raised")) assert.equal(raised(text), mark);
});

test("commas separate cells, or thousands", () => {
  // Catches: votes that commas of thousands cut in two, and a table with commas that is refused.
  const sheet = (row) => sheetOf(`Member\n${`${row}\n`.repeat(3)}`);
  for (const [row] of of("thousands")) assert.throws(() => sheet(row), /commas of this text separate thousands/, row);
  for (const [row] of of("cells")) assert.ok(sheet(row).width > 1, row);
});

test("files that are no tables", () => {
  // Catches: a file that is refused by its number of rows or by its quotes, though what it is could be said.
  for (const [text, words] of Object.entries(KINDS)) {
    assert.throws(() => contentsOf({ text }), (why) => why.message.includes(words), `${words}: ${text}`);
  }
});

test("formulas without values", () => {
  // Catches: a sheet whose votes no spreadsheet has counted yet, and which lacks a column or has blanks in their place.
  const cell = (at, row) => (at === 2 ? `<c r="C${row}"><f>A${row}*2</f><v></v></c>` : `<c r="A${row}"><v>4</v></c>`);
  const body = [1, 2, 3].map((row) => `<row r="${row}">${cell(1, row)}${cell(2, row)}</row>`).join("");
  const sheet = (text) => contentsOf({ parts: workbook(text, "<row/>") });
  assert.throws(() => sheet(body), /^.*Cells C1 to C3 have formulas without values: open the workbook/);
  assert.throws(() => sheet('<row><c r="B7"><f>1+1</f></c></row>'), /Cell B7 has a formula without its value/);
  const counted = '<row><c r="A1" t="str"><f>""</f><v></v></c><c r="B1"><f>1+1</f><v>2</v></c></row>';
  assert.deepEqual(sheet(counted).sheets[0].sheet.rows, [["", "2"]]);
});
