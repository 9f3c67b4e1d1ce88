/** A small table as real programs saved it: tests/programs/save.py makes the files of `saved`. */
import assert from "node:assert/strict";
import { readdirSync, readFileSync } from "node:fs";
import { test } from "node:test";
import { parsed } from "./pages.mjs";

const { contentsOf, guessedLayout, partsOfXlsx, readTable, sheetsOfHtml } = await import(process.env.READER);
const FOLDER = new URL("./saved/", import.meta.url);
const EMPTY = { chosen: new Map(), leftOut: new Set() };
const BOARD = [
  ["United States", 831401, "Smith"], ["Belgium", 65567, "Hilbers"], ["Netherlands", 88825, "Hilbers"],
  ["Luxembourg", 14676, "Hilbers"], ["México", 90587, "Moreno"], ["Spain", 109734, "Moreno"],
];
/** What isn't the board without a question: the faults, the words of a refusal, or other members. */
const OTHERS = {
  "calc-failed-look-up.xlsx": { faults: ["2 chair"] },
  "calc-failed-look-up.csv": { faults: ["2 chair"] },
  "openpyxl-formulas.xlsx": { refused: "Cells D2 to D7 have formulas without values" },
  "calc-raised.xlsx": { members: [["Marenia", 5663, 1], ["Roswick", 801, 2], ["Lomenia", 811, 2]] },
};

/** The first sheet of a file. */
async function sheetIn(name) {
  const bytes = readFileSync(new URL(name, FOLDER));
  const buffer = bytes.buffer.slice(bytes.byteOffset, bytes.byteOffset + bytes.byteLength);
  const found = contentsOf(name.endsWith("x") ? { parts: await partsOfXlsx(buffer) } : { bytes: buffer });
  return (found.kind === "page" ? sheetsOfHtml(found.html, parsed) : found.sheets)[0].sheet;
}

test("the files are there", () => {
  // Catches: a folder without the files of a program.
  const names = readdirSync(FOLDER);
  for (const program of ["calc", "gnumeric", "openpyxl", "pandas", "r"]) {
    assert.ok(names.some((it) => it.startsWith(`${program}-`) || it.startsWith(`${program}.`)), program);
  }
});

for (const name of readdirSync(FOLDER)) {
  test(`as a program saved it: ${name}`, async () => {
    // Catches: a file of a real program that is read as another board, or asked about though nothing is in doubt.
    const { refused, faults = [], members = BOARD } = OTHERS[name] ?? {};
    if (refused) return assert.rejects(sheetIn(name), (why) => why.message.includes(refused));
    const sheet = await sheetIn(name);
    const read = readTable(sheet, guessedLayout(sheet), EMPTY);
    assert.deepEqual(read.faults.map(({ row, meaning }) => `${row} ${meaning}`), faults);
    if (faults.length) return undefined;
    assert.deepEqual(read.questions.map(({ words }) => words), []);
    const { members: found, chairNames } = read.base;
    return assert.deepEqual(found.map((it) => [it.name, it.votes, chairNames[it.chair] ?? it.chair]), members);
  });
}
