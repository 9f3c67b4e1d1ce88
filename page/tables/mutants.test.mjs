/** The tables of the cases, changed and answered by chance: whatever is taken holds what every table holds. */
import assert from "node:assert/strict";
import { test } from "node:test";
import { casesOf } from "./cases.mjs";
import { checkAgain, checkNothingIsLost, checkNothingIsMended } from "./checks.mjs";
import { drawing } from "./drawing.mjs";

const { guessedLayout, readTable, sheetOf } = await import(process.env.READER);
const CELLS = ["", "Total", "1/", "Hilbers", "0", "12", "1,234", "1.234", "50 %", "none", "AAA", "2024", "\"", "x\ny"];
const EACH = 30;

/** A text with a cell, a row or a delimiter changed. */
function mutant(text, below) {
  const rows = text.split("\n").map((row) => row.split(/[\t,;]/));
  const delimiter = /\t/.test(text) ? "\t" : /;/.test(text) ? ";" : ",";
  for (let count = 1 + below(3); count > 0; count -= 1) {
    const at = below(rows.length);
    const place = below(Math.max(rows[at].length, 1));
    const other = rows[below(rows.length)];
    const changes = [
      () => rows[at].splice(place, 1, CELLS[below(CELLS.length)]),
      () => rows[at].splice(place, 1, other[below(other.length)]),
      () => rows.splice(at, 1),
      () => rows.splice(at, 0, [...other]),
      () => rows.splice(at, 0, [CELLS[below(CELLS.length)]]),
      () => rows[at].splice(place, 1),
    ];
    changes[below(changes.length)]();
    if (!rows.length) return "";
  }
  return rows.map((row) => row.join(delimiter)).join("\n");
}

/** The sheet of a text, or null if it is refused by a sentence. */
function sheetOrNull(text) {
  try {
    return sheetOf(text);
  } catch (why) {
    assert.ok(/[.s]$/.test(why.message) && why.message.includes(" "), why.message);
    return null;
  }
}

/** Answers by chance until nothing is open, and leaves the rows with faults out. */
function readByChance(sheet, below) {
  const layout = guessedLayout(sheet);
  const answers = { chosen: new Map(), leftOut: new Set() };
  for (let step = 0; step < 200; step += 1) {
    const read = readTable(sheet, layout, answers);
    const open = read.questions.find(({ answer, kind }) => answer === null || (kind === "sums" && answer === "no"));
    const fault = read.faults.find(({ row }) => row > 0);
    if (open) answers.chosen.set(open.id, open.options[below(open.options.length)].key);
    else if (fault) answers.leftOut.add(fault.row);
    else {
      const layoutTaken = answers.chosen.get("which-votes") ?? layout.columns.votes;
      return { read, layout: { ...layout, columns: { ...layout.columns, votes: Number(layoutTaken) } } };
    }
  }
  throw new Error("it asks for ever");
}

casesOf(new URL("./cases/", import.meta.url)).forEach(({ title, table, unreadable }, number) => {
  if (unreadable) return;
  test(`changed by chance: ${title}`, () => {
    // Catches: a table for which the reader stops with an error or asks for ever, and rows or cells that it changes in
    // silence.
    for (let seed = 0; seed < EACH; seed += 1) {
      const below = drawing(1000 * number + seed + 1);
      const text = mutant(table, below);
      const sheet = sheetOrNull(text);
      if (!sheet) continue;
      const { read, layout } = readByChance(sheet, below);
      if (!read.base) continue;
      try {
        checkNothingIsLost(sheet, layout, read.base);
        checkNothingIsMended(sheet, layout, read.base);
        checkAgain(read.base);
      } catch (why) {
        throw new Error(`${why.message}\n${text}`, { cause: why });
      }
    }
  });
});
