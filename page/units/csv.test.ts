/** Cells of tables that are exported. */
import assert from "node:assert/strict";
import { test } from "node:test";
import { csvOf, plainCell, plainLine } from "../src/exports/csv";

test("cells that a spreadsheet would take for a formula", () => {
  // Catches: a name in a table that a spreadsheet carries out, and a number or a name that is changed.
  for (const cell of ["=1", "+A1", "-A1", "@SUM(A1)", "\r=1"]) assert.equal(plainCell(cell), `'${cell}`);
  for (const cell of ["", "A=1", "-1", "+1,000.5", " =1"]) assert.equal(plainCell(cell), cell);
});

test("cells and lines of comments where a semicolon or a tab separates cells", () => {
  // Catches: a formula behind a separator, or with full-width signs; a per cent of a command that is changed.
  for (const text of ["A,=1,B", "A; =1", "A\t@x", 'A,"B', "A;\uff1d1", "A,+1+2"]) {
    assert.match(plainLine(text), /[,;\t] ?'/);
    assert.match(plainCell(text), /[,;\t] ?'/);
  }
  assert.equal(plainCell("\t=1"), "'\t'=1");
  assert.equal(plainCell("\uff1d1"), "'\uff1d1");
  assert.equal(plainLine("votes,AAA,+30%; votes,BBB,-5"), "votes,AAA,+30%; votes,BBB,-5");
  assert.equal(csvOf([]).split("\n").length, 2);
});
