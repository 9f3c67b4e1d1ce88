/** What holds for every table that is taken: nothing is lost or mended in silence, and its strict table is the same. */
import assert from "node:assert/strict";

const { guessedLayout, readTable, sheetOf, strictTable } = await import(process.env.READER);
const EMPTY = { chosen: new Map(), leftOut: new Set() };

/** All numbers of rows that sentences name: `rows 3, 5 to 7`. */
function rowsIn(sentences) {
  const found = new Set();
  for (const [, list] of sentences.join("\n").matchAll(/\brows? ([0-9]+(?:(?:, | to )[0-9]+)*)/gi)) {
    for (const part of list.split(", ")) {
      const [from, to = from] = part.split(" to ").map(Number);
      for (let row = from; row <= to; row += 1) found.add(row);
    }
  }
  return found;
}

/** Nothing is left out in silence: each row below the header is a member's, or a sentence names it. */
export function checkNothingIsLost(sheet, layout, base) {
  const said = rowsIn(base.choices);
  const rows = new Set(base.members.map(({ row }) => row));
  sheet.rows.forEach((cells, at) => {
    const row = at + 1;
    if (row <= layout.header || cells.every((cell) => cell === "")) return;
    assert.ok(rows.has(row) || said.has(row), `row ${row} is lost: ${base.choices.join("\n")}`);
  });
}

/** Nothing is converted in silence: a number that isn't plain, or a name that is cut, is in a notice. */
export function checkNothingIsMended(sheet, layout, base) {
  const said = base.choices.join("\n");
  for (const { row, name, votes, code } of base.members) {
    if (row === 0) {
      const many = votes.toLocaleString("en");
      assert.match(said, new RegExp(`${name}: a member in no chair with ${many} votes was added`));
      continue;
    }
    const cell = (meaning) => sheet.rows[row - 1][layout.columns[meaning]] ?? "";
    const votesCell = layout.columns.votes < 0 ? String(votes) : cell("votes");
    const converted = /Marks between|Numbers such as|Footnote marks|Zeros before/;
    if (votesCell !== String(votes)) assert.match(said, converted, votesCell);
    if (layout.columns.name >= 0 && cell("name") !== name) assert.match(said, /Footnote marks/, name);
    if (layout.columns.code < 0) assert.match(said, new RegExp(`no codes[^]*${code}`));
    else if (cell("code") !== code) assert.match(said, /Small letters|Footnote marks/);
  }
}

/** The strict table of what was read asks nothing and gives the same members. */
export function checkAgain(base) {
  const sheet = sheetOf(strictTable(base));
  const again = readTable(sheet, guessedLayout(sheet), EMPTY);
  assert.deepEqual([again.questions, again.faults, again.notices], [[], [], []]);
  const bare = (it) => it.members.map(({ row, ...rest }) => rest);
  assert.deepEqual(bare(again.base), bare(base));
  assert.equal(strictTable(again.base), strictTable(base));
}
