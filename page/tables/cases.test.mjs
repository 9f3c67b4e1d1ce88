/** Each case of `cases`: the questions and faults before any answer, and the members after the answers. */
import assert from "node:assert/strict";
import { test } from "node:test";
import { casesOf } from "./cases.mjs";
import { checkAgain, checkNothingIsLost, checkNothingIsMended } from "./checks.mjs";
import { parsed } from "./pages.mjs";
import { workbookOf } from "./workbooks.mjs";

const { contentsOf, guessedLayout, layoutWith, readTable, sheetOf, sheetsOfHtml, strictTable } =
  await import(process.env.READER);
const HEADER = "code,name,votes,chair,chair_name,suspended";
const EMPTY = { chosen: new Map(), leftOut: new Set() };

/** The column of a letter or of a heading. */
function columnOf(sheet, name) {
  return /^[A-Z]$/.test(name) ? name.charCodeAt(0) - 65 : sheet.rows.flat().indexOf(name) % sheet.width;
}

/** The layout and the answers after the lines of a case. */
function answered(sheet, lines) {
  let layout = guessedLayout(sheet);
  const answers = { chosen: new Map(), leftOut: new Set() };
  for (const line of lines) {
    const [, left, right] = /^(\S+)(?: =)? (.*)$/.exec(line);
    if (left === "leave") answers.leftOut.add(Number(right));
    else if (left === "thousands") layout = layoutWith(sheet, layout.header, right);
    else if (left === "header") layout = layoutWith(sheet, Number(right), layout.thousands);
    else if (left in layout.columns) {
      const votesMaybe = left === "votes" ? [] : layout.votesMaybe;
      const column = right === "none" ? -1 : columnOf(sheet, right);
      layout = { ...layout, votesMaybe, columns: { ...layout.columns, [left]: column } };
    } else if (left === "which-votes") answers.chosen.set(left, String(columnOf(sheet, right)));
    else answers.chosen.set(left, right);
  }
  return { layout, answers };
}

const questionsOf = ({ questions }) =>
  questions.filter(({ answer }) => answer === null).map(({ kind, row }) => (row ? `${kind} ${row}` : kind)).sort();
const faultsOf = ({ faults }) => faults.map(({ row, meaning }) => `${row} ${meaning}`);

/** Rows of a strict table, without its header. */
const rowsOf = (base) => strictTable(base).split("\n").slice(1, -1);

/** The sentence with which a text is refused. */
function refusalOf(table) {
  try {
    sheetOf(table);
  } catch (why) {
    return why.message;
  }
  return "";
}

/** The sheet of a case. */
function sheetIn({ table, kind }) {
  if (kind === "page") return sheetsOfHtml(contentsOf({ text: `<html>${table}` }).html, parsed)[0].sheet;
  return kind === "workbook" ? contentsOf({ parts: workbookOf(table) }).sheets[0].sheet : sheetOf(table);
}

function check(it) {
  const { table, questions, faults, answers, members, notices, compared, unreadable } = it;
  if (unreadable) {
    for (const words of unreadable) assert.ok(refusalOf(table).includes(words), refusalOf(table) || "it is read");
    return;
  }
  const sheet = sheetIn(it);
  const first = readTable(sheet, guessedLayout(sheet), EMPTY);
  assert.deepEqual(questionsOf(first), [...questions].sort(), first.questions.map((it) => it.words).join("\n"));
  assert.deepEqual(faultsOf(first), faults, first.faults.map((it) => it.reason).join("\n"));
  assert.equal(first.base !== null, !questions.length && !faults.length);
  if (!members) return;
  const { layout, answers: given } = answered(sheet, answers);
  const { base, questions: open, faults: left, compared: found } = readTable(sheet, layout, given);
  const why = [...open.map((it) => `${it.words} ${it.answer}`), ...left.map((it) => `${it.row} ${it.reason}`)];
  assert.ok(base, `not whole: ${why.join("; ")}`);
  assert.deepEqual(rowsOf(base), members, base.choices.join("\n"));
  for (const words of notices) assert.ok(base.choices.some((it) => it.includes(words)), base.choices.join("\n"));
  const lines = found.map(({ what, read, printed, isOff }) => `${what} | ${read} | ${printed}${isOff ? " !" : ""}`);
  for (const line of compared) assert.ok(lines.includes(line), lines.join("\n"));
  checkNothingIsLost(sheet, layout, base);
  checkNothingIsMended(sheet, layout, base);
  checkAgain(base);
}

const cases = casesOf(new URL("./cases/", import.meta.url));
test("there are cases, and each has a verdict", () => {
  // Catches: a folder that isn't found, or a case that holds whatever the reader does.
  assert.ok(cases.length > 100, `${cases.length} cases`);
  for (const { title, members, questions, faults, unreadable } of cases) {
    assert.ok(members || questions.length || faults.length || unreadable, title);
  }
  assert.equal(new Set(cases.map(({ title }) => title)).size, cases.length, "two cases have one title");
});
// Catches: a table that is read otherwise than its case says, a row or a cell that is mended in silence, and a strict
// table that is read as another one.
for (const it of cases) test(it.title, () => check(it));
assert.equal(strictTable({ members: [], chairNames: {}, choices: [], columns: {} }), `${HEADER}\n`);
