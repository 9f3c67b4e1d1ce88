/**
 * A register printed in many layouts: read again, it is the same register, once the questions are answered. Each layout
 * is drawn by chance, with a seed, from what people do: headings, merged cells, alternates, subtotals, totals, marks.
 */
import assert from "node:assert/strict";
import { test } from "node:test";
import { drawing } from "./drawing.mjs";

const { guessedLayout, isStrict, readTable, sheetOf, strictTable } = await import(process.env.READER);
const NAMES = `Armenia Belgium Bulgaria Croatia Cyprus Georgia Israel Luxembourg Moldova Netherlands Romania Ukraine
  Colombia Guatemala Honduras Mexico Spain Austria Belarus Czechia Hungary Kosovo Slovakia Slovenia Angola Botswana
  Burundi Eswatini Ethiopia Kenya Lesotho Liberia Malawi Mozambique Namibia Nigeria Uganda Zambia Zimbabwe Algeria Ghana
  Iran Libya Morocco Pakistan Tunisia Brunei Cambodia Fiji Indonesia Malaysia Nepal Philippines Singapore Thailand Tonga
  `.trim().split(/\s+/);
const LARGE = ["United States", "Japan", "China", "Germany", "France", "United Kingdom", "Saudi Arabia"];
const DIRECTORS = `Shortino Tanaka Zhang Buisse White Rashed Hilbers Moreno Kaya Mannathoko Mohieldin Sitorus Becker
  Palotai Garcia Levonian Roy Bevilaqua`.split(/\s+/);
const ALTERNATES = `Corvino Ishii Sun Klein Leonard Hussain Dresse Guerra Csonto Sode Bahreini Chow Merk Mateev Vogel
  Holmes Eckert Saraiva`.split(/\s+/);
const EMPTY = { chosen: new Map(), leftOut: new Set() };

/** Chairs with their members: some of one member, others of several, the last of three at least. */
function drawnBoard(below) {
  const names = [...NAMES];
  const length = 3 + below(12);
  const chairs = Array.from({ length }, (_, at) => {
    const isLast = at === length - 1;
    const isSingle = below(3) === 0 && at < LARGE.length && !isLast;
    const many = isSingle ? 1 : (isLast ? 3 : 2) + below(3);
    const members = isSingle ? [LARGE[at]] : names.splice(0, many);
    return {
      director: DIRECTORS[at],
      alternate: ALTERNATES[at],
      members: members.filter(Boolean).map((name) => ({ name, votes: 1000 + below(isSingle ? 900_000 : 90_000) })),
    };
  });
  return chairs.filter(({ members }) => members.length);
}

const sumOf = (members) => members.reduce((sum, { votes }) => sum + votes, 0);

/** How a register is printed. */
function drawnLook(below) {
  const one = (...some) => some[below(some.length)];
  return {
    style: one("first", "each", "heading", "heading"),
    alternates: one("none", "none", "second"),
    totals: one("none", "rows", "column-first", "column-last", "heading"),
    grand: one("none", "named", "bare"),
    head: one("Director", "Executive Director", "Director / Alternate", "Constituency"),
    thousands: one("", ",", " ", "'"),
    percent: one(true, false),
    marks: one(true, false),
    notes: one(true, false),
    order: below(2),
    singles: one("heading", "row"),
    columns: one("two", "one"),
  };
}

/** A number as it is printed. */
function printed(number, mark) {
  return String(number).replace(/\B(?=(\d{3})+$)/g, mark);
}

/** The rows of a chair. */
function rowsOfChair(chair, look, total) {
  const number = (value) => printed(value, look.thousands);
  const share = (value) => (look.percent ? [((100 * value) / total).toFixed(2)] : []);
  const sum = sumOf(chair.members);
  const isColumn = look.totals.startsWith("column");
  const isAbove = look.style === "heading" && (chair.members.length > 1 || look.singles === "heading");
  const rows = chair.members.map(({ name, votes }, at) => {
    const isFirst = at === 0;
    const isLast = at === chair.members.length - 1;
    const second = look.alternates === "second" && at === 1 ? chair.alternate : "";
    const own = look.style === "each" || (isFirst && !isAbove) ? chair.director : isAbove ? "" : second;
    const isTotal = look.totals === "column-first" ? isFirst : isLast;
    return [own, name, number(votes), ...(isColumn ? [isTotal ? number(sum) : ""] : []), ...share(votes)];
  });
  const blank = isColumn ? [""] : [];
  const own = look.totals === "heading" ? number(sum) : "";
  const heading = [chair.director, "", own, ...blank, ...share(sum).map(() => "")];
  const subtotal = ["", "Subtotal", number(sum), ...blank, ...share(sum)];
  return [...(isAbove ? [heading] : []), ...rows, ...(look.totals === "rows" ? [subtotal] : [])];
}

/** Whether the chairs' names stand above their members in one column with them. */
function isOneColumn({ style, singles, columns, totals }) {
  return style === "heading" && singles === "heading" && columns === "one" && !totals.startsWith("column");
}

/** A register as a table of cells. The votes of one member may be off by some, next to totals that are right. */
function tableOf(board, look, off = null) {
  const total = sumOf(board.flatMap(({ members }) => members));
  const isColumn = look.totals.startsWith("column");
  const percent = look.percent ? ["Per cent"] : [];
  const head = [look.head, "Member", "Votes", ...(isColumn ? ["Total votes"] : []), ...percent];
  const all = printed(total, look.thousands);
  const grand = { none: [], named: [["", "Total", all]], bare: [["", "", all]] }[look.grand];
  const rows = [head, ...board.flatMap((chair) => rowsOfChair(chair, look, total)), ...grand];
  if (off) {
    const row = rows.find((cells) => cells[1] === off.name);
    row[2] = printed(off.votes + 1, look.thousands);
  }
  const order = look.order ? [1, 0, 2, 3, 4] : [0, 1, 2, 3, 4];
  const isOne = isOneColumn(look);
  const cells = isOne
    ? rows.map(([own, name, ...rest]) => [name || own, ...rest])
    : rows.map((row) => order.slice(0, head.length).map((at) => row[at] ?? ""));
  if (look.marks) cells[1] = cells[1].map((cell) => (/[A-Z]/.test(cell) ? `${cell} 1/` : cell));
  const notes = look.notes ? ["1/ As of today.", "Source: the Board."] : [];
  return `${[...cells.map((row) => row.join("\t")), ...notes].join("\n")}\n`;
}

/** What a reader who knows the table answers. */
function answerTo({ id, kind, row }, board, look, sheet) {
  const cells = sheet.rows[row - 1] ?? [];
  const isAlternate = cells.some((cell) => ALTERNATES.includes(cell.replace(" 1/", "")));
  if (kind === "alternate") return row ? (isAlternate ? "yes" : "no") : look.alternates === "second" ? "each" : "no";
  if (kind === "total") return cells.some((cell) => NAMES.includes(cell) || LARGE.includes(cell)) ? "no" : "yes";
  if (kind === "single") return "own";
  if (kind === "sums") return "yes";
  if (kind === "repeat" || kind === "outside" || kind === "aggregate") return "no";
  assert.ok(["merged", "headings"].includes(kind), `${id}: ${kind} is asked`);
  return "yes";
}

/** Reads a table with answers, each to a question that is asked. */
function readWith(text, answer) {
  const sheet = sheetOf(text);
  const layout = guessedLayout(sheet);
  const kinds = new Set();
  let chosen = new Map();
  for (let asked = 0; asked < 40; asked += 1) {
    const read = readTable(sheet, layout, { chosen, leftOut: new Set() });
    const open = read.questions.find((it) => it.answer === null);
    if (!open) return { read, asked, kinds };
    kinds.add(open.kind);
    chosen = new Map([...chosen, [open.id, answer(open, sheet)]]);
  }
  throw new Error("it asks for ever");
}

/** The chairs of a table that was read: each with its members' names and votes. */
function chairsOf(base) {
  const chairs = new Map();
  for (const { name, votes, chair } of base.members) {
    chairs.set(chair, [...(chairs.get(chair) ?? []), `${name} ${votes}`]);
  }
  return [...chairs.values()];
}

for (let seed = 1; seed <= 500; seed += 1) {
  test(`a register printed by chance, number ${seed}`, () => {
    // Catches: a layout that moves a member to another chair, makes a total a member, or loses one.
    const below = drawing(seed);
    const board = drawnBoard(below);
    const look = drawnLook(below);
    const text = tableOf(board, look);
    const { read, asked, kinds } = readWith(text, (open, sheet) => answerTo(open, board, look, sheet));
    const about = [JSON.stringify(look), text, JSON.stringify(read.faults), ...(read.base?.choices ?? [])].join("\n");
    assert.ok(read.base, about);
    const wanted = board.map(({ members }) => members.map(({ name, votes }) => `${name} ${votes}`));
    assert.deepEqual(chairsOf(read.base), wanted, about);
    assert.ok(asked <= 3 + board.length, `${asked} questions: ${about}`);
    const wrong = ["sums", "repeat", "outside", "aggregate", "suspended"].filter((it) => kinds.has(it));
    assert.deepEqual(wrong, [], about);
    const strict = sheetOf(strictTable(read.base));
    assert.ok(isStrict(strict));
    assert.deepEqual(chairsOf(readTable(strict, guessedLayout(strict), EMPTY).base), wanted);
  });
}

for (let seed = 1; seed <= 500; seed += 1) {
  test(`a register with a number off by one, number ${seed}`, () => {
    // Catches: a printed total that isn't compared with the members' votes.
    const below = drawing(seed);
    const board = drawnBoard(below);
    const look = drawnLook(below);
    const { members } = board[below(board.length)];
    const isAbove = look.style === "heading" && (members.length > 1 || look.singles === "heading");
    if (look.grand === "none" && (look.totals === "none" || (look.totals === "heading" && !isAbove))) return;
    const text = tableOf(board, look, members[below(members.length)]);
    const { read, kinds } = readWith(text, (open, sheet) => answerTo(open, board, look, sheet));
    const said = kinds.has("total") || kinds.has("sums") || read.faults.length > 0;
    assert.ok(said, `${JSON.stringify(look)}\n${text}\n${(read.base?.choices ?? []).join("\n")}`);
  });
}
