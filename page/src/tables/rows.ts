/** The rows of a sheet, by what their cells mean and by what kind of row they seem to be. */
import { RAISED } from "./cells";
import { isNumber, SUSPENSION, wholeOf, withoutMarks } from "./numbers";
import { MEANINGS, type Layout, type Meaning, type Sheet } from "./types";

/** What a row is. The kinds from `named` to `printed` are totals if arithmetic says so. */
export type Role =
  | "member"
  | "heading" // a chair's name above its members
  | "named" // named as a total
  | "own" // a chair's name with votes, and no member
  | "bare" // votes, and no name
  | "printed" // a number in the column of chairs' totals alone
  | "total"
  | "header" // the header again
  | "aggregate" // the sum of members elsewhere, such as a group or a region
  | "note"
  | "alternate"
  | "out";

export type Cells = Readonly<Record<Meaning, string>>;

/** A row below the header, with its cells as they are and without footnote marks. */
export interface Line {
  readonly row: number;
  readonly raw: Cells;
  readonly cells: Cells;
  readonly votes: number | null;
  /** The printed total of its chair. */
  readonly printed: number | null;
  readonly role: Role;
  /** The chair's name on a heading. */
  readonly heading: string;
  /** Whether an empty row is above it. */
  readonly isApart: boolean;
}

const TOTAL_NAME = new RegExp(
  "^(grand |sub[- ]?|chair |constituency |group |overall )?(totals?|sums?|summe|gesamt|somme)\\b" +
    "|\\b(sub[- ]?)?totals?$|^all members$",
  "i",
);
const NOTE = new RegExp(`^([*†‡§]|[${RAISED}]|[0-9]{1,2}/)\\s*\\p{L}`, "u");
/** Marks of notes that could number headings, too. */
const LAST_NOTE = /^([0-9]{1,2}\)|\([0-9]{1,2}\)|\[[0-9]{1,2}\])\s*\p{L}/u;
const NOTE_WORDS = /^(notes?|sources?|footnotes?|as of|memorandum|memo items?|of which)\b/i;
const HEADING_WORDS = /^casting votes of\s+/i;

function isText(cell: string): boolean {
  return /\p{L}/u.test(cell) && !isNumber(cell);
}

/** Whether a text is a note. Below the last votes more texts are. */
function isNote(text: string, isLast: boolean): boolean {
  if (NOTE.test(text) || NOTE_WORDS.test(text)) return true;
  return isLast && (LAST_NOTE.test(text) || (text.endsWith(".") && text.split(/\s+/).length > 4));
}

/** A chair's name as a heading has it. */
function headingOf(text: string): string {
  return withoutMarks(text).replace(HEADING_WORDS, "").replace(/:$/, "");
}

function cellsOf(row: readonly string[], { columns }: Layout, of: (cell: string) => string): Cells {
  return Object.fromEntries(MEANINGS.map((it) => [it, of(row[columns[it]] ?? "")])) as Record<Meaning, string>;
}

/** Whether a row is named as a total, by its name or by its first text. */
function isNamedTotal(row: readonly string[], { name, code, chair }: Cells): boolean {
  const first = row.find(isText) ?? "";
  const texts = [name, /^[A-Za-z]{3}$/.test(code) ? "" : code, name === "" ? chair : ""];
  return [...texts, /^[A-Za-z]{3}$/.test(first) ? "" : first].some((it) => TOTAL_NAME.test(withoutMarks(it)));
}

/** What a row without votes is. */
function roleWithoutVotes(row: readonly string[], cells: Cells, layout: Layout, isLast: boolean): Role {
  const filled = row.filter((cell) => cell !== "");
  const texts = filled.filter(isText);
  const first = texts[0] ?? "";
  const isAlone = filled.length === 1 && texts.length === 1;
  if ((isNote(first, isLast) || SUSPENSION.test(first)) && (isAlone || isLast)) return "note";
  const at = row.indexOf(first);
  const { chair, name, code } = layout.columns;
  if (isAlone && !isLast && (chair < 0 ? at !== code : at === chair)) return "heading";
  if (isAlone && at !== chair && at !== name && at !== code) return "note";
  if (cells.name !== "" || cells.code !== "") return "member";
  if (cells.chair !== "") return isLast ? "alternate" : "heading";
  return cells.chairTotal === "" ? "out" : "printed";
}

/** What a row seems to be. */
function roleOf(row: readonly string[], cells: Cells, layout: Layout, isLast: boolean): Role {
  if (isNamedTotal(row, cells) && (cells.votes !== "" || cells.chairTotal !== "")) return "named";
  if (isLast && isNote(row.find(isText) ?? "", isLast)) return "note";
  if (cells.votes === "") return roleWithoutVotes(row, cells, layout, isLast);
  if (layout.columns.chair < 0 && HEADING_WORDS.test(cells.name)) return "heading";
  if (cells.name !== "" || cells.code !== "") return "member";
  return cells.chair === "" ? "bare" : "own";
}

function lineOf(sheet: Sheet, layout: Layout, at: number, last: number): Line {
  const row = sheet.rows[at] ?? [];
  const raw = cellsOf(row, layout, (cell) => cell);
  const cells = cellsOf(row, layout, withoutMarks);
  const role = roleOf(row, cells, layout, at > last);
  const votes = wholeOf(cells.votes, layout.thousands)?.value ?? null;
  const own = role === "heading" || role === "own" ? votes : null;
  const printed = wholeOf(cells.chairTotal, layout.thousands)?.value ?? own;
  const heading = role === "heading" || role === "own" ? headingOf(cells.chair || (row.find(isText) ?? "")) : "";
  const isApart = (sheet.rows[at - 1] ?? []).every((cell) => cell === "");
  return { row: at + 1, raw, cells, votes, printed, role, heading, isApart };
}

/** The rows below the header that aren't empty and aren't left out by the user. */
export function linesOf(sheet: Sheet, layout: Layout, leftOut: ReadonlySet<number>): Line[] {
  const header = sheet.rows[layout.header - 1]?.join("\t");
  const votes = (row: readonly string[]) => wholeOf(withoutMarks(row[layout.columns.votes] ?? ""), layout.thousands);
  const last = sheet.rows.reduce((found, row, at) => (at >= layout.header && votes(row) ? at : found), -1);
  return sheet.rows.flatMap((row, at): Line[] => {
    if (at < layout.header || leftOut.has(at + 1) || row.every((cell) => cell === "")) return [];
    const line = lineOf(sheet, layout, at, last);
    return [row.join("\t") === header ? { ...line, role: "header" } : line];
  });
}

/** A row in words: its number, and its code or name with its votes. */
export function lineWords({ row, raw, heading }: Line): string {
  const votes = raw.votes || raw.chairTotal;
  const words = [raw.code || raw.name || heading || raw.chair, votes ? `${votes} votes` : ""].filter((it) => it);
  return words.length ? `Row ${row} (${words.join(", ")})` : `Row ${row}`;
}

/** Numbers of rows in words: those that follow one another as a range. */
export function rowsWords(rows: readonly number[]): string {
  const ranges: [number, number][] = [];
  for (const row of rows) {
    const range = ranges[ranges.length - 1];
    if (range && row === range[1] + 1) range[1] = row;
    else ranges.push([row, row]);
  }
  const words = ranges.map(([first, last]) => (first === last ? String(first) : `${first} to ${last}`));
  return `${rows.length === 1 ? "row" : "rows"} ${words.join(", ")}`;
}
