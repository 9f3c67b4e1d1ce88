/** Words on suspended voting rights outside of their column: a question for each member that they touch. */
import { TRUE } from "./members";
import { marksOf, noteMark, SUSPENSION } from "./numbers";
import type { Questions } from "./questions";
import { lineWords, rowsWords, type Line } from "./rows";
import type { Layout, Sheet } from "./types";

/** More letters of a note than this aren't quoted. */
const MOST_LETTERS = 160;

/** A note on a suspension: its rows, its words, and its mark, if it has one. */
interface Note {
  readonly rows: readonly number[];
  readonly text: string;
  readonly mark: string;
}

function quoted(text: string): string {
  return `'${text.length > MOST_LETTERS ? `${text.slice(0, MOST_LETTERS)}…` : text}'`;
}

/** Letters alone, in small ones, with a blank around each word. */
function plain(text: string): string {
  return ` ${text.toLowerCase().split(/[^\p{L}]+/u).filter((it) => it !== "").join(" ")} `;
}

/** The rows that aren't members' and speak of a suspension. A note may go on in the rows below it. */
function notesOf(sheet: Sheet, layout: Layout, lines: readonly Line[], out: ReadonlySet<number>): Note[] {
  const kinds = new Map(lines.map(({ row, role }) => [row, role]));
  const notes: Note[] = [];
  sheet.rows.forEach((cells, at) => {
    const row = at + 1;
    const kind = kinds.get(row);
    const isColumn = (column: number) => row <= layout.header && column === layout.columns.suspended;
    const text = cells.filter((cell, column) => cell !== "" && !isColumn(column)).join(" ");
    if (text === "" || kind === "member" || out.has(row)) return;
    const [last, mark] = [notes[notes.length - 1], noteMark(text)];
    const goesOn = last && mark === "" && kind === "note" && last.rows.includes(row - 1) && kinds.get(row - 1) === kind;
    if (goesOn) notes[notes.length - 1] = { ...last, rows: [...last.rows, row], text: `${last.text} ${text}` };
    else notes.push({ rows: [row], text, mark });
  });
  return notes.filter(({ text }) => SUSPENSION.test(text));
}

/** Whether a text ends in a footnote's mark that nothing separates from it. */
function endsIn(text: string, mark: string): boolean {
  const before = text.slice(0, -mark.length);
  if (mark === "" || !text.endsWith(mark) || !/\p{L}\s?$/u.test(before)) return false;
  return /[0-9*†‡§]/.test(mark) || /\s$/.test(before);
}

/** The members with a note's mark, those that it names, and, if it stands above members, those below it. */
function touchedBy({ mark, text, rows }: Note, sheet: Sheet, lines: readonly Line[]): Line[] {
  const members = lines.filter(({ role }) => role === "member");
  const cellsOf = ({ row }: Line) => sheet.rows[row - 1] ?? [];
  const hasMark = (line: Line) =>
    mark !== "" && (cellsOf(line).some((cell) => marksOf(cell).includes(mark)) || endsIn(line.raw.name, mark));
  const words = plain(text);
  const named = members.filter(({ cells }) => cells.name.length > 2 && words.includes(plain(cells.name)));
  const names = named.filter(({ cells }) =>
    !named.some((it) => it.cells.name.length > cells.name.length && plain(it.cells.name).includes(plain(cells.name))));
  const found = members.filter((line) => hasMark(line) || names.includes(line));
  if (found.length) return found;
  const below = lines.slice(lines.findIndex(({ row }) => row === rows[rows.length - 1]) + 1);
  const end = below.findIndex(({ role }) => role !== "member");
  return lines.some(({ row }) => row === rows[0]) ? below.slice(0, end < 0 ? below.length : end) : [];
}

/** Asks about one member. */
function askMember(questions: Questions, line: Line, why: string): boolean {
  const who = lineWords(line);
  return questions.ask({
    id: `suspended-${line.row}`,
    kind: "suspended",
    row: line.row,
    words: `Suspended? ${who} ${why}.`,
    options: [
      { key: "yes", words: "Yes: its votes aren't cast", choice: `${who}, which ${why}, was taken as suspended` },
      { key: "no", words: "No: it votes", choice: `${who}, which ${why}, was taken as not suspended` },
    ],
  }) === "yes";
}

/** Says of a note that no member was found for it, and asks whether to go on. */
function askNote(questions: Questions, { rows, text }: Note): void {
  questions.ask({
    id: `suspended-note-${rows[0] ?? 0}`,
    kind: "suspended",
    words: `A suspension? ${rowsWords(rows).replace(/^r/, "R")} says ${quoted(text)}, and no member has its mark.`,
    options: [
      { key: "yes", words: "No member of this table is suspended",
        choice: `${rowsWords(rows).replace(/^r/, "R")} speaks of a suspension, and no member was taken as suspended` },
      { key: "no", words: "Take nothing: I mark the members in a column 'Suspended' first", choice: "" },
    ],
  });
}

/** Asks about all suspensions outside of the column for them. Returns the rows of members that are suspended. */
export function askSuspensions(
  sheet: Sheet,
  layout: Layout,
  lines: readonly Line[],
  out: ReadonlySet<number>,
  questions: Questions,
): ReadonlySet<number> {
  const why = new Map<Line, string>();
  const own = (line: Line) => (sheet.rows[line.row - 1] ?? []).find((cell, column) =>
    column !== layout.columns.suspended && SUSPENSION.test(cell));
  for (const line of lines) {
    const cell = line.role === "member" ? own(line) : undefined;
    if (cell !== undefined) why.set(line, `says ${quoted(cell)}`);
  }
  for (const note of notesOf(sheet, layout, lines, out)) {
    const touched = touchedBy(note, sheet, lines);
    if (!touched.length) askNote(questions, note);
    for (const line of touched) {
      if (why.has(line) || TRUE.test(line.cells.suspended)) continue;
      why.set(line, `is meant by the note in ${rowsWords(note.rows)}: ${quoted(note.text)}`);
    }
  }
  const asked = [...why].sort(([one], [other]) => one.row - other.row);
  return new Set(asked.filter(([line, words]) => askMember(questions, line, words)).map(([{ row }]) => row));
}
