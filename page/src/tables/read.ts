/** Reads a sheet by its layout and the answers so far: a whole table, or what is wrong and what is open. */
import { counted } from "../study/fractions";
import { listed } from "../study/names";
import { withoutAggregates, withoutLoose } from "./aggregates";
import { columnName, columnNames, hasTwoHeaders } from "./columns";
import { seated, type AlternateHead, type Seated } from "./chairs";
import { freeCodes, madeCodes, memberKey } from "./codes";
import { membersOf, type Members } from "./members";
import { wholeOf } from "./numbers";
import { errorWords, valueErrorWords } from "./cells";
import { askWhole, comparedOf } from "./compared";
import { withChairs, withDirectors, withOwnRows } from "./directors";
import { withoutPieces } from "./pieces";
import { Questions } from "./questions";
import { outsideOf, outsideWords } from "./outside";
import { lineWords, linesOf, rowsWords, type Line, type Role } from "./rows";
import { withSimilar } from "./similar";
import { isStrict } from "./strict";
import { askSums, withSums } from "./sums";
import { askSuspensions } from "./suspensions";
import { withHeadings, withTotals } from "./totals";
import {
  MEANING_WORDS, MEANINGS, type Answers, type CellFault, type Layout, type ReadTable, type Sheet, type Struck,
  type TableMember,
} from "./types";

/** What a row is in words, if it isn't a member. */
const ROLE_WORDS: Readonly<Partial<Record<Role, string>>> = {
  heading: "heading", total: "total", header: "header again", note: "note", alternate: "alternate", out: "left out",
  aggregate: "left out",
};
const NOT_MEMBERS: readonly Role[] = ["header", "note", "alternate", "out", "aggregate"];

/** Asks which of several columns has the votes. */
function askVotes(sheet: Sheet, layout: Layout, questions: Questions): Layout {
  const { votesMaybe, columns } = layout;
  if (votesMaybe.length < 2) return layout;
  const names = votesMaybe.map((at) => ({ at, name: columnName(sheet, layout, at) }));
  const key = questions.ask({
    id: "which-votes",
    kind: "votes",
    words: `Which column has the votes? ${names.length} columns have whole numbers that may be votes.`,
    options: names.map(({ at, name }) => ({
      key: String(at),
      words: `Column ${name}`,
      choice: `The votes are those of column ${name}, and not of ${
        names.filter((it) => it.at !== at).map((it) => it.name).join(", ")}`,
    })),
  });
  return { ...layout, columns: { ...columns, votes: Number(key ?? -1) } };
}

/** The column that a table needs and that isn't chosen. */
function missingColumn(sheet: Sheet, layout: Layout): CellFault | null {
  const { code, name, votes } = layout.columns;
  const percents = layout.percents.map((at) => columnName(sheet, layout, at)).join(", ");
  const hint = percents ? ` (in per cent, and so not votes: column ${percents})` : "";
  if (votes < 0) return { row: 0, meaning: "votes", reason: `no column is chosen${hint}` };
  if (code >= 0 || name >= 0) return null;
  return { row: 0, meaning: "code", reason: "no column is chosen, nor one of names to make codes from" };
}

/** Rows that a comma in a number may have cut, and rows without a name if codes are made from names. */
function rowFaults(sheet: Sheet, { header, columns }: Layout, lines: readonly Line[]): CellFault[] {
  const cellsOf = (row: number) => sheet.rows[row - 1] ?? [];
  const mayBeCut = header > 0 && /^[;,]$/.test(sheet.delimiter);
  const width = mayBeCut ? cellsOf(header).length : sheet.width;
  const wide = lines.filter(({ row }) => cellsOf(row).slice(width).some((cell) => cell !== ""));
  const nameless = columns.code < 0 ? lines.filter(({ cells }) => !/\p{L}/u.test(cells.name)) : [];
  return [
    ...wide.map(({ row }): CellFault => {
      return { row, meaning: "votes", reason: `${cellsOf(row).length} cells under a header of ${width}` };
    }),
    ...nameless.map(({ row }): CellFault => {
      return { row, meaning: "name", reason: "there is no name to make a code from" };
    }),
  ];
}

/** Cells with a spreadsheet's error, in whatever row they are read. */
function errorFaults({ columns }: Layout, lines: readonly Line[]): CellFault[] {
  const used = MEANINGS.filter((it) => columns[it] >= 0 && it !== "suspended");
  return lines.filter(({ role }) => role !== "header" && role !== "note").flatMap(({ row, raw }) =>
    used.flatMap((meaning): CellFault[] => {
      const reason = /name|^chair$/i.test(meaning) ? errorWords(raw[meaning]) : valueErrorWords(raw[meaning]);
      return reason ? [{ row, meaning, reason }] : [];
    }));
}

/** Asks about names that stand twice. Returns the rows that are left out. */
function askRepeats(lines: readonly Line[], questions: Questions): ReadonlySet<number> {
  const first = new Map<string, Line>();
  const out = new Set<number>();
  for (const line of lines) {
    const { name, code } = line.cells;
    const key = memberKey(name);
    const other = first.get(key);
    if (key === "" || !other) first.set(key, line);
    else if (code === "" || code.toUpperCase() !== other.cells.code.toUpperCase()) {
      const answer = questions.ask({
        id: `repeat-${line.row}`,
        kind: "repeat",
        row: line.row,
        words: `The same member twice? ${lineWords(line)} has the name of ${lineWords(other).replace(/^R/, "r")}.`,
        options: [
          { key: "yes", words: "Yes: leave this row out",
            choice: `${lineWords(line)}, which has the name of row ${other.row}, was left out` },
          { key: "no", words: "No: it is another member",
            choice: `${lineWords(line)}, which has the name of row ${other.row}, is another member` },
        ],
      });
      if (answer === "yes") out.add(line.row);
    }
  }
  return out;
}

/** Lists rows that were left out without a question, by what they are. */
function roleNotices(lines: readonly Line[]): string[] {
  const rows = (role: Role) => lines.filter((line) => line.role === role).map(({ row }) => row);
  const said = (role: Role, words: string) => (rows(role).length ? [`${words}: ${rowsWords(rows(role))}`] : []);
  return [
    ...said("heading", "Names of chairs above their members were taken as headings"),
    ...said("header", "The header stands in the table again, and was left out"),
    ...said("note", "Notes were left out"),
    ...said("alternate", "Rows with an alternate's name alone were left out"),
    ...said("out", "Rows with neither a name nor votes were left out"),
  ];
}

/** The notice on footnote marks that were left out. */
function markNotice(lines: readonly Line[]): string[] {
  const cells = lines.flatMap(({ row, raw, cells: bare, role }) => {
    if (NOT_MEMBERS.includes(role)) return [];
    const changed = Object.entries(raw).filter(([meaning, cell]) => cell !== bare[meaning as keyof typeof bare]);
    return changed.map(([, cell]) => `'${cell}' in row ${row}`);
  });
  return cells.length ? [`Footnote marks were left out in ${counted(cells.length, "cell")}: ${cells.join("; ")}`] : [];
}

/** How a sheet was read: its header, and columns that weren't. */
function sheetNotices(sheet: Sheet, layout: Layout): string[] {
  const { header, unread, columns } = layout;
  const others = unread.filter((at) => at !== columns.votes).map((at) => columnName(sheet, layout, at));
  const isTwo = hasTwoHeaders(sheet, header);
  const above = isTwo ? header - 2 : header - 1;
  const isSkipped = sheet.rows.some((cells, at) => at < above && cells.some((cell) => cell !== ""));
  return [
    ...(isSkipped ? [`Rows above the header were skipped: ${above}`] : []),
    ...(isTwo ? [`The header was read from ${rowsWords([header - 1, header])}`] : []),
    ...sheet.notices,
    ...(others.length ? [`Not read as votes: column ${others.join(", ")}`] : []),
  ];
}

/** The conversions in good rows, in the scripts' sentences. */
function conversionNotices(layout: Layout, lines: readonly Line[], members: Members): string[] {
  const { faults, numbered, labels } = members;
  const bad = new Set(faults.map(({ row }) => row));
  const said = (is: (cells: Line["cells"]) => boolean, words: string) => {
    const many = lines.filter(({ row, cells }) => !bad.has(row) && is(cells)).length;
    return many ? [`${words} in ${counted(many, "row")}`] : [];
  };
  const votes = (cells: Line["cells"]) => wholeOf(cells.votes, layout.thousands);
  const hasZeros = (cells: Line["cells"]) =>
    votes(cells)?.hasZeros === true || (!numbered.length && /[0-9]\.00?$/.test(cells.chair));
  const chairs = numbered.map(([number, name]) => `${number} ${name}`).join("; ");
  return [
    ...said(hasZeros, "Numbers such as 1.0 were taken as whole numbers"),
    ...said((cells) => votes(cells)?.hasMarks === true, "Marks between thousands were passed over"),
    ...said((cells) => /^0[0-9]/.test(cells.votes), "Zeros before numbers were passed over"),
    ...said(({ code }) => /[a-z]/.test(code), "Small letters of codes were taken as capitals"),
    ...(labels.length ? [`Chairs were taken by the numbers in their names: ${labels.join("; ")}`] : []),
    ...(chairs ? [`Chairs have names: they were numbered in the order in which they appear: ${chairs}`] : []),
  ];
}

/** The members' rows with codes made from their names, and the sentence about that. */
function withCodes(lines: readonly Line[], layout: Layout): { coded: readonly Line[]; made: string[] } {
  if (layout.columns.code >= 0) return { coded: lines, made: [] };
  const codes = madeCodes(lines.map(({ cells }) => cells.name));
  const said = lines.map(({ cells }, at) => `${codes[at]} ${cells.name}`).join("; ");
  const words = "they were made from names (a country's by ISO 3166, and else one that no country has)";
  return {
    coded: lines.map((line, at) => ({ ...line, cells: { ...line.cells, code: codes[at] ?? "" } })),
    made: [`The table has no codes: ${words}: ${said}`],
  };
}

/** What the headings say of alternates. */
function alternateHead(sheet: Sheet, layout: Layout): AlternateHead {
  const { chair, chairName } = layout.columns;
  const heads = (sheet.rows[layout.header - 1] ?? []).filter((_, at) => at !== chair);
  if (heads.some((cell) => /^alternate/i.test(cell))) return "apart";
  const isNamed = [chair, chairName].some((at) => at >= 0 && /alternate/i.test(columnName(sheet, layout, at)));
  return isNamed ? "named" : "unknown";
}

/** What the rows are, with the chairs of the members. */
interface Arranged extends Pick<Seated, "lines" | "seats"> {
  readonly said: readonly string[];
  /** The members that the table leaves out. */
  readonly outside: readonly TableMember[];
}

/** The lines of suspended members with the word in their column. */
function withSuspensions(lines: readonly Line[], rows: ReadonlySet<number>): Line[] {
  return lines.map((line) => (rows.has(line.row) ? { ...line, cells: { ...line.cells, suspended: "true" } } : line));
}

/** Asks whether rows count in which something is struck out. Returns those that don't. */
function askStruck(id: string, head: string, read: string, rows: readonly Struck[], questions: Questions): number[] {
  if (!rows.length) return [];
  const parts = listed(rows.flatMap(({ row, words }) => (words ? [`'${words}' in row ${row}`] : [])));
  const which = rowsWords(rows.map(({ row }) => row)) + (parts && ` (${parts})`);
  const answer = questions.ask({
    id,
    kind: "struck",
    words: `${head}: ${which}. Do they count?`,
    options: [
      { key: "no", words: "No: leave them out", choice: `${head} in the table, and left out: ${which}` },
      { key: "yes", words: `Yes: read ${read}`, choice: `${head} in the table, and read: ${which}` },
    ],
  });
  return answer === "yes" ? [] : rows.map(({ row }) => row);
}

/** The rows without those that are struck out, as a whole or in part, if they are to be left out. */
function withoutStruck({ struck = [] }: Sheet, lines: readonly Line[], questions: Questions): readonly Line[] {
  const own = struck.filter((it) => lines.some(({ row }) => row === it.row));
  const [whole, part] = [own.filter(({ words }) => !words), own.filter(({ words }) => words)];
  const out = new Set([
    ...askStruck("struck", "Struck out", "them like the others", whole, questions),
    ...askStruck("struck-part", "Struck out in part", "what isn't struck out", part, questions),
  ]);
  return lines.filter(({ row }) => !out.has(row));
}

/** Finds totals, headings and chairs, and asks about them. */
function arranged(sheet: Sheet, layout: Layout, answers: Answers, questions: Questions): Arranged {
  const given = withoutPieces(withoutStruck(sheet, linesOf(sheet, layout, answers.leftOut), questions), questions);
  const { lines: directed, head } = withDirectors(given, alternateHead(sheet, layout), questions);
  const all = withHeadings(withoutAggregates(withSums(directed, questions), questions), questions);
  const { lines: summed, blocks, notices } = withTotals(all, questions);
  const lines = withChairs(summed, layout, questions);
  const result = seated(lines, blocks, head, questions);
  const loose = questions.hasOpen("single") ? result : withoutLoose(result.lines, result, questions);
  const found = { lines: loose.lines, seats: withSimilar(loose.seats, questions) };
  // The sums can be compared once it is known which rows are of one chair.
  if (!questions.hasOpen("alternate", "headings", "single")) askSums(found.lines, found.seats, questions);
  const suspended = askSuspensions(sheet, layout, found.lines, answers.leftOut, questions);
  const outside = questions.hasOpen("total", "headings") ? [] : outsideOf(sheet, layout, found.lines, questions);
  if (!questions.hasOpen("alternate", "headings", "single", "total", "aggregate")) askWhole(sheet, found, questions);
  const said = [...roleNotices(found.lines), ...notices, ...result.notices, ...markNotice(found.lines)];
  return { lines: withSuspensions(found.lines, suspended), seats: found.seats, said, outside };
}

/** A strict table: its cells as they are, and each row a member. */
function strictly(sheet: Sheet, layout: Layout, answers: Answers): Arranged {
  const given = linesOf(sheet, layout, answers.leftOut);
  const lines = given.map((line): Line => ({ ...line, cells: line.raw, role: "member" }));
  const seats = new Map(lines.filter(({ cells }) => cells.chair).map(({ row, cells }) => [row, cells.chair]));
  return { lines, seats, said: [], outside: [] };
}

function rolesOf(lines: readonly Line[], out: ReadonlySet<number>): Map<number, string> {
  const roles = lines.flatMap(({ row, role }) => {
    const words = out.has(row) ? "left out" : ROLE_WORDS[role];
    return words ? [[row, words] as const] : [];
  });
  return new Map(roles);
}

/** Reads a sheet by a layout and the answers given so far. */
export function readTable(sheet: Sheet, given: Layout, answers: Answers): ReadTable {
  const questions = new Questions(answers);
  const layout = withOwnRows(askVotes(sheet, given, questions), questions);
  // All else depends on the column of votes.
  const missing = questions.areAnswered ? missingColumn(sheet, layout) : null;
  if (missing || !questions.areAnswered) {
    const faults = missing ? [missing] : [];
    return { base: null, faults, questions: questions.all, notices: sheet.notices, roles: new Map(), compared: [] };
  }
  const strict = isStrict(sheet);
  const rows = strict ? strictly(sheet, layout, answers) : arranged(sheet, layout, answers, questions);
  const own = rows.lines.filter(({ role }) => role === "member");
  const out = strict ? new Set<number>() : askRepeats(own, questions);
  const { coded, made } = withCodes(own.filter(({ row }) => !out.has(row)), layout);
  const members = membersOf(coded, rows.seats, layout.thousands);
  const used = members.members.map(({ code }) => code);
  const outside = rows.outside.map((it): TableMember => ({ ...it, code: freeCodes(used)[0] ?? "" }));
  const none: CellFault = { row: 0, meaning: "code", reason: "there is no member in the table" };
  const errors = errorFaults(layout, rows.lines);
  const isOther = ({ row, meaning }: CellFault) => !errors.some((it) => it.row === row && it.meaning === meaning);
  const others = [...rowFaults(sheet, layout, coded), ...members.faults, ...(own.length ? [] : [none])].filter(isOther);
  const faults = [...errors, ...others].sort((one, other) => one.row - other.row);
  const notices = [...sheetNotices(sheet, layout), ...conversionNotices(layout, coded, members), ...rows.said];
  const left = [...answers.leftOut].sort((one, other) => one - other).map((row) => `Row ${row} was left out`);
  const chosen = questions.all.flatMap(({ choice }) => (choice ? [choice] : []));
  const base = {
    members: [...members.members, ...outside],
    chairNames: members.chairNames,
    choices: [...notices, ...left, ...chosen, ...made, ...outside.map(outsideWords)],
    columns: columnNames(sheet, layout),
  };
  const isWhole = !faults.length && questions.areAnswered;
  const roles = rolesOf(rows.lines, out);
  const compared = isWhole ? comparedOf(sheet, layout, rows, base) : [];
  return { base: isWhole ? base : null, faults, questions: questions.all, notices, roles, compared };
}

/** The place and the value of a fault in words. */
export function faultWords(sheet: Sheet, layout: Layout, { row, meaning, reason }: CellFault): string {
  const column = layout.columns[meaning];
  const cell = row && column >= 0 ? ` '${sheet.rows[row - 1]?.[column] ?? ""}'` : "";
  return `${row ? `row ${row}, ` : ""}${MEANING_WORDS[meaning]}${cell}: ${reason}`;
}
