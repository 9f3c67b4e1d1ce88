/** What the columns of a sheet mean, by their contents as much as by their headings. */
import { CHAIRS } from "../study/words";
import { decimalOf, isNumber, isPercent, provenThousands, wholeOf, withoutMarks, type Thousands } from "./numbers";
import { isStrict } from "./strict";
import { MEANINGS, type Layout, type Meaning, type Sheet } from "./types";

const CODE_HEAD = /^(member )?(code|iso.*|id)$/i;
const NAME_HEAD = /name|member|countr|econom|votes? of$|^pays|^land$|^país|^membre|^miembro|^mitglied/i;
const CHAIR_HEAD = /chair|constituency|director|^(voting )?group|^seat/i;
const CHAIR_NAME_HEAD = /^(chair|constituency|director)('s)?[ _.-]?name$/i;
const VOTES_HEAD = /vote|voting|^voix|^stimmen|^votos/i;
const PERCENT_HEAD = /%|per ?cent|share|proportion/i;
const SUSPENDED_HEAD = /suspend/i;
/** Columns that no member's chair or votes are in. */
const OTHER_HEAD = /^(alternate|deputy|advis[eo]r)|quota|sdr|year|date|^(no\.?|nr\.?|#|rank|row|(ifs|code|iso).*|id)$/i;
const TOTAL_HEAD = /total|casting|sum|(chair|constituency|director).*vot/i;
const HEAD_WORDS = [CODE_HEAD, NAME_HEAD, CHAIR_HEAD, VOTES_HEAD, PERCENT_HEAD, SUSPENDED_HEAD, OTHER_HEAD];
const YEAR = /^(19|20)[0-9]{2}$/;

/** A column: its heading, and its cells below the header in rows that have a number, without footnote marks. */
interface Column {
  readonly at: number;
  readonly head: string;
  readonly cells: readonly string[];
  readonly filled: readonly string[];
  /** The whole number in each cell, or null; and the sums of the first ones: of none, of one, and on. */
  readonly values: readonly (number | null)[];
  readonly sums: readonly number[];
  /** The places of the numbers. A total may stand in each row of its chair, and counts in the first. */
  readonly places: readonly number[];
  readonly wholes: number;
  readonly texts: number;
}

function isText(cell: string): boolean {
  return /\p{L}/u.test(cell) && !isNumber(cell);
}

function isCode(cell: string): boolean {
  return /^[A-Za-z]{3}$/.test(cell);
}

/** Whether a row may be the header: several texts and no number, or words of headings and years. */
function mayBeHeader(row: readonly string[]): boolean {
  const filled = row.filter((cell) => cell !== "");
  const numbers = filled.filter(isNumber);
  if (filled.length < 2 || numbers.length === filled.length) return false;
  if (numbers.length === 0) return true;
  return numbers.every((cell) => YEAR.test(cell)) && wordsIn(row) === filled.length - numbers.length;
}

/** Whether a row below the header is its second row: at least half of its cells are words of headings. */
function isSecondHeader(row: readonly string[]): boolean {
  const filled = row.filter((cell) => cell !== "");
  return mayBeHeader(row) && !filled.some(isNumber) && 2 * wordsIn(row) >= filled.length;
}

function wordsIn(row: readonly string[]): number {
  return row.filter((cell) => HEAD_WORDS.some((words) => words.test(cell))).length;
}

/** The row of the header: of the rows above the first numbers the one with most words of headings; or 0. */
function headerOf({ rows }: Sheet): number {
  const first = rows.findIndex((row) => row.some(isNumber) && !mayBeHeader(row));
  const above = rows.slice(0, first < 0 ? rows.length : first).map((row, at) => ({ at, row }));
  const may = above.filter(({ row }) => mayBeHeader(row));
  const most = Math.max(0, ...may.map(({ row }) => wordsIn(row)));
  const best = may.filter(({ row, at }) => (most > 0 ? wordsIn(row) === most : at === first - 1));
  let at = best[best.length - 1]?.at ?? -1;
  if (at >= 0 && may.some(({ row, at: next }) => next === at + 1 && isSecondHeader(row))) at += 1;
  return at + 1;
}

/** Whether the header has two rows, of which the second is given. */
export function hasTwoHeaders({ rows }: Sheet, header: number): boolean {
  const [first = [], second = []] = rows.slice(Math.max(header - 2, 0), header);
  return header > 1 && mayBeHeader(first) && wordsIn(first) > 1 && isSecondHeader(second);
}

/** The heading of a column: its cell in the header, under that of the row above if that row belongs to the header. */
function headOf(sheet: Sheet, header: number, at: number): string {
  const { rows } = sheet;
  const over = hasTwoHeaders(sheet, header) ? rows[header - 2]?.[at] ?? "" : "";
  return `${over} ${rows[header - 1]?.[at] ?? ""}`.replace(/\s+/g, " ").trim();
}

function columnsOf(sheet: Sheet, header: number, thousands: Thousands): Column[] {
  const body = sheet.rows.slice(header).filter((row) => row.some(isNumber));
  return Array.from({ length: sheet.width }, (_, at) => {
    const cells = body.map((row) => withoutMarks(row[at] ?? ""));
    const filled = cells.filter((cell) => cell !== "");
    const values = cells.map((cell) => wholeOf(cell, thousands)?.value ?? null);
    let sum = 0;
    const sums = [0, ...values.map((value) => (sum += value ?? 0))];
    const places = values.flatMap((value, row) => (value === null || value === values[row - 1] ? [] : [row]));
    const wholes = values.filter((it) => it !== null).length;
    const texts = filled.filter(isText).length;
    return { at, head: withoutMarks(headOf(sheet, header, at)), cells, filled, values, sums, places, wholes, texts };
  });
}

/** Whether most of some cells satisfy a condition. */
function most(cells: readonly string[], holds: (cell: string) => boolean): boolean {
  return cells.length > 0 && 2 * cells.filter(holds).length >= cells.length;
}

/** Whether a column is in per cent: by its cells, or by its heading where no number in it is above 100. */
function isPercentColumn({ head, filled }: Column): boolean {
  const values = filled.map(decimalOf).filter((value): value is number => value !== null);
  if (values.length === 0 || /^(chair|votes)$/i.test(head)) return false;
  if (most(filled, isPercent)) return true;
  const isSmall = values.every((value) => value <= 100);
  if (PERCENT_HEAD.test(head)) return isSmall;
  const decimals = filled.filter((cell) => /^[0-9]{1,2}[.,][0-9]+$/.test(cell) && !/[.,]00?$/.test(cell)).length;
  return isSmall && 2 * decimals >= filled.length && !filled.every((cell) => /^[0-9]{1,3}[.,][0-9]{3}$/.test(cell));
}

function isChairNumber(cell: string): boolean {
  return CHAIRS.includes(wholeOf(cell, ",")?.value ?? 0);
}

function isChairNumbers({ filled }: Column): boolean {
  return filled.length > 0 && filled.every(isChairNumber);
}

/** Whether a column numbers the rows from 1, or from 0 as an index of pandas. */
function isCount({ cells }: Column): boolean {
  return cells.length > 2 && [0, 1].some((first) => cells.every((cell, at) => cell === String(at + first)));
}

function isWhole({ filled, wholes }: Column): boolean {
  return filled.length > 0 && 2 * wholes >= filled.length;
}

function isTexts({ filled, texts }: Column): boolean {
  return filled.length > 0 && 2 * texts >= filled.length;
}

/** Whether at least half of the numbers of a column equal the sum of the votes from one of its rows to the next. */
function sumsFit({ values, places }: Column, { sums, wholes }: Column): boolean {
  if (places.length >= wholes) return false;
  const sum = (from: number, to: number) => (sums[to] ?? 0) - (sums[from] ?? 0);
  const below = places.filter((at, place) => values[at] === sum(at, places[place + 1] ?? values.length)).length;
  const above = places.filter((at, place) => values[at] === sum((places[place - 1] ?? -1) + 1, at + 1)).length;
  return 2 * Math.max(below, above) >= places.length;
}

/** Whether a column has the printed totals of chairs next to a column of votes. */
function isChairTotals(column: Column, votes: Column): boolean {
  if (column === votes) return false;
  const isHeaded = TOTAL_HEAD.test(column.head) && VOTES_HEAD.test(votes.head);
  return sumsFit(column, votes) || (column.wholes < votes.wholes && isHeaded);
}

/** The columns that may be the votes, with the one of printed totals, -1 if there is none. */
function votesOf(columns: readonly Column[]): { maybe: Column[]; total: number } {
  const named = columns.filter(({ head }) => VOTES_HEAD.test(head));
  const dense = Math.max(0, ...columns.map(({ wholes }) => wholes));
  const full = columns.filter(({ wholes }) => 3 * wholes >= 2 * dense);
  const total = columns.find((column) => full.some((votes) => isChairTotals(column, votes)));
  const rest = full.filter((column) => column !== total);
  // A column without a heading next to one of votes may have the rest of its numbers.
  const nameless = rest.filter(({ head }) => head === "");
  const exact = rest.filter(({ head }) => head.toLowerCase() === "votes");
  if (exact.length === 1 && !nameless.length) return { maybe: exact, total: total?.at ?? -1 };
  const own = rest.filter((column) => named.includes(column) || nameless.includes(column));
  const maybe = own.length ? own : rest;
  const first = maybe[0];
  const isSame = first && maybe.every(({ cells }) => cells.join("\n") === first.cells.join("\n"));
  return { maybe: isSame ? [first] : maybe, total: total?.at ?? -1 };
}

/** Columns as they are given to meanings. */
class Assigned {
  readonly columns: Record<Meaning, number> = {
    code: -1, name: -1, votes: -1, chair: -1, chairName: -1, chairTotal: -1, suspended: -1,
  };
  readonly #taken = new Set<number>();

  /** Gives a column that is free to a meaning that has none. */
  give(meaning: Meaning, column: Column | undefined): void {
    if (!column || this.columns[meaning] >= 0 || this.#taken.has(column.at)) return;
    this.columns[meaning] = column.at;
    this.#taken.add(column.at);
  }

  free(columns: readonly Column[]): Column[] {
    return columns.filter(({ at }) => !this.#taken.has(at));
  }
}

/** The columns of numbers: votes, printed totals and the chairs' numbers. Returns those that may be the votes. */
function giveNumbers(assigned: Assigned, columns: readonly Column[]): number[] {
  const wholes = assigned.free(columns).filter((it) => isWhole(it) && !OTHER_HEAD.test(it.head));
  const isChair = (it: Column) =>
    CHAIR_HEAD.test(it.head) && !/vote|voting|total|sum/i.test(it.head) && most(it.filled, isChairNumber);
  const chair = wholes.find((it) => isChair(it) && !CHAIR_NAME_HEAD.test(it.head));
  assigned.give("chair", chair);
  const counts = wholes.filter((it) => it !== chair && isCount(it) && !VOTES_HEAD.test(it.head));
  const numbers = wholes.filter((it) => it !== chair && (counts.length === wholes.length || !counts.includes(it)));
  const large = numbers.filter(({ head, filled }) =>
    VOTES_HEAD.test(head) || (!NAME_HEAD.test(head) && !filled.every(isChairNumber)));
  const { maybe, total } = votesOf(large);
  if (maybe.length === 1) assigned.give("votes", maybe[0]);
  assigned.give("chairTotal", columns.find(({ at }) => at === total));
  return maybe.length > 1 ? maybe.map(({ at }) => at) : [];
}

/** Whether the cells of a column stand in blocks: some are blank, or some stand twice. */
function isInBlocks({ cells, filled }: Column): boolean {
  return filled.length < cells.length || new Set(filled).size < filled.length;
}

/** The columns of texts: names, chairs and chairs' names. */
function giveTexts(assigned: Assigned, columns: readonly Column[], sheet: Sheet, header: number): void {
  const texts = () => assigned.free(columns).filter((it) => isTexts(it) || hasLoneCells(sheet, header, it.at));
  const isOther = ({ head }: Column) => OTHER_HEAD.test(head);
  assigned.give("chairName", texts().find(({ head }) => CHAIR_NAME_HEAD.test(head)));
  const isChair = (it: Column) => CHAIR_HEAD.test(it.head) && !isOther(it) && !CHAIR_NAME_HEAD.test(it.head);
  const isName = (it: Column) => NAME_HEAD.test(it.head) && !/chair|director|constituency/i.test(it.head);
  assigned.give("name", texts().find(isName));
  assigned.give(assigned.columns.chair < 0 ? "chair" : "chairName", texts().find(isChair));
  assigned.give("chairName", texts().find(isChair));
  const rest = () => texts().filter((it) => (it.head === "" || header === 0) && isTexts(it));
  assigned.give("name", rest().find((it) => !isInBlocks(it)));
  const unknown = () => texts().filter((it) => !isOther(it) && isTexts(it) && !VOTES_HEAD.test(it.head));
  assigned.give("name", unknown().find((it) => !isInBlocks(it)));
  if (assigned.columns.code < 0) assigned.give("name", unknown()[0]);
  if (assigned.columns.chair < 0) assigned.give("chair", rest().find(isInBlocks));
}

/** Whether a column has texts that stand alone in their rows, as a Director above the members of the chair. */
function hasLoneCells({ rows }: Sheet, header: number, at: number): boolean {
  return rows.slice(header).some((row) => isText(row[at] ?? "") && row.every((cell, place) => place === at || !cell));
}

/** The layout of a strict table. */
const STRICT: Layout = {
  header: 1,
  columns: { code: 0, name: 1, votes: 2, chair: 3, chairName: 4, chairTotal: -1, suspended: 5 },
  thousands: ",", votesMaybe: [], unread: [], percents: [],
};

/** The layout that a sheet seems to have. */
export function guessedLayout(sheet: Sheet): Layout {
  if (isStrict(sheet)) return STRICT;
  const header = headerOf(sheet);
  const proven = provenThousands(sheet.rows.flat().map(withoutMarks));
  return layoutWith(sheet, header, proven ?? (sheet.delimiter === ";" ? "." : ","));
}

/** The layout that a sheet seems to have if its header and its mark between thousands are given. */
export function layoutWith(sheet: Sheet, header: number, thousands: Thousands): Layout {
  const columns = columnsOf(sheet, header, thousands);
  const assigned = new Assigned();
  const isCodes = ({ filled }: Column) => most(filled, isCode);
  const capitals = ({ cells }: Column) => most(cells, (cell) => /^[A-Z]{3}$/.test(cell));
  assigned.give("code", columns.find((it) => CODE_HEAD.test(it.head) && isCodes(it)));
  assigned.give("code", columns.find((it) => capitals(it) && !CHAIR_HEAD.test(it.head) && !isInBlocks(it)));
  assigned.give("suspended", columns.find(({ head }) => SUSPENDED_HEAD.test(head)));
  const percents = assigned.free(columns).filter(isPercentColumn);
  const rest = columns.filter((it) => !percents.includes(it));
  const votesMaybe = giveNumbers(assigned, rest);
  const unread = votesMaybe.length ? [] : assigned.free(rest).filter((it) => VOTES_HEAD.test(it.head) && isWhole(it));
  giveTexts(assigned, rest, sheet, header);
  if (header === 0) assigned.give("chair", assigned.free(rest).find((it) => isWhole(it) && isChairNumbers(it)));
  assigned.give("chair", columns.find(({ head }) => /^chair$/i.test(head)));
  const isVotes = ({ head }: Column) => VOTES_HEAD.test(head) && !NAME_HEAD.test(head);
  if (!votesMaybe.length) assigned.give("votes", rest.find(isVotes));
  const named = columns.find((it) => CODE_HEAD.test(it.head));
  if (named && isTexts(named) && !named.filled.some(isCode)) assigned.give("name", named);
  if (assigned.columns.name < 0) assigned.give("code", named);
  const places = (some: readonly Column[]) => some.map(({ at }) => at);
  return {
    header, columns: assigned.columns, thousands, votesMaybe, unread: places(unread), percents: places(percents),
  };
}

/** The name of a column: its letter, and its heading if it has one. */
export function columnName(sheet: Sheet, layout: Pick<Layout, "header">, column: number): string {
  const letterOf = (number: number) => String.fromCharCode(65 + number);
  const letter = (column >= 26 ? letterOf(Math.floor(column / 26) - 1) : "") + letterOf(column % 26);
  const head = layout.header > 0 ? headOf(sheet, layout.header, column) : "";
  return head ? `${letter} ${head}` : letter;
}

/** The names of the columns that have a meaning. */
export function columnNames(sheet: Sheet, layout: Layout): Record<string, string> {
  const named = MEANINGS.filter((it) => layout.columns[it] >= 0);
  return Object.fromEntries(named.map((it) => [it, columnName(sheet, layout, layout.columns[it])]));
}
