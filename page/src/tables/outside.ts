/** Members that the table leaves out: its per cents and its published total show votes outside of it. */
import { grouped } from "../study/fractions";
import { columnName } from "./columns";
import { percentOf, SUSPENSION, wholeOf, wholesIn } from "./numbers";
import type { Questions } from "./questions";
import { lineWords, rowsWords, type Line } from "./rows";
import { OUTSIDE, sumOf } from "./totals";
import type { Layout, Sheet, TableMember } from "./types";

/** The whole numbers of votes that a total may have. */
interface Range {
  readonly low: number;
  readonly high: number;
}

/** A printed per cent of some votes: what it says of the total, and its row. */
interface Clue extends Range {
  readonly row: number;
}

/** The totals that most per cents of a column fit, and the rows of the others. */
interface Fitted extends Range {
  readonly others: readonly number[];
  readonly many: number;
}

/** Fewer per cents than this say nothing, nor those of which fewer fit one total. */
const LEAST_CLUES = 3;
const LEAST_PART = 0.8;
const MANY_CLUES = 10;
/** The per cents of the greatest votes say most. */
const MOST_CLUES = 100;
/** A total that is this many times the sum is one of shares from 0 to 1. */
const SHARES = 50;
/** What a printed per cent says of the total, if it is up to some units of its last digit away. */
function clueOf(row: number, votes: number | null, cell: string, units: number): Clue[] {
  const percent = percentOf(cell);
  if (!votes || !percent || percent.value <= percent.unit) return [];
  const { value, unit } = percent;
  const total = (part: number) => (100 * votes) / (value + part * unit);
  return [{ row, low: Math.ceil(total(units)), high: Math.floor(total(-units)) }];
}

/** The totals that most per cents fit, and the rows of the others. */
function fitted(all: readonly Clue[]): Fitted | null {
  const width = ({ low, high }: Range) => high / low;
  const clues = [...all].sort((one, other) => width(one) - width(other)).slice(0, MOST_CLUES);
  const fits = ({ low: at }: Clue) => clues.filter(({ low, high }) => low <= at && at <= high);
  const best = clues.map(fits).reduce((most, next) => (next.length > most.length ? next : most), []);
  if (best.length < LEAST_CLUES || best.length < LEAST_PART * clues.length) return null;
  const [low, high] = [Math.max(...best.map((it) => it.low)), Math.min(...best.map((it) => it.high))];
  const others = all.filter((it) => it.low > high || it.high < low).map(({ row }) => row);
  return { low, high, many: best.length, others: others.sort((one, other) => one - other) };
}

/** What a column of per cents says of the total: they are of the members' votes, or of the chairs' printed totals. */
function columnSays(
  sheet: Sheet,
  layout: Layout,
  lines: readonly Line[],
  column: number,
  units: number,
): Fitted | null {
  const cell = ({ row }: Line) => sheet.rows[row - 1]?.[column] ?? "";
  const kept = lines.filter(({ role }) => role === "member" || role === "heading" || role === "total");
  const printed = ({ role, votes, cells }: Line) =>
    wholeOf(cells.chairTotal, layout.thousands)?.value ?? (role === "total" ? votes : null);
  const byVotes = fitted(kept.flatMap((line) => clueOf(line.row, line.votes, cell(line), units)));
  const byChairs = fitted(kept.flatMap((line) => clueOf(line.row, printed(line), cell(line), units)));
  if (!byVotes || !byChairs) return byVotes ?? byChairs;
  return byChairs.high - byChairs.low < byVotes.high - byVotes.low ? byChairs : byVotes;
}

/** The totals that a column says, by per cents or by shares from 0 to 1. */
function totalsOf(said: Fitted, sum: number): Fitted {
  if (said.low < SHARES * sum) return said;
  return { ...said, low: Math.ceil(said.low / 100), high: Math.floor(said.high / 100) };
}

/** The totals that a column shows, if the sum of the votes isn't among them. Few per cents may be rounded otherwise. */
function contradiction(says: (units: number) => Fitted | null, sum: number): Fitted | null {
  const [near, wide] = [says(0.5), says(1)].map((it) => it && totalsOf(it, sum));
  const isOut = (it: Fitted | null | undefined) => Boolean(it && (it.low > sum || it.high < sum));
  if (isOut(wide)) return (isOut(near) ? near : wide) ?? null;
  return near && isOut(near) && near.many >= MANY_CLUES && !near.others.length ? near : null;
}

/** A whole number in the table's notes that may be the published total, by what is known of it. */
function publishedIn(sheet: Sheet, layout: Layout, lines: readonly Line[], { low, high }: Range): number | null {
  const members = new Set(lines.filter(({ role }) => role === "member").map(({ row }) => row));
  const others = sheet.rows.flatMap((cells, at) => (members.has(at + 1) ? [] : cells));
  const texts = others.filter((it) => !SUSPENSION.test(it));
  const found = new Set(texts.flatMap((it) => wholesIn(it, layout.thousands)).filter((it) => low <= it && it <= high));
  return found.size === 1 ? [...found][0] ?? null : null;
}

/** A range of votes in words. */
function rangeWords({ low, high }: Range): string {
  return low === high ? grouped(low) : `${grouped(low)} to ${grouped(high)}`;
}

/** Asks about votes outside the table. Returns how many are to be added. */
function ask(questions: Questions, words: string, range: Range, source: string): number {
  const { low, high } = range;
  const isExact = low === high;
  const votes = questions.numberFor("outside", low, high) ?? Math.round((low + high) / 2);
  const answer = questions.ask({
    id: "outside",
    kind: "outside",
    words,
    ...(isExact ? {} : { number: { low, high, value: votes } }),
    options: [
      { key: "add", words: `Add a member in no chair with ${isExact ? "these votes" : "as many votes as typed here"}`,
        choice: `The votes outside the table, ${rangeWords(range)}, are those that ${source} shows` },
      { key: "no", words: "Add nothing: the table has all members",
        choice: `No member was added for the ${rangeWords(range)} votes that ${source} shows outside the table` },
    ],
  });
  return answer === "add" ? votes : 0;
}

/** Asks about more votes in the table than its per cents are of. */
function askTooMany(questions: Questions, about: string, more: number): void {
  questions.ask({
    id: "outside",
    kind: "outside",
    words: `Too many votes? ${about}: ${grouped(more)} more.`,
    options: [
      { key: "yes", words: "Take the table as it is", choice: `${about}: all were taken` },
      { key: "no", words: "Take nothing: I correct the table first", choice: "" },
    ],
  });
}

/** A column of per cents: how many of them the votes give, and the rows of the others. */
export interface Percents {
  readonly column: number;
  readonly many: number;
  readonly others: readonly number[];
}

/** The columns of per cents of which most fit one total. */
export function percentsOf(sheet: Sheet, layout: Layout, lines: readonly Line[]): Percents[] {
  return layout.percents.flatMap((column) => {
    const found = columnSays(sheet, layout, lines, column, 1);
    return found ? [{ column, many: found.many, others: found.others }] : [];
  });
}

/** More rows than this aren't listed one by one. */
const MOST_ROWS = 12;

/** Asks about per cents that the votes of their rows don't give, where those of the others do. */
function askWrong(sheet: Sheet, layout: Layout, lines: readonly Line[], sum: number, questions: Questions): void {
  const found = percentsOf(sheet, layout, lines).filter(({ others }) => others.length > 0);
  const [first] = found;
  if (!first) return;
  const { column, others } = first;
  const cell = (row: number) => sheet.rows[row - 1]?.[column] ?? "";
  const own = lines.filter(({ row }) => others.includes(row));
  const shown = own.slice(0, MOST_ROWS).map((it) =>
    `${lineWords(it)}: ${((100 * (it.votes ?? 0)) / sum).toFixed(2)} by its votes, '${cell(it.row)}' printed`);
  const words = `${shown.join("; ")}${own.length > MOST_ROWS ? `; and ${own.length - MOST_ROWS} more` : ""}`;
  questions.ask({
    id: "percents",
    kind: "percents",
    words: `Wrong votes? The votes of ${rowsWords(others)} don't give the per cents of column ${
      columnName(sheet, layout, column)}, and those of the other rows do. ${words}.`,
    options: [
      { key: "yes", words: "Take the votes", choice: `Per cents that the votes don't give were passed over. ${words}` },
      { key: "no", words: "Take nothing: I correct the table first", choice: "" },
    ],
  });
}

/** Asks about the votes that the columns of per cents show outside the table. Returns how many are to be added. */
function askPercents(sheet: Sheet, layout: Layout, lines: readonly Line[], sum: number, questions: Questions): number {
  const said = layout.percents.flatMap((column) => {
    const found = contradiction((units) => columnSays(sheet, layout, lines, column, units), sum);
    return found ? [{ column, ...found }] : [];
  });
  const less = said.find(({ low }) => low > sum);
  const most = less ?? said[0];
  if (!most) {
    askWrong(sheet, layout, lines, sum, questions);
    return 0;
  }
  const exact = publishedIn(sheet, layout, lines, most);
  const { low, high } = exact === null ? most : { low: exact, high: exact };
  const rest = most.others.length ? `, without those of ${rowsWords(most.others)}` : "";
  const source = `column ${columnName(sheet, layout, most.column)}`;
  const about = `The per cents of ${source}${rest} are of ${rangeWords({ low, high })} votes, and the table has ${
    grouped(sum)}`;
  if (!less) {
    askTooMany(questions, about, sum - high);
    return 0;
  }
  const range = { low: low - sum, high: high - sum };
  return ask(questions, `Members outside the table? ${about}: ${rangeWords(range)} fewer.`, range, source);
}

/** The votes by which a printed total is greater than all of the table's, if the user says that they are others'. */
function addedByTotal(lines: readonly Line[], sum: number, questions: Questions): number {
  const total = lines.find(({ row, votes }) => questions.chosen(`total-${row}`) === "add" && (votes ?? 0) > sum);
  return total ? (total.votes ?? 0) - sum : 0;
}

/** The sentence on the member that was added. */
export function outsideWords({ votes }: TableMember): string {
  return `${OUTSIDE}: a member in no chair with ${grouped(votes)} votes was added`;
}

/** A member in no chair with the votes outside the table, if an answer adds one; else none. */
export function outsideOf(sheet: Sheet, layout: Layout, lines: readonly Line[], questions: Questions): TableMember[] {
  const sum = sumOf(lines.filter(({ role }) => role === "member"));
  const votes = addedByTotal(lines, sum, questions) || (sum ? askPercents(sheet, layout, lines, sum, questions) : 0);
  return votes ? [{ code: "", name: OUTSIDE, votes, chair: null, suspended: false, row: 0 }] : [];
}
