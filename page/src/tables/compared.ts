/** What was read, in numbers that a person can compare with the table: a guard against what no rule foresees. */
import { counted, grouped } from "../study/fractions";
import { memberWords } from "../study/names";
import { columnName } from "./columns";
import { percentsOf } from "./outside";
import type { Questions } from "./questions";
import { rowsWords, type Line } from "./rows";
import { printedTotals } from "./sums";
import type { Compared, Layout, Sheet, TableBase, TableMember } from "./types";

/** The rows of a table, and the texts of the chairs of members. */
export interface Rows {
  readonly lines: readonly Line[];
  readonly seats: ReadonlyMap<number, string>;
}

const COUNTS = {
  members: /(?:^|[^0-9.,])([0-9]{1,3}) (?:member(?: countrie)?s|countries|economies)\b/gi,
  chairs: /(?:^|[^0-9.,])([0-9]{1,2}) (?:chairs|(?:executive )?directors|constituencies)\b/gi,
};
type Counted = keyof typeof COUNTS;

/** The number of members or of chairs that the texts around the members' rows print; null if they print none. */
function printedCount(sheet: Sheet, lines: readonly Line[], what: Counted, read: number): number | null {
  const own = new Set(lines.filter(({ role }) => role === "member").map(({ row }) => row));
  const texts = sheet.rows.flatMap((cells, at) => (own.has(at + 1) ? [] : cells));
  const found = texts.flatMap((text) => [...text.matchAll(COUNTS[what])].map(([, number]) => Number(number)));
  // A smaller number may be one of some members.
  const all = [...new Set(found.filter((it) => 2 * it > read))];
  return all.length === 1 ? all[0] ?? null : all.find((it) => it === read) ?? null;
}

/** Asks about a printed number of members or chairs that isn't the one that was read. */
function askCount(sheet: Sheet, lines: readonly Line[], what: Counted, read: number, questions: Questions): void {
  const printed = printedCount(sheet, lines, what, read);
  if (printed === null || printed === read) return;
  const words = `The table speaks of ${printed} ${what}, and ${read} were read`;
  questions.ask({
    id: `count-${what}`,
    kind: "counts",
    words: `Is something missing? ${words}.`,
    options: [
      { key: "yes", words: "Take what was read", choice: words },
      { key: "no", words: "Take nothing: I correct the table first", choice: "" },
    ],
  });
}

/** In a table with fewer members a person sees it. */
const LEAST_MEMBERS = 10;

/** Asks about numbers that no table of members has: no votes at all, and most members in no chair by words for it. */
export function askWhole(sheet: Sheet, { lines, seats }: Rows, questions: Questions): void {
  const members = lines.filter(({ role }) => role === "member");
  const free = members.filter(({ row }) => !seats.has(row));
  const options = (choice: string) => [
    { key: "yes", words: "Yes: take the table as it is", choice },
    { key: "no", words: "No: I correct the table first", choice: "" },
  ];
  const isLong = members.length >= LEAST_MEMBERS;
  if (isLong && members.every(({ votes }) => votes === 0)) {
    const words = "All votes are 0, as in a workbook whose formulas no spreadsheet has counted";
    questions.ask({ id: "no-votes", kind: "counts", words: `${words}. Is that right?`, options: options(words) });
  }
  const isSaid = ["merged", "single", "no-chairs", "aggregates"].some((it) => questions.isAsked(it));
  if (isLong && seats.size > 0 && 2 * free.length > members.length && !isSaid) {
    const rows = rowsWords(free.map(({ row }) => row));
    const words = `${free.length} of ${members.length} members are in no chair: ${rows}`;
    questions.ask({ id: "most-free", kind: "counts", words: `${words}. Is that right?`, options: options(words) });
  }
  askCount(sheet, lines, "members", members.length, questions);
  askCount(sheet, lines, "chairs", new Set(seats.values()).size, questions);
}

const named = ({ code, name, votes }: TableMember): string => `${grouped(votes)}: ${memberWords(code, name)}`;

/** Votes this many times as large or as small as the next ones may have a digit too many or too few. */
const APART = 5;

/** The largest and the smallest votes, which are odd where they are far from the next ones and nothing proves them. */
function extremes(members: readonly TableMember[], isProved: boolean): Compared[] {
  const sorted = members.filter(({ row, votes }) => row > 0 && votes > 0).sort((one, other) => other.votes - one.votes);
  const [first, second, before, last] = [sorted[0], sorted[1], sorted[sorted.length - 2], sorted[sorted.length - 1]];
  if (!first || !second || !before || !last) return [];
  const line = (what: string, member: TableMember, next: TableMember): Compared => {
    const [low, high] = [Math.min(member.votes, next.votes), Math.max(member.votes, next.votes)];
    const isOff = !isProved && sorted.length > 3 && high >= APART * low;
    const odd = `the next one has ${grouped(next.votes)}: is a digit too many or too few?`;
    return { what, read: named(member), printed: isOff ? odd : "", isOff };
  };
  return [line("Largest votes", first, second), line("Smallest votes", last, before)];
}

/** Members whose votes alone break the order of their chair, and wouldn't with a digit fewer or more. */
function outOfOrder(members: readonly TableMember[]): TableMember[] {
  const chairs = new Map<number | null, TableMember[]>();
  for (const it of members) chairs.set(it.chair, [...(chairs.get(it.chair) ?? []), it]);
  const falls = (votes: readonly number[]) => votes.every((it, at) => at === 0 || it <= (votes[at - 1] ?? 0));
  const isOrdered = (some: readonly TableMember[], odd: TableMember, to = odd.votes) =>
    falls(some.map((it) => (it === odd ? to : it.votes)));
  const oddIn = (some: readonly TableMember[]) => some.filter((odd) => !isOrdered(some, odd)
    && [Math.floor(odd.votes / 10), odd.votes * 10].some((to) => isOrdered(some, odd, to)));
  const long = [...chairs.values()].filter((some) => some.length > 3);
  const ordered = long.filter((some) => falls(some.map(({ votes }) => votes)));
  // Where chairs have no order, a member out of it says nothing.
  const odd = long.map(oddIn).filter((some) => some.length === 1).flat();
  return 2 * ordered.length >= long.length - odd.length && ordered.length > 0 ? odd : [];
}

/** What was read of a whole table, beside what it prints. */
export function comparedOf(sheet: Sheet, layout: Layout, { lines, seats }: Rows, base: TableBase): Compared[] {
  const members = base.members.filter(({ row }) => row > 0);
  const chairs = new Map<number, TableMember[]>();
  for (const it of members) if (it.chair !== null) chairs.set(it.chair, [...(chairs.get(it.chair) ?? []), it]);
  const sum = members.reduce((all, { votes }) => all + votes, 0);
  const totals = lines.filter(({ role, votes }) => role === "total" && (votes ?? 0) >= sum);
  const proved = printedTotals(lines, seats);
  const right = proved.filter((it) => it.printed === it.sum).length;
  const percents = percentsOf(sheet, layout, lines);
  const line = (what: string, read: string, printed = "", isOff = false): Compared => ({ what, read, printed, isOff });
  const count = (what: Counted, read: number) => {
    const printed = printedCount(sheet, lines, what, read);
    return printed === null ? "" : String(printed);
  };
  const [free, outside] = [members.filter(({ chair }) => chair === null), base.members.filter(({ row }) => row === 0)];
  const nameOf = (chair: number) => base.chairNames[chair] ?? `chair ${chair}`;
  const [most] = [...chairs].sort(([, one], [, other]) => other.length - one.length);
  const odd = proved.length + totals.length + percents.length ? [] : outOfOrder(members);
  return [
    line("Members", String(members.length), count("members", members.length)),
    line("Chairs", String(chairs.size), count("chairs", chairs.size)),
    ...(most ? [line("Most members of a chair", `${most[1].length}: ${nameOf(most[0])}`)] : []),
    ...(free.length ? [line("Members in no chair", String(free.length))] : []),
    ...outside.map(({ votes }) => line("Outside the table", grouped(votes))),
    line("All votes", grouped(sum), totals.map(({ votes, row }) => `${grouped(votes ?? 0)} in row ${row}`).join(", "),
      totals.some(({ votes }) => votes !== sum)),
    ...extremes(members, proved.length + totals.length + percents.length > 0),
    ...odd.map((it) => line("Out of the order of its chair", named(it), "is a digit too many or too few?", true)),
    ...(proved.length ? [line("Totals of chairs", String(chairs.size), `${right} of ${proved.length} are these`,
      right < proved.length)] : []),
    ...percents.map(({ column, many, others }) => line(`Per cents of column ${columnName(sheet, layout, column)}`, "",
      `${many} of ${counted(many + others.length, "per cent")} fit the votes`, others.length > 0)),
  ];
}
