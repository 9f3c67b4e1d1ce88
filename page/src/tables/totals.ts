/** Totals among the rows: by name and by arithmetic. */
import { grouped } from "../study/fractions";
import type { Questions } from "./questions";
import { lineWords, rowsWords, type Line, type Role } from "./rows";

/** The rows with totals marked, and the blocks of rows that a printed total proves to belong together. */
export interface Totalled {
  readonly lines: readonly Line[];
  /** For each row in a proved block: the block's rows and its total. */
  readonly blocks: ReadonlyMap<number, Block>;
  readonly notices: readonly string[];
}

export interface Block {
  readonly rows: readonly number[];
  readonly value: number;
}

/** The name of the member with all votes that the table leaves out. */
export const OUTSIDE = "Outside the table";

const TOTALS: readonly Role[] = ["named", "own", "bare", "printed", "total"];

function isMember({ role, votes }: Line): boolean {
  return role === "member" && votes !== null;
}

export function sumOf(lines: readonly Line[]): number {
  return lines.reduce((sum, { votes }) => sum + (votes ?? 0), 0);
}

/** The members between the row at a place and the totals or headings next to it. */
function membersAround(lines: readonly Line[], at: number): { up: Line[]; down: Line[] } {
  const take = (some: readonly Line[], ends: readonly Role[]) => {
    const end = some.findIndex(({ role }) => ends.includes(role));
    return some.slice(0, end < 0 ? some.length : end).filter(isMember);
  };
  const up = take(lines.slice(0, at).reverse(), TOTALS).reverse();
  return { up, down: take(lines.slice(at + 1), [...TOTALS, "heading"]) };
}

/** The last of some rows that add up to a value. */
export function lastWithSum(lines: readonly Line[], value: number): Line[] {
  for (let from = lines.length - 1, sum = 0; from >= 0; from -= 1) {
    sum += lines[from]?.votes ?? 0;
    if (sum === value) return lines.slice(from);
    if (sum > value) return [];
  }
  return [];
}

/** The first of some rows that add up to a value. */
export function firstWithSum(lines: readonly Line[], value: number): Line[] {
  return lastWithSum([...lines].reverse(), value).reverse();
}

/** The rows whose sum is the value of a row that seems to be a total; none if there are none. */
function rowsOfTotal(lines: readonly Line[], at: number, value: number): { rows: Line[]; isAll: boolean } {
  const line = lines[at];
  const all = lines.filter(isMember);
  const above = lines.slice(0, at).filter(isMember);
  const { up, down } = membersAround(lines, at);
  const own = line?.role === "own" ? firstWithSum(down, value) : [];
  if (own.length > 0) return { rows: own, isAll: false };
  const last = lastWithSum(up, value);
  if (all.length > 0 && sumOf(all) === value) return { rows: all, isAll: true };
  if (last.length > (line?.role === "bare" ? 1 : 0)) return { rows: last, isAll: false };
  if (down.length > 0 && sumOf(down) === value) return { rows: down, isAll: false };
  const some = sumOf(above) === value ? above : [];
  return { rows: some, isAll: true };
}

/** The sum that is nearest to the value of a row that is named a total. */
function nearestSum(lines: readonly Line[], at: number, value: number): Line[] {
  const { up, down } = membersAround(lines, at);
  const chairs = up.flatMap(({ cells }, place) => (cells.chair !== "" ? [up.slice(place)] : []));
  const all = [up, ...chairs, down, lines.slice(0, at).filter(isMember), lines.filter(isMember)];
  const sums = all.filter((some) => some.length > 0);
  const away = (some: readonly Line[]) => Math.abs(sumOf(some) - value);
  return sums.reduce((best, next) => (away(next) < away(best) ? next : best), sums[0] ?? []);
}

/** Asks whether a row is a total, or one with votes outside the table. Returns its role, a total's while it is open. */
function askTotal(questions: Questions, line: Line, why: string, outside = 0): Role {
  const who = `${lineWords(line)}, ${why},`;
  const answer = questions.ask({
    id: `total-${line.row}`,
    kind: "total",
    row: line.row,
    words: `A total? ${lineWords(line)} ${why.replace(/^which /, "")}.`,
    options: [
      ...(outside > 0 ? [{
        key: "add", words: `Yes, and the table leaves members out: add one in no chair with ${grouped(outside)} votes`,
        choice: `${who} was left out as a total of more members than the table has`,
      }] : []),
      { key: "yes", words: "Yes: leave this row out", choice: `${who} was left out as a total` },
      { key: "no", words: "No: it is a member", choice: `${who} is a member` },
    ],
  });
  return answer === "no" ? "member" : "total";
}

/** Why a member's row may be a total, by arithmetic; null if it mayn't. */
function suspicion(lines: readonly Line[], at: number): string | null {
  const line = lines[at];
  if (!line || !isMember(line) || !line.votes) return null;
  const { up, down } = membersAround(lines, at);
  const { chair } = line.cells;
  const start = up.reduce((found, { cells }, place) => (cells.chair !== "" ? place : found), 0);
  const block = chair === "" || chair === up[start]?.cells.chair ? up.slice(start) : [];
  const end = down.findIndex(({ cells }) => cells.chair !== "" && cells.chair !== chair);
  const below = chair === "" ? [] : down.slice(0, end < 0 ? down.length : end);
  const above = lines.slice(0, at).filter(isMember);
  const others = lines.filter((it) => isMember(it) && it !== line);
  if (others.length > 1 && sumOf(others) === line.votes) return "which equals the sum of the others";
  const found = [up, block, above, below].find((some) => some.length > 1 && sumOf(some) === line.votes);
  return found ? `which equals the sum of ${rowsWords(found.map(({ row }) => row))}` : null;
}

/** Asks about the members' rows that may be totals by arithmetic. */
function askSuspects(questions: Questions, given: readonly Line[]): Line[] {
  let lines = [...given];
  const others = (line: Line) => lines.filter((it) => isMember(it) && it !== line);
  const equals = lines.filter((it) => isMember(it) && it.votes && others(it).length > 1
    && sumOf(others(it)) === it.votes);
  // If one of them is left out, no other one equals the sum of the others.
  const out = equals.find(({ row }) => questions.chosen(`total-${row}`) === "yes");
  const roles = new Map((out ? [out] : equals).map((line) =>
    [line, askTotal(questions, line, "which equals the sum of the others")]));
  lines = lines.map((it) => ({ ...it, role: roles.get(it) ?? it.role }));
  given.forEach((line, at) => {
    if (equals.includes(line)) return;
    const why = suspicion(lines, at);
    if (why) lines[at] = { ...line, role: askTotal(questions, line, why) };
  });
  return lines;
}

/** Says which rows were left out as totals. */
function totalNotices(found: readonly { line: Line; rows: readonly Line[] }[]): string[] {
  return found.map(({ line, rows }) => {
    const sum = rows.length ? `the sum of ${rowsWords(rows.map(({ row }) => row))}` : "a chair's total";
    return `${lineWords(line)}, ${sum}, was left out as a total`;
  });
}

/** Whether the number of a row is nearer to the votes of the chair above it than to those of all members. */
function isChairs(lines: readonly Line[], at: number, value: number): boolean {
  return nearestSum(lines, at, value).length < lines.filter(isMember).length;
}

/** Asks about a row that is named or placed as a total and isn't one by its number. */
function askNamed(questions: Questions, lines: readonly Line[], at: number, line: Line, value: number | null): Role {
  if (value === null) return "member";
  const rows = nearestSum(lines, at, value);
  const sum = `${rowsWords(rows.map(({ row }) => row))} have ${grouped(sumOf(rows))} votes`;
  const all = lines.filter(isMember);
  const outside = line.votes !== null && rows.length === all.length ? value - sumOf(all) : 0;
  return askTotal(questions, line, `which ${line.role === "named" ? "is named as" : "stands for"} a total and has ${
    grouped(value)} votes, while ${sum}`, outside);
}

/** Whether a chair's name with votes stands above the members of the chair. */
function isHeading(lines: readonly Line[], at: number): boolean {
  const below = lines[at + 1];
  return below !== undefined && below.role === "member" && below.cells.chair === "";
}

/** Marks the totals, and asks about those in doubt. */
export function withTotals(given: readonly Line[], questions: Questions): Totalled {
  const lines = askSuspects(questions, given);
  const blocks = new Map<number, Block>();
  const found: { line: Line; rows: Line[] }[] = [];
  const after = lines.map((line, at): Line => {
    if (!["named", "own", "bare", "printed"].includes(line.role)) return line;
    const value = line.role === "printed" ? line.printed : line.votes ?? line.printed;
    const { rows, isAll } = value === null ? { rows: [], isAll: false } : rowsOfTotal(lines, at, value);
    if (!isAll && value !== null) {
      for (const { row } of rows) blocks.set(row, { rows: rows.map((it) => it.row), value });
    }
    const isAbove = (rows[0]?.row ?? 0) > line.row;
    if (line.role === "own" && (isAbove || (rows.length === 0 && isHeading(lines, at)))) {
      return { ...line, role: "heading" };
    }
    if (rows.length > 0) {
      found.push({ line, rows });
      return { ...line, role: "total", printed: isAll ? null : line.printed };
    }
    if (line.role === "printed" && isChairs(lines, at, value ?? 0)) {
      found.push({ line, rows });
      return { ...line, role: "total" };
    }
    if (line.role === "named" || line.role === "printed") {
      return { ...line, role: askNamed(questions, lines, at, line, value), printed: null };
    }
    return { ...line, role: "member", printed: line.role === "own" ? null : line.printed };
  });
  return { lines: after, blocks, notices: totalNotices(found) };
}

/** Members that equal the sum of the rows below them, from one such row to the next. */
function sumsBelow(members: readonly Line[], least: number): { rows: Line[]; isWhole: boolean } {
  const rows: Line[] = [];
  let isWhole = true;
  for (let at = 0; at < members.length;) {
    const own = members[at];
    let [sum, many] = [0, 0];
    while (own?.votes && sum < own.votes && at + many + 1 < members.length) {
      many += 1;
      sum += members[at + many]?.votes ?? 0;
    }
    const isSum = own !== undefined && many >= least && sum === own.votes;
    if (isSum) rows.push(own);
    else isWhole = false;
    at += isSum ? many + 1 : 1;
  }
  return { rows, isWhole };
}

/** Asks about rows that equal the sum of the rows below them, where no column has the chairs. */
export function withHeadings(lines: readonly Line[], questions: Questions): readonly Line[] {
  if (lines.some(({ role, cells }) => role === "heading" || cells.chair !== "")) return lines;
  const members = lines.filter(isMember);
  const [every, some] = [sumsBelow(members, 1), sumsBelow(members, 2)];
  const found = every.isWhole && some.rows.length > 0 ? every.rows : some.rows;
  // One row alone that equals the sum of all others is asked about as a total.
  const isTotal = found.length === 1 && 2 * sumOf(found) === sumOf(members);
  if (found.length === 0 || isTotal) return lines;
  const rows = rowsWords(found.map(({ row }) => row));
  const answer = questions.ask({
    id: "headings",
    kind: "headings",
    words: `Chairs above their members? The votes of ${rows} equal sums of the rows below.`,
    options: [
      { key: "yes", words: "Yes: these rows are chairs with their totals",
        choice: `Chairs above their members: ${rows} were taken as chairs` },
      { key: "no", words: "No: they are members", choice: `Members, and no chairs above their members: ${rows}` },
    ],
  });
  if (answer === "no") return lines;
  return lines.map((line): Line => {
    if (!found.includes(line)) return line;
    return { ...line, role: "heading", printed: line.votes, heading: line.cells.name || line.cells.code };
  });
}
