/** Printed totals of chairs that differ from the sums of their members. */
import { counted, grouped } from "../study/fractions";
import type { Questions } from "./questions";
import type { Line } from "./rows";

/** A chair's printed total, and the sum of its members. */
interface PrintedTotal {
  readonly chair: string;
  readonly printed: number;
  readonly sum: number;
}

/** The printed totals of chairs beside the sums of their members. */
export function printedTotals(lines: readonly Line[], seats: ReadonlyMap<number, string>): PrintedTotal[] {
  const sums = new Map<string, number>();
  const printed = new Map<string, Set<number>>();
  let above = "";
  for (const line of lines) {
    const seat = line.role === "heading" ? line.heading : seats.get(line.row) ?? "";
    const chair = line.role === "total" ? above : seat;
    if (line.role === "member") sums.set(seat, (sums.get(seat) ?? 0) + (line.votes ?? 0));
    if (line.role === "member" || line.role === "heading") above = seat;
    const isFree = line.role === "total" && (line.cells.votes !== "" || line.cells.name !== "");
    if (chair && line.printed !== null && !isFree) {
      printed.set(chair, (printed.get(chair) ?? new Set()).add(line.printed));
    }
  }
  return [...printed].flatMap(([chair, values]) => {
    const sum = sums.get(chair) ?? 0;
    return [...values].map((value) => ({ chair, printed: value, sum }));
  });
}

/** Lists the chairs whose printed totals differ, and asks whether the members' votes count. */
function ask(found: readonly PrintedTotal[], questions: Questions): void {
  const words = found.map(({ chair, printed, sum }) => {
    return `${chair}: ${grouped(printed)} printed, ${grouped(sum)} by its members`;
  }).join("; ");
  questions.ask({
    id: "sums",
    kind: "sums",
    words: `The printed totals of ${counted(found.length, "chair")} differ from the sums of their members. ${words}.`,
    options: [
      { key: "yes", words: "Take the members' votes",
        choice: `Printed totals differ, and the members' votes count. ${words}` },
      { key: "no", words: "Take nothing: I correct the table first", choice: "" },
    ],
  });
}

/** Asks about printed totals, where it is known which rows are of a chair. */
export function askSums(lines: readonly Line[], seats: ReadonlyMap<number, string>, questions: Questions): void {
  const found = printedTotals(lines, seats).filter(({ printed, sum }) => printed !== sum);
  if (found.length && !questions.isAsked("sums")) ask(found, questions);
}

/** The rows of a printed total, and their sum. */
interface Block {
  readonly lines: readonly Line[];
  readonly printed: number;
  readonly sum: number;
}

/** Rows in blocks, each of which begins with a printed total, or with `isLast` ends with one. */
function blocksOf(members: readonly Line[], isLast: boolean): Block[] {
  const places = members.flatMap(({ printed }, at) => (printed === null ? [] : [at]));
  return places.map((at, place) => {
    const [from, to] = isLast ? [(places[place - 1] ?? -1) + 1, at + 1] : [at, places[place + 1] ?? members.length];
    const lines = members.slice(from, to);
    return { lines, printed: members[at]?.printed ?? 0, sum: lines.reduce((all, it) => all + (it.votes ?? 0), 0) };
  });
}

/**
 * The rows with the sums of their chairs in place of a few printed totals that differ, which are asked about before all
 * else: where most printed totals are the sums of the rows from one to the next, those of the others are wrong.
 */
export function withSums(lines: readonly Line[], questions: Questions): readonly Line[] {
  const members = lines.filter(({ role }) => role === "member");
  const isRight = ({ printed, sum }: Block) => printed === sum;
  const [best = []] = [false, true].map((it) => blocksOf(members, it))
    .sort((one, two) => two.filter(isRight).length - one.filter(isRight).length);
  const wrong = best.filter((it) => !isRight(it) && it.lines.length > 0);
  if (!wrong.length || best.length < 3 * wrong.length) return lines;
  const chairOf = ({ lines: own }: Block) => own.find(({ cells }) => cells.chair)?.cells.chair ?? "";
  ask(wrong.map((it) => ({ ...it, chair: chairOf(it) })), questions);
  const sums = new Map(wrong.flatMap((it) => it.lines.map(({ row }) => [row, it.sum] as const)));
  return lines.map((it) => (it.printed === null ? it : { ...it, printed: sums.get(it.row) ?? it.printed }));
}
