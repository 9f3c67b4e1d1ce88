/** The table of a study as CSV, with the columns of board-study: a row for each scenario, majority and chair. */
import { difference, rounded, type Ratio } from "../study/fractions";
import { chairIn, measureOf, voteShare, type ChairReading, type Reading, type Readings } from "../engine/reading";
import type { Standing } from "../engine/standing";
import type { Majority, Measure } from "../study/words";

const PLACES = 10;
const FRACTIONS = ["vote_share", "banzhaf", "power_share", "prevent", "initiate"] as const;
const MEASURES: readonly Measure[] = ["banzhaf", "share", "prevent", "initiate"];
const BOARD = ["open_chairs", "quota", "cast", "total", "winning", "coalitions"];
const COLUMNS = ["scenario", "sweep", "sweep_percent", "majority", ...BOARD, "chair", "name", "votes", "swings"];
const ALL = [
  ...COLUMNS,
  ...FRACTIONS.flatMap((it) => [`${it}_numerator`, `${it}_denominator`, it, `${it}_difference`]),
];
const PREVIOUS = ["previous", ...FRACTIONS.map((it) => `${it}_difference_from_previous`)];

/** A register that others are compared with. */
export interface Compared {
  readonly label: string;
  readonly readings: Readings;
  readonly standing: Standing;
}

/** A register that was read: its label and its chairs; and the sweep and its value if it is a step of one. */
export interface Labelled extends Compared {
  readonly sweep?: string;
  readonly percent?: string;
  /** The register before it, if it is compared with that one, too. */
  readonly previous?: Compared;
}

/** Where a cell would begin like a formula if a comma, a semicolon or a tab separates cells. Numbers may follow. */
const INSIDE = /([,;\t]\s*)(?=["=+\-@＝＋－＠])(?![+-][0-9.,]+ ?%?(?:[,;\t'"\s]|$))/g;

/** A text in which no cell is a formula, whichever of comma, semicolon and tab separates cells. */
export function plainLine(text: string): string {
  return text.replace(INSIDE, "$1'");
}

/** A cell that no spreadsheet takes for a formula. */
export function plainCell(cell: string): string {
  const text = plainLine(cell);
  return /^[=+\-@\t\r＝＋－＠]/.test(text) && !/^[+-]?[0-9.,]+$/.test(text) ? `'${text}` : text;
}

/** A cell: a text, a whole number, a fraction, or nothing. */
export type Cell = string | number | bigint | Ratio | null;

function quoted(cell: string): string {
  const plain = plainCell(cell);
  return /[",;#\t\r\n]/.test(plain) ? `"${plain.replace(/"/g, '""')}"` : plain;
}

function fractionsOf(reading: Reading, chair: ChairReading): (Ratio | null)[] {
  return [voteShare(reading, chair), ...MEASURES.map((it) => measureOf(chair, it))];
}

function cellText(cell: Cell): string {
  if (typeof cell === "string") return quoted(cell);
  if (cell === null) return "";
  return typeof cell === "object" ? rounded(cell, PLACES) : String(cell);
}

function fractionCells(ratio: Ratio | null, before: Ratio | null): Cell[] {
  return [ratio?.numerator ?? null, ratio?.denominator ?? null, ratio, difference(ratio, before)];
}

/** The fractions of a chair in another register; there are none if it isn't open there. */
function fractionsIn(other: Compared, of: Labelled, majority: Majority, chair: number): (Ratio | null)[] {
  const reading = other.readings.get(majority);
  const line = other.standing.isNew(chair) === of.standing.isNew(chair) ? chairIn(reading, chair) : undefined;
  return reading && line ? fractionsOf(reading, line) : [];
}

function rowOf(of: Labelled, reading: Reading, chair: ChairReading, base: Compared, hasPrevious: boolean): Cell[] {
  const values = fractionsOf(reading, chair);
  const earlier = fractionsIn(base, of, reading.majority, chair.chair);
  const { chairs, quota, cast, total, winning, coalitions } = reading;
  const board = [chairs.length, quota, cast, total, winning, coalitions];
  const fractions = values.flatMap((it, at) => fractionCells(it, earlier[at] ?? null));
  const own = [chair.chair, of.standing.name(chair.chair), chair.weight, chair.swings];
  const first = [of.label, of.sweep ?? "", of.percent ?? "", reading.majority, ...board, ...own, ...fractions];
  if (!hasPrevious) return first;
  const before = of.previous ? fractionsIn(of.previous, of, reading.majority, chair.chair) : [];
  return [...first, of.previous?.label ?? "", ...values.map((it, at) => difference(it, before[at] ?? null))];
}

/** The table of registers, of which the first is the base: its headings, and then its rows. */
export function tableOf(all: readonly Labelled[]): Cell[][] {
  const [base] = all;
  const hasPrevious = all.some((it) => it.previous);
  const rows = base ? all.flatMap((it) =>
    [...it.readings.values()].flatMap((reading) =>
      reading.chairs.map((chair) => rowOf(it, reading, chair, base, hasPrevious)),
    ),
  ) : [];
  return [hasPrevious ? [...ALL, ...PREVIOUS] : [...ALL], ...rows];
}

/** That table as CSV. */
export function csvOf(all: readonly Labelled[]): string {
  return tableOf(all).map((row) => `${row.map(cellText).join(",")}\n`).join("");
}
