/** Base against changed: rows of chairs, their order, and the sentence on gains. All of it is made here. */
import { MEASURE_NAMES } from "../cited";
import type { Counted } from "./count";
import { compared, difference, fractionText, grouped, percent, rounded, signed, type Ratio } from "../study/fractions";
import { fewestToBlock, fewestToWin } from "./coalitions";
import { chairIn, measureOf, voteShare, type ChairReading, type Reading, type Readings } from "./reading";
import { chairsWords, namedChair, said, type Said } from "./said";
import { chairKey, type Standing } from "./standing";
import { leadOf, restOf } from "./vetoes";
import type { View } from "../study/study";
import { MAJORITY, type Majority, type Measure } from "../study/words";

/** A chair at a majority; it is undefined where the chair isn't open. */
export interface AtMajority {
  readonly before: ChairReading | undefined;
  readonly after: ChairReading | undefined;
  readonly gain: Ratio | null;
}

/** A register at one moment: its readings, its members and its chairs. */
export interface Side {
  readonly readings: Readings;
  readonly standing: Standing;
}

/** A chair before and after. */
export interface ChairRow {
  /** Its key among chairs: one that was closed and opened again is another chair of the same number. */
  readonly key: string;
  readonly chair: number;
  readonly name: string;
  /** Whether it is open both before and after, was opened, or was closed. */
  readonly kind: "kept" | "opened" | "closed";
  readonly votesBefore: Ratio | null;
  readonly votesAfter: Ratio | null;
  readonly at: ReadonlyMap<Majority, AtMajority>;
}

const ratioOf = (chair: ChairReading | undefined, measure: Measure): Ratio | null => {
  return chair ? measureOf(chair, measure) : null;
};

function shareOfVotes(readings: Readings, chair: number): Ratio | null {
  const [reading] = readings.values();
  const found = chairIn(reading, chair);
  return reading && found ? voteShare(reading, found) : null;
}

/** The open chairs of a register by their keys. */
function chairsOf({ standing }: Side): Map<string, number> {
  return new Map(standing.open().map((it) => [chairKey(it, standing.isNew(it)), it]));
}

interface Kept {
  readonly key: string;
  readonly chair: number;
  readonly kind: ChairRow["kind"];
}

function rowOf(left: Side, right: Side, { majorities, measure }: View, { key, chair, kind }: Kept): ChairRow {
  const before: Readings = kind === "opened" ? new Map() : left.readings;
  const after: Readings = kind === "closed" ? new Map() : right.readings;
  const at = majorities.map((it): [Majority, AtMajority] => {
    const [earlier, later] = [chairIn(before.get(it), chair), chairIn(after.get(it), chair)];
    const gain = difference(ratioOf(later, measure), ratioOf(earlier, measure));
    return [it, { before: earlier, after: later, gain }];
  });
  const isNamedBefore = kind === "closed" || (kind === "kept" && !right.standing.in(chair).length);
  return {
    key,
    chair,
    name: (isNamedBefore ? left : right).standing.name(chair),
    kind,
    votesBefore: shareOfVotes(before, chair),
    votesAfter: shareOfVotes(after, chair),
    at: new Map(at),
  };
}

/** The rows of all chairs that are open before or after, by number. */
export function pairRows(before: Side, after: Side, view: View): ChairRow[] {
  const [earlier, later] = [chairsOf(before), chairsOf(after)];
  const kindOf = (key: string) => (!earlier.has(key) ? "opened" : later.has(key) ? "kept" : "closed");
  const all = [...new Map([...earlier, ...later])].map(([key, chair]) => ({ key, chair, kind: kindOf(key) }) as const);
  return all.sort((left, right) => left.chair - right.chair).map((it) => rowOf(before, after, view, it));
}

/** A count's base, and its board after the changes. */
export function sidesOf({ before, after, opening, standing }: Counted): { base: Side; changed: Side } {
  return { base: { readings: before, standing: opening }, changed: { readings: after, standing } };
}

/** The rows of all chairs in the order of a view. */
export function chairRows(counted: Counted, view: View): ChairRow[] {
  const { base, changed } = sidesOf(counted);
  return inOrder(pairRows(base, changed, view), (it) => it, view);
}

/** Greater numbers first, missing ones last, and equal ones by the chair's number. */
export function inOrder<Item>(items: readonly Item[], rowOf: (item: Item) => ChairRow | undefined, view: View): Item[] {
  const { order, orderAt, measure } = view;
  const numbered = (item: Item) => rowOf(item)?.chair ?? 0;
  const key = (item: Item): Ratio | null => {
    const row = rowOf(item);
    const at = row?.at.get(orderAt);
    if (order === "votes") return row?.votesAfter ?? row?.votesBefore ?? null;
    return order === "gain" ? at?.gain ?? null : ratioOf(at?.after ?? at?.before, measure);
  };
  return [...items].sort((left, right) => {
    if (order === "number") return numbered(left) - numbered(right);
    const [here, there] = [key(left), key(right)];
    if (here === null || there === null) return Number(here === null) - Number(there === null);
    return compared(there, here) || numbered(left) - numbered(right);
  });
}

/** The value of a measure for the eye: shares in per cent, swings whole, other measures with two places more. */
export function valueText(ratio: Ratio | null, measure: Measure, digits: number): string {
  if (ratio === null) return "-";
  if (measure === "swings") return grouped(ratio.numerator);
  return measure === "share" ? `${percent(ratio, digits)} %` : rounded(ratio, digits + 2);
}

/** The unit of a gain in a measure, after a mark: percentage points for shares, and none for other measures. */
export function gainUnit(measure: Measure, mark = " "): string {
  return measure === "share" ? `${mark}points` : "";
}

/** The gain in a measure, without its unit: a column of gains has it in its heading. */
export function gainText(gain: Ratio | null, measure: Measure, digits: number): string {
  if (gain === null) return "-";
  if (measure === "swings") return signed(grouped(gain.numerator / gain.denominator));
  return signed(measure === "share" ? percent(gain, digits) : rounded(gain, digits + 2));
}

/** The gain in a measure in a sentence; one that rounds to 0 is less than the last place. */
export function gainWords(gain: Ratio, measure: Measure, digits: number): string {
  const text = gainText(gain, measure, digits);
  const isTiny = gain.numerator !== 0n && !/[1-9]/.test(text);
  const change = isTiny ? text.replace(/^-/, "").replace(/0$/, "1") : text;
  const words = measure === "share" ? said("points", { change }) : change;
  return isTiny ? said("tiny", { change: words }) : words;
}

/** The chairs with the greatest gain or loss. */
function extremes(
  rows: readonly ChairRow[],
  majority: Majority,
  direction: 1 | -1,
): { best: ChairRow[]; gain: Ratio } | null {
  let found: { best: ChairRow[]; gain: Ratio } | null = null;
  for (const row of rows) {
    const gain = row.at.get(majority)?.gain;
    if (!gain || gain.numerator === 0n || gain.numerator > 0n !== direction > 0) continue;
    const order = found ? compared(gain, found.gain) * direction : 1;
    if (order > 0) found = { best: [row], gain };
    else if (order === 0 && found) found.best.push(row);
  }
  return found;
}

function gainSource(row: ChairRow, majority: Majority, measure: Measure): string {
  const found = row.at.get(majority);
  const values = [found?.after, found?.before].map((it) => fractionText(ratioOf(it, measure)));
  return `${namedChair(row)}, made here: ${values.join(" less ")}`;
}

const DIRECTIONS = { gain: 1, loss: -1 } as const;
type Direction = keyof typeof DIRECTIONS;

/** The chairs that gain most, or lose most: their names and the gain of each. Null if there are none. */
function extreme(rows: readonly ChairRow[], view: View, majority: Majority, direction: Direction) {
  const found = extremes(rows, majority, DIRECTIONS[direction]);
  const [first] = found?.best ?? [];
  if (!found || !first) return null;
  return {
    chairs: chairsWords(found.best),
    isOne: found.best.length === 1,
    change: gainWords(found.gain, view.measure, view.digits),
    source: gainSource(first, majority, view.measure),
  };
}

/** The chairs that gain most, or lose most, in a cell of a table. */
export function extremeCell(rows: readonly ChairRow[], view: View, majority: Majority, direction: Direction): Said {
  const found = extreme(rows, view, majority, direction);
  return found ? { words: `${found.chairs} (${found.change})`, source: found.source } : { words: "nobody", source: "" };
}

/** Chairs that are open only in the base or only in the changed board, which have no gain. */
function openedWords(rows: readonly ChairRow[], view: View, majority: Majority): string {
  const named = (name: "new" | "closed", kind: ChairRow["kind"]) =>
    rows.filter((it) => it.kind === kind).map((row) => {
      const at = row.at.get(majority);
      const value = valueText(ratioOf(at?.after ?? at?.before, view.measure), view.measure, view.digits);
      return said(name, { chair: namedChair(row), value: value === "-" ? "no value" : value });
    });
  return [...named("new", "opened"), ...named("closed", "closed")].join("");
}

/** The sentence on the greatest gain and the greatest loss at a majority. */
function gainSentence(rows: readonly ChairRow[], view: View, majority: Majority, lead: Said | null): Said {
  const parts = (["gain", "loss"] as const).map((direction) => {
    const found = extreme(rows, view, majority, direction);
    const { chairs = "", change = "", source = "", isOne } = found ?? {};
    const words = said(`${direction}_${!found ? "none" : isOne ? "one" : "several"}`, { chairs, change });
    return { words, source };
  });
  const [gain = "", loss = ""] = parts.map((it) => it.words);
  const opened = openedWords(rows, view, majority);
  const words = { at: MAJORITY[majority].at, measure: MEASURE_NAMES[view.measure], gain, loss, opened };
  const source = [lead, ...parts].flatMap((it) => it?.source || []).join("; ");
  return lead ? { ...lead, words: lead.words + said("gains_then", words), source }
    : { words: said("gains", words), source };
}

/** The sentence on a base without vetoes: the fewest chairs that carry together, and that block. */
function noVetoSentence(reading: Reading): Said {
  const { majority } = reading;
  const [carry, block] = [fewestToWin(reading), fewestToBlock(reading, [])].map((it) => String(it?.length ?? 0));
  const name = majority === "quorum" ? "no_veto_quorum" : "no_veto";
  return {
    words: said(name, { at: MAJORITY[majority].at, carry: carry ?? "", block: block ?? "" }),
    source: "counted: every PREVENT is below 1; made here, from votes: the fewest chairs",
  };
}

/** The reason if there is no power to show or to compare: no coalition wins. */
export function emptySentence(counted: Counted, majority: Majority): string | null {
  const [before, after] = [counted.before.get(majority), counted.after.get(majority)];
  const { at } = MAJORITY[majority];
  if (after?.winning === 0) {
    return said("none_wins", { at, cast: grouped(after.cast), total: grouped(after.total) });
  }
  return before?.winning === 0 ? said("none_before", { at }) : null;
}

/** The sentences of all majorities that are shown. */
export function sentences(rows: readonly ChairRow[], counted: Counted, view: View): Said[] {
  const numbered = [...rows].sort((left, right) => left.chair - right.chair);
  return view.majorities.map((majority) => {
    const empty = emptySentence(counted, majority);
    if (empty) return { words: empty, source: "counted: WINNING is 0" };
    const lead = leadOf(numbered, counted, majority);
    if (counted.isChanged) return gainSentence(rows, view, majority, lead);
    const reading = counted.after.get(majority);
    const first = lead ?? (reading ? noVetoSentence(reading) : { words: "", source: "" });
    return { ...first, words: first.words + restOf(numbered, majority) };
  });
}
