/** What sentences on vetoes say: who has one, gains, keeps or loses it, and by how many votes. */
import type { ChairRow } from "./compare";
import type { Counted } from "./count";
import { fractionText, grouped } from "../study/fractions";
import { hasVeto, kindOf, marginEnd, vetoMargin, votesWords } from "./kinds";
import type { ChairReading, Reading } from "./reading";
import { chairsWords, namedChair, said, type Said } from "./said";
import { listed } from "../study/names";
import { MAJORITY, type Majority } from "../study/words";

/** What became of a veto. */
type Turn = "alone" | "gets" | "drops" | "has" | "keeps";
const TURNS: readonly Turn[] = ["alone", "gets", "drops", "has", "keeps"];

/** What became of a chair's veto at a majority; null if it hasn't one and hadn't one, or isn't open on both sides. */
function turnOf({ kind, at }: ChairRow, majority: Majority, isChanged: boolean): Turn | null {
  const { before, after } = at.get(majority) ?? {};
  const [had, has] = [hasVeto(before), hasVeto(after)];
  if (has && kindOf(after) === "alone" && (!isChanged || kindOf(before) !== "alone")) return "alone";
  if (!has) return had && kind === "kept" ? "drops" : null;
  return !isChanged ? "has" : had ? "keeps" : "gets";
}

/** A chair whose veto a sentence speaks of. */
interface Holder {
  readonly row: ChairRow;
  readonly chair: ChairReading;
}

/** What a sentence says of the chairs whose vetoes became the same. */
function turnWords(turn: Turn, holders: readonly Holder[], reading: Reading): string {
  const [first, ...others] = holders;
  if (!first) return "";
  const nothing = said(reading.majority === "quorum" ? "meets" : "passes", {});
  if (!others.length) {
    const margin = marginEnd(reading, first.chair);
    return said(`${turn}_one`, { chairs: namedChair(first.row), margin, nothing });
  }
  const spare = holders.map(({ row, chair }) => {
    const margin = vetoMargin(reading, chair);
    return margin === null || margin < 0 ? namedChair(row) :
      said("spare", { chair: namedChair(row), votes: votesWords(margin) });
  });
  return said(`${turn === "alone" ? "has" : turn}_several`, { chairs: listed(spare), nothing });
}

/** The beginning of a sentence at a majority: who has a veto, or gains, keeps or loses it. Null if nobody does. */
export function leadOf(rows: readonly ChairRow[], { after, isChanged }: Counted, majority: Majority): Said | null {
  const reading = after.get(majority);
  if (!reading) return null;
  const holdersOf = (turn: Turn) => rows.flatMap((row): Holder[] => {
    const chair = row.at.get(majority)?.after;
    return chair && turnOf(row, majority, isChanged) === turn ? [{ row, chair }] : [];
  });
  const all = TURNS.map((turn) => [turn, holdersOf(turn)] as const).filter(([, holders]) => holders.length > 0);
  if (!all.length) return null;
  const vetoes = all.map(([turn, holders]) => turnWords(turn, holders, reading)).join("; ");
  const source = all.flatMap(([, holders]) => holders).map(({ row, chair }) =>
    `${namedChair(row)}, counted: PREVENT ${fractionText(chair.prevent)}; made here, from votes: its margin`);
  return { words: said("vetoes", { at: MAJORITY[majority].at, vetoes }), source: source.join("; "), isLead: true };
}

/** A chair with its votes and its swings. */
interface Weighed {
  readonly row: ChairRow;
  readonly weight: number;
  readonly swings: number;
}

/** Two chairs of the same power of which one has far more votes: those furthest apart. */
function equalPair(all: readonly Weighed[]): readonly [Weighed, Weighed] | null {
  const pairs = all.flatMap((more) => all.map((less) => [more, less] as const)).filter(([more, less]) =>
    more.swings === less.swings && more.swings > 0 && 10 * less.weight <= 9 * more.weight);
  const gap = ([more, less]: readonly [Weighed, Weighed]) => more.weight - less.weight;
  return pairs.reduce<readonly [Weighed, Weighed] | null>(
    (most, it) => (most === null || gap(it) > gap(most) ? it : most), null);
}

/** The end of a sentence at a majority: who has no power, and whose votes give it no more power than fewer would. */
export function restOf(rows: readonly ChairRow[], majority: Majority): string {
  const all = rows.flatMap((row): Weighed[] => {
    const chair = row.at.get(majority)?.after;
    return chair ? [{ row, weight: chair.weight, swings: chair.swings }] : [];
  });
  const none = rows.filter((it) => kindOf(it.at.get(majority)?.after) === "powerless");
  const powerless = none.length
    ? said(`powerless_${none.length === 1 ? "one" : "several"}`, { chairs: chairsWords(none) }) : "";
  const pair = equalPair(all);
  if (!pair) return powerless;
  const [more, less] = pair;
  return powerless + said("equal", {
    more: namedChair(more.row), votes: grouped(more.weight), less: namedChair(less.row), fewer: grouped(less.weight),
  });
}
