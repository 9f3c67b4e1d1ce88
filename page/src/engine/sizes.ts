/** How many coalitions of each size win on a board, for each of its majorities. All of it is made here. */
import { checkOf, coalitionsBySize, winningBySize } from "./coalitions";
import { grouped, over, type Ratio } from "../study/fractions";
import type { Reading, Readings } from "./reading";
import { Subsets } from "./subsets";
import { MAJORITY, type Majority } from "../study/words";

export interface SizesModel {
  /** How many coalitions there are of each size, from 0 chairs to all, and how many of them win. */
  readonly all: readonly number[];
  readonly winning: ReadonlyMap<Majority, readonly number[]>;
}

const made = new WeakMap<Readings, SizesModel>();

/** The model of some readings, which is made once. */
export function sizesModel(readings: Readings): SizesModel {
  const known = made.get(readings);
  if (known) return known;
  const { chairs = [] } = [...readings.values()][0] ?? {};
  const subsets = new Subsets(chairs.map((it) => it.weight));
  const winning = [...readings].map(([majority, it]) => [majority, winningBySize(it, subsets)] as const);
  const model = { all: coalitionsBySize(chairs.length), winning: new Map(winning) };
  made.set(readings, model);
  return model;
}

/** The winning coalitions of a size over all coalitions of this size. */
export function shareOfSize({ all, winning }: SizesModel, majority: Majority, size: number): Ratio | null {
  return over(winning.get(majority)?.[size] ?? 0, all[size] ?? 0);
}

/** How many coalitions of a size can block: the other chairs lose, so all of this size less those whose others win. */
export function blockingOfSize({ all, winning }: SizesModel, majority: Majority, size: number): number {
  return (all[size] ?? 0) - (winning.get(majority)?.[all.length - 1 - size] ?? 0);
}

/** Whether the winning coalitions of all sizes are as many as the register counts, in words. */
export function checkWords(reading: Reading, bySize: readonly number[]): { holds: boolean; words: string } {
  const { sum, holds } = checkOf(reading.winning, bySize);
  const { at } = MAJORITY[reading.majority];
  const counted = grouped(reading.winning);
  const words = holds
    ? `${at} the sum equals the counted number of winning coalitions: ${counted}.`
    : `${at} the sum is ${grouped(sum)}, made here, but the counted number of winning coalitions is ` +
      `${counted}. One of the two is wrong: don't use the numbers of this tab.`;
  return { holds, words };
}
