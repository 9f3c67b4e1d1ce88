/** Counts as whole numbers in one array, which go from a worker to the page much faster than objects with fractions. */
import type { Chair, Indices } from "../../../bindings/javascript/src/indices";
import { ReadingOf } from "./reading";
import { MAJORITIES, type Majority } from "../study/words";

/** The whole numbers of the package's counts, from which all others are made. */
export interface Wholes extends Omit<Indices, "act" | "chairs"> {
  readonly chairs: readonly Pick<Chair, "chair" | "weight" | "swings">[];
}

/** The numbers of a board before those of its chairs, and the numbers of a chair. */
const [HEAD, ROW] = [8, 3];

/** The whole numbers of counts. */
export function packed(counts: readonly Wholes[]): Float64Array {
  const numbers = new Float64Array(counts.reduce((size, { chairs }) => size + HEAD + ROW * chairs.length, 0));
  let to = 0;
  for (const { majority, quota, leastSize, cast, total, omega, coalitions, chairs } of counts) {
    numbers.set([MAJORITIES.indexOf(majority), quota, leastSize, cast, total, omega, coalitions, chairs.length], to);
    to += HEAD;
    for (const { chair, weight, swings } of chairs) {
      numbers.set([chair, weight, swings], to);
      to += ROW;
    }
  }
  return numbers;
}

/** The readings of such numbers. */
export function unpacked(numbers: Float64Array): ReadingOf[] {
  const all: ReadingOf[] = [];
  let at = 0;
  const next = (): number => numbers[at++] ?? 0;
  while (at < numbers.length) {
    const majority = MAJORITIES[next()] as Majority;
    const board = [next(), next(), next(), next(), next(), next()] as const;
    const end = ROW * next() + at;
    all.push(new ReadingOf(majority, ...board, numbers.subarray(at, end)));
    at = end;
  }
  return all;
}
