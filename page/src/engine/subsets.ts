/**
 * How many subsets of a list of votes have a size and at least some sum: all subsets of each half of the list are made,
 * and pairs of them are counted. All votes of a board are at most 2^48, so sums in floating numbers are exact.
 */

/** For each size, the sums of all subsets of this size, in ascending order. */
type Sums = readonly Float64Array[];

const NONE = new Float64Array(0);

/** Two ascending lists as one; to each number of the second, votes are added. */
function merged(left: Float64Array, right: Float64Array, votes: number): Float64Array {
  const all = new Float64Array(left.length + right.length);
  let [one, other] = [0, 0];
  for (let at = 0; at < all.length; at += 1) {
    const added = other < right.length ? (right[other] as number) + votes : Infinity;
    const isLeft = one < left.length && (left[one] as number) <= added;
    all[at] = isLeft ? (left[one] as number) : added;
    if (isLeft) one += 1;
    else other += 1;
  }
  return all;
}

/** The sums of the subsets without a member, and of those with it. */
function withMember(sums: Sums, votes: number): Sums {
  const sizes = Array.from({ length: sums.length + 1 }, (_, size) => size);
  return sizes.map((size) => merged(sums[size] ?? NONE, sums[size - 1] ?? NONE, votes));
}

function sumsOf(votes: readonly number[]): Sums {
  return votes.reduce(withMember, [new Float64Array(1)]);
}

/** The first number of a list and the last one; no number is between them if it is empty. */
function ends(sums: Float64Array): readonly [number, number] {
  return [sums[0] ?? Infinity, sums[sums.length - 1] ?? -Infinity];
}

/** How many pairs, one number from each of two ascending lists, have at least a sum. */
function pairs(left: Float64Array, right: Float64Array, least: number): number {
  const [[leftLow, leftHigh], [rightLow, rightHigh]] = [ends(left), ends(right)];
  if (leftHigh + rightHigh < least) return 0;
  if (leftLow + rightLow >= least) return left.length * right.length;
  let [found, at, from] = [0, 0, right.length];
  while (at < left.length) {
    if (from > 0 && (left[at] as number) + (right[from - 1] as number) >= least) from -= 1;
    else {
      found += right.length - from;
      at += 1;
    }
  }
  return found;
}

/** The subsets of a list of votes. */
export class Subsets {
  readonly #left: Sums;
  readonly #right: Sums;

  constructor(votes: readonly number[]) {
    const middle = votes.length >> 1;
    this.#left = sumsOf(votes.slice(0, middle));
    this.#right = sumsOf(votes.slice(middle));
  }

  /** How many subsets of a size have at least a sum. */
  atLeast(size: number, least: number): number {
    return this.#left.reduce((found, sums, own) => found + pairs(sums, this.#right[size - own] ?? NONE, least), 0);
  }
}
