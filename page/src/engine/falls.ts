/**
 * Where a chair's share of power turns, which may fall while the chair's votes grow. It is its swings over those of all
 * chairs, and between two numbers of votes at which both are counted, both have bounds: each coalition that begins to
 * win with the chair, or to lose without it, is one more swing of the chair, and at most one more or one fewer swing of
 * each chair. An interval in which these bounds leave the question open is halved.
 */
import type { Progress } from "./orders";
import type { Ratio } from "../study/fractions";

/** What is counted at some votes of a chair: its swings, those of all chairs, and the number of chairs. */
export interface Counts {
  readonly votes: number;
  readonly own: number;
  readonly all: number;
  readonly chairs: number;
}

/** Whether the chair has a share of power with some counts. */
function has({ own, all }: Counts, { numerator, denominator }: Ratio): boolean {
  return all > 0 && BigInt(own) * denominator >= BigInt(all) * numerator;
}

/** Whether the bounds show that the answer is the same at all votes between two. */
function isSure(one: Counts, other: Counts, share: Ratio): boolean {
  const [low, high] = one.votes < other.votes ? [one, other] : [other, one];
  const turned = high.own - low.own;
  if (turned === 0) return true;
  if (has(low, share) !== has(high, share)) return false;
  // Twice the swings of all chairs are at least `sum - most`, and at most `sum + most`.
  const [sum, most] = [BigInt(low.all) + BigInt(high.all), BigInt(low.chairs) * BigInt(turned)];
  const twice = (own: number) => 2n * BigInt(own) * share.denominator;
  return has(low, share) ? twice(low.own) >= (sum + most) * share.numerator
    : twice(high.own) < (sum - most) * share.numerator;
}

/** The votes nearest to `near`, on the way to `far`, at which the answer isn't that at `near`; null for none. */
export async function turnAwayFrom(
  near: Counts,
  far: Counts,
  share: Ratio,
  counts: (votes: number) => Counts,
  progress: Progress,
): Promise<number | null> {
  const room = Math.abs(far.votes - near.votes);
  if (isSure(near, far, share)) return null;
  if (room === 1) return has(near, share) === has(far, share) ? null : far.votes;
  await progress(1 - Math.log2(room) / 41);
  const middle = counts(Math.floor((near.votes + far.votes) / 2));
  return await turnAwayFrom(near, middle, share, counts, progress) ??
    turnAwayFrom(middle, far, share, counts, progress);
}
