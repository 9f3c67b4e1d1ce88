/** An independent count, from the definitions alone: over all 2^n coalitions, one after another. It is no source. */
import type { Majority } from "../study/words";

/** The chairs' votes, the total of all members, and a majority. */
export interface Weights {
  readonly votes: readonly number[];
  readonly total: number;
  readonly majority: Majority;
}

/** More chairs than this take minutes. */
export const MOST_PLAIN = 26;

/** Whether a coalition of some votes and chairs wins. All numbers stay below 2^53, so they are exact. */
function ruleOf({ votes, total, majority }: Weights): (votes: number, chairs: number) => boolean {
  const cast = votes.reduce((sum, it) => sum + it, 0);
  switch (majority) {
    case "half":
      return (own) => 2 * own > cast;
    case "70":
      return (own) => own > 0 && 10 * own >= 7 * total;
    case "85":
      return (own) => own > 0 && 20 * own >= 17 * total;
    case "quorum":
      return (own, chairs) => 2 * chairs > votes.length && 2 * own >= total;
  }
}

/** The number of winning coalitions, then each chair's swings. Coalitions go through a Gray code: one chair changes. */
export function plainCount(weights: Weights): number[] {
  const { votes } = weights;
  const wins = ruleOf(weights);
  const swings = votes.map(() => 0);
  let [coalition, own, chairs, winning] = [0, 0, 0, 0];
  for (let number = 1; number <= 2 ** votes.length; number += 1) {
    if (wins(own, chairs)) {
      winning += 1;
      for (let at = 0; at < votes.length; at += 1) {
        if ((coalition >>> at) & 1 && !wins(own - (votes[at] ?? 0), chairs - 1)) swings[at] = (swings[at] ?? 0) + 1;
      }
    }
    const changed = 31 - Math.clz32(number & -number);
    if (changed >= votes.length) break;
    const joins = ((coalition >>> changed) & 1) === 0;
    coalition ^= 1 << changed;
    own += joins ? votes[changed] ?? 0 : -(votes[changed] ?? 0);
    chairs += joins ? 1 : -1;
  }
  return [winning, ...swings];
}
