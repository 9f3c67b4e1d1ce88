/**
 * Coalitions of chairs, by the chairs' votes and a majority's inequality alone. The quota and the least number of
 * chairs are the register's; what follows from them is made here, in whole numbers below 2^53.
 */
import { Subsets } from "./subsets";

/** An open chair and its votes. */
export interface Voter {
  readonly chair: number;
  readonly weight: number;
}

/** A majority on a board: a coalition wins if its votes reach the quota and its chairs the least number of chairs. */
export interface Rule {
  readonly quota: number;
  /** 0 if the majority asks for no number of chairs. */
  readonly leastSize: number;
  /** The open chairs, by number. */
  readonly chairs: readonly Voter[];
}

/** The votes and the number of chairs of a coalition, and whether it wins. */
export interface Side {
  readonly votes: number;
  readonly size: number;
  readonly wins: boolean;
}

/** A coalition under a majority, and the other chairs. */
export interface Verdict extends Side {
  /** Its chairs without each of which it loses; none if it loses anyway. */
  readonly critical: readonly number[];
  /** The votes and the chairs that it lacks. */
  readonly missingVotes: number;
  readonly missingChairs: number;
  /** The other chairs each of which makes it win; none if it wins anyway. */
  readonly helpers: readonly number[];
  readonly others: Side;
}

/** The winning coalitions with a chair that have the least number of chairs. */
export interface Smallest {
  readonly size: number;
  /** How many there are. */
  readonly many: number;
  /** The first of them, in order of their chairs' numbers. */
  readonly first: readonly (readonly number[])[];
}

export function votesOf(voters: readonly Voter[]): number {
  return voters.reduce((sum, it) => sum + it.weight, 0);
}

function sideOf({ quota, leastSize }: Rule, voters: readonly Voter[]): Side {
  const [votes, size] = [votesOf(voters), voters.length];
  return { votes, size, wins: votes >= quota && size >= leastSize };
}

const isWinning = (rule: Rule, voters: readonly Voter[]): boolean => sideOf(rule, voters).wins;

const numbers = (voters: readonly Voter[]): number[] => voters.map((it) => it.chair);

const without = (voters: readonly Voter[], one: Voter): Voter[] => voters.filter((it) => it !== one);

/** What holds of a coalition. */
export function verdictOf(rule: Rule, coalition: ReadonlySet<number>): Verdict {
  const own = rule.chairs.filter((it) => coalition.has(it.chair));
  const others = rule.chairs.filter((it) => !coalition.has(it.chair));
  const side = sideOf(rule, own);
  const critical = side.wins ? own.filter((it) => !isWinning(rule, without(own, it))) : [];
  const helpers = side.wins ? [] : others.filter((it) => isWinning(rule, [...own, it]));
  return {
    ...side,
    critical: numbers(critical),
    missingVotes: Math.max(0, rule.quota - side.votes),
    missingChairs: Math.max(0, rule.leastSize - side.size),
    helpers: numbers(helpers),
    others: sideOf(rule, others),
  };
}

/** The chairs that have a veto: no coalition without them wins. Null if none wins at all. */
export function vetoChairs(rule: Rule): number[] | null {
  const { chairs } = rule;
  return isWinning(rule, chairs) ? numbers(chairs.filter((it) => !isWinning(rule, without(chairs, it)))) : null;
}

/**
 * The rule by which the smallest coalitions with a chair, or of any, that block are found as if they won: all other
 * chairs together lose, since they have less than the quota, or fewer chairs than win. One chair may be left out of
 * them.
 */
export function blockingRule(rule: Rule, chair: number | null, without: number | null = null): Rule {
  const { quota, leastSize } = rule;
  const chairs = rule.chairs.filter((it) => it.chair !== without);
  const byVotes = { chairs, quota: votesOf(rule.chairs) - quota + 1, leastSize: 0 };
  if (!leastSize) return byVotes;
  const bySize = { chairs, quota: 0, leastSize: rule.chairs.length - leastSize + 1 };
  const own = chairs.filter((it) => it.chair === chair);
  const others = chairs.filter((it) => it.chair !== chair);
  const more = mostVotes(others).findIndex((it) => it >= byVotes.quota - votesOf(own));
  return more >= 0 && more + own.length < bySize.leastSize ? byVotes : bySize;
}

/** The rule for coalitions without a chair, which win as before. */
export function ruleWithout({ quota, leastSize, chairs }: Rule, without: number | null): Rule {
  return { quota, leastSize, chairs: chairs.filter((it) => it.chair !== without) };
}

/** The chairs with the most votes, as many as have some votes and are some number; null if all together aren't. */
function largest(voters: readonly Voter[], votes: number, least: number): number[] | null {
  const many = mostVotes(voters).findIndex((it, at) => it >= votes && at >= least);
  const falling = [...voters].sort((left, right) => right.weight - left.weight);
  return many < 0 ? null : numbers(falling.slice(0, many));
}

/** The fewest chairs that win together, those with the most votes first; null if no coalition wins. */
export function fewestToWin({ chairs, quota, leastSize }: Rule): number[] | null {
  return largest(chairs, quota, leastSize);
}

/** The fewest chairs that block together, without some that may not be among them; null if these can't block. */
export function fewestToBlock({ chairs, quota, leastSize }: Rule, excluded: readonly number[]): number[] | null {
  const voters = chairs.filter((it) => !excluded.includes(it.chair));
  const byVotes = largest(voters, votesOf(chairs) - quota + 1, 0);
  const bySize = leastSize ? largest(voters, 0, chairs.length - leastSize + 1) : null;
  return bySize && (!byVotes || bySize.length < byVotes.length) ? bySize : byVotes;
}

/** How many coalitions of each size win, from 0 chairs to all. */
export function winningBySize({ quota, leastSize, chairs }: Rule, subsets: Subsets): number[] {
  const sizes = Array.from({ length: chairs.length + 1 }, (_, size) => size);
  return sizes.map((size) => (size < leastSize ? 0 : subsets.atLeast(size, quota)));
}

/** How many coalitions there are of each size, from 0 chairs to all. */
export function coalitionsBySize(chairs: number): number[] {
  const row = (before: readonly number[]) => [1, ...before.map((it, at) => it + (before[at + 1] ?? 0))];
  return Array.from({ length: chairs }).reduce<number[]>(row, [1]);
}

/** The sums of the most votes that 0, 1, 2 and more of some chairs have. */
function mostVotes(voters: readonly Voter[]): number[] {
  let sum = 0;
  const falling = voters.map((it) => it.weight).sort((left, right) => right - left);
  return [0, ...falling.map((it) => (sum += it))];
}

/** The subsets of some size with at least some votes, in order of their chairs' numbers. */
function* inOrder(voters: readonly Voter[], size: number, votes: number): Generator<readonly number[]> {
  // The chairs from a place on can only have the votes if those of them with the most do.
  const most = voters.map((_, at) => mostVotes(voters.slice(at)));
  function* from(start: number, own: readonly number[], least: number): Generator<readonly number[]> {
    const missing = size - own.length;
    if (missing === 0 && least <= 0) yield own;
    for (let at = start; missing > 0 && (most[at]?.[missing] ?? -Infinity) >= least; at += 1) {
      const { chair, weight } = voters[at] as Voter;
      yield* from(at + 1, [...own, chair], least - weight);
    }
  }
  yield* from(0, [], votes);
}

/** The first values of a generator. */
function firstOf<Value>(values: Iterator<Value>, most: number): Value[] {
  const found: Value[] = [];
  for (let next = values.next(); !next.done && found.length < most; next = values.next()) found.push(next.value);
  return found;
}

/** The subsets of the chairs other than one, by their votes. */
export function subsetsWithout(voters: readonly Voter[], chair: number | null): Subsets {
  return new Subsets(voters.filter((it) => it.chair !== chair).map((it) => it.weight));
}

/**
 * The winning coalitions with a chair, or with null of any chairs, that have the least number of chairs, the first of
 * them up to some number, and null if there are none. `subsets` are those of the other chairs.
 */
export function smallestWith(rule: Rule, chair: number | null, subsets: Subsets, most: number): Smallest | null {
  const own = rule.chairs.filter((it) => it.chair === chair);
  if (chair !== null && !own.length) return null;
  const others = rule.chairs.filter((it) => it.chair !== chair);
  const needed = rule.quota - votesOf(own);
  const size = mostVotes(others).findIndex((it, at) => it >= needed && at + own.length >= rule.leastSize);
  if (size < 0) return null;
  const many = subsets.atLeast(size, needed);
  const first = firstOf(inOrder(others, size, needed), most);
  const whole = first.map((it) => [...it, ...numbers(own)].sort((left, right) => left - right));
  return { size: size + own.length, many, first: whole };
}

/** What the coalitions of a size need, each of whose chairs is needed: votes from `low` on, and less than `high`
 * without the chair that has the fewest. */
interface Needed {
  readonly low: number;
  readonly high: number;
}

/** The chairs of minimal coalitions, and what they need by size; null for a size that none has. */
export interface Minimal {
  readonly chairs: readonly Voter[];
  needed(size: number): Needed | null;
}

/** The minimal winning coalitions: each loses without any of its chairs. One chair may be left out of them. */
export function minimalWinning(rule: Rule, without: number | null): Minimal {
  const { chairs, quota, leastSize } = ruleWithout(rule, without);
  const needed = (size: number) => {
    return size < leastSize ? null : { low: quota, high: size === leastSize ? Infinity : quota };
  };
  return { chairs, needed };
}

/** The minimal blocking coalitions: each no longer blocks without any of its chairs. */
export function minimalBlocking({ chairs, quota, leastSize }: Rule, without: number | null): Minimal {
  const votes = votesOf(chairs) - quota + 1;
  const most = leastSize ? chairs.length - leastSize + 1 : Infinity;
  const needed = (size: number) => (size > most ? null : { low: size === most ? -Infinity : votes, high: votes });
  return { chairs: chairs.filter((it) => it.chair !== without), needed };
}

/** The subsets of the chairs with at least as many votes as each that isn't above some chair, without that chair. */
export interface Above {
  readonly lowest: Voter;
  readonly subsets: Subsets;
}

/** The subsets that minimal coalitions with a chair are made of. */
export function subsetsAbove(voters: readonly Voter[], chair: number): Above[] {
  const rising = [...voters].sort((left, right) => left.weight - right.weight);
  const own = rising.findIndex((it) => it.chair === chair);
  return rising.slice(0, own + 1).map((lowest, at) => {
    return { lowest, subsets: subsetsWithout(rising.slice(at + 1), chair) };
  });
}

/** How many minimal coalitions of a size have a chair: counted by the chair that has the fewest votes in them. */
function manyMinimal(own: Voter, size: number, { low, high }: Needed, above: readonly Above[], all: Subsets): number {
  if (high === Infinity) return all.atLeast(size - 1, low - own.weight);
  return above.reduce((sum, { lowest, subsets }) => {
    const [others, votes] = lowest.chair === own.chair ? [size - 1, 0] : [size - 2, own.weight];
    if (others < 0) return sum;
    return sum + subsets.atLeast(others, low - lowest.weight - votes) - subsets.atLeast(others, high - votes);
  }, 0);
}

/** Whether each chair of a coalition is needed for its votes. */
function isMinimal(voters: readonly Voter[], { low, high }: Needed): boolean {
  const votes = votesOf(voters);
  return votes >= low && votes - Math.min(...voters.map((it) => it.weight)) < high;
}

/** The minimal coalitions of a size with a chair, in order of their chairs' numbers. */
function* minimalInOrder({ chairs }: Minimal, own: Voter, size: number, needed: Needed): Generator<readonly number[]> {
  const most = chairs.map((_, at) => mostVotes(chairs.slice(at)));
  const least = chairs.map((_, at) => mostVotes(chairs.slice(at).map((it) => ({ ...it, weight: -it.weight }))));
  function* from(start: number, some: readonly Voter[]): Generator<readonly number[]> {
    const missing = size - some.length;
    if (missing === 0 && some.includes(own) && isMinimal(some, needed)) yield numbers(some);
    const [votes, fewest] = [votesOf(some), Math.min(own.weight, ...some.map((it) => it.weight))];
    for (let at = start; missing > 0 && at + missing <= chairs.length; at += 1) {
      const voter = chairs[at] as Voter;
      const isMissed = voter.chair > own.chair && !some.includes(own);
      if (isMissed || votes + (most[at]?.[missing] ?? 0) < needed.low) return;
      if (votes - (least[at]?.[missing] ?? 0) - fewest < needed.high) yield* from(at + 1, [...some, voter]);
    }
  }
  yield* from(0, []);
}

/** The minimal coalitions with a chair that have the fewest chairs, the first of them up to some number; null if
 * there are none. */
export function minimalWith(minimal: Minimal, chair: number, above: readonly Above[], most: number): Smallest | null {
  const own = minimal.chairs.find((it) => it.chair === chair);
  if (!own) return null;
  const all = subsetsWithout(minimal.chairs, chair);
  for (let size = 1; size <= minimal.chairs.length; size += 1) {
    const needed = minimal.needed(size);
    const many = needed ? manyMinimal(own, size, needed, above, all) : 0;
    if (needed && many) return { size, many, first: firstOf(minimalInOrder(minimal, own, size, needed), most) };
  }
  return null;
}

/** Whether the winning coalitions of all sizes are together as many as the register counts. */
export function checkOf(counted: number, bySize: readonly number[]): { readonly sum: number; readonly holds: boolean } {
  const sum = bySize.reduce((all, it) => all + it, 0);
  return { sum, holds: sum === counted };
}
