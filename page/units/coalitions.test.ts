/** Tests of coalitions, compared with a count over all coalitions by the majorities' definitions. */
import assert from "node:assert/strict";
import { readFileSync } from "node:fs";
import { test } from "node:test";
import { indices } from "../../bindings/javascript/src/indices";
import { loadSync } from "../../bindings/javascript/src/load";
import {
  blockingRule, checkOf, coalitionsBySize, fewestToBlock, fewestToWin, minimalBlocking, minimalWinning, minimalWith,
  ruleWithout, smallestWith, subsetsAbove, subsetsWithout, verdictOf, vetoChairs, winningBySize,
  type Rule,
} from "../src/engine/coalitions";
import { Subsets } from "../src/engine/subsets";
import { MAJORITIES, type Majority } from "../src/study/words";

loadSync(readFileSync(process.env["MODULE"] ?? ""));

/** A board: votes of chairs with some numbers, those that they cast, and the total voting power, which may be more. */
interface Board {
  readonly votes: readonly number[];
  readonly numbers: readonly number[];
  readonly cast: number;
  readonly total: number;
}

/** A coalition as the plain count sees it: its places, its votes. */
interface Plain {
  readonly places: readonly number[];
  readonly votes: number;
}

/** The definitions. */
function isWinning({ votes, cast, total }: Board, majority: Majority, own: Plain): boolean {
  if (majority === "half") return own.votes > cast / 2;
  if (majority === "quorum") return own.places.length > votes.length / 2 && own.votes >= total / 2;
  return own.votes > 0 && own.votes * 100 >= total * Number(majority);
}

/** A coalition by the bits of a number. */
function coalition({ votes }: Board, bits: number): Plain {
  const places = votes.flatMap((_, at) => ((bits >> at) & 1 ? [at] : []));
  return { places, votes: places.reduce((sum, at) => sum + (votes[at] ?? 0), 0) };
}

/** Numbers from a seed, each below a bound. */
function random(seed: number): (below: number) => number {
  let state = seed;
  return (below) => {
    state = (Math.imul(state, 1664525) + 1013904223) >>> 0;
    return Math.floor((state / 2 ** 32) * below);
  };
}

/** A board of some chairs: votes of 0, equal votes, and sums that are just a quota are frequent. */
function boardOf(seed: number, chairs: number): Board {
  const next = random(seed);
  const most = [1, 2, 4, 20, 1000, 2 ** 40][next(6)] ?? 1;
  const votes = Array.from({ length: chairs }, () => next(most + 1));
  const numbers = votes.reduce<number[]>((before) => [...before, (before[before.length - 1] ?? 0) + 1 + next(2)], []);
  const cast = votes.reduce((sum, it) => sum + it, 0);
  return { votes, numbers, cast, total: cast + (next(3) ? 0 : next(most)) };
}

/** The rule with the quota that the register gives, and the number of winning coalitions that it counts. */
function ruleOf({ votes, numbers, total }: Board, majority: Majority): Rule & { readonly winning: number } {
  const { quota, leastSize, omega } = indices(votes, majority, { total });
  const chairs = votes.map((weight, at) => ({ chair: numbers[at] ?? 0, weight }));
  return { quota, leastSize, chairs, winning: omega };
}

const BOARDS = Array.from({ length: 169 }, (_, at) => boardOf(at + 1, at % 13));
const every = (board: Board) => Array.from({ length: 2 ** board.votes.length }, (_, bits) => coalition(board, bits));
const ALL = new Map(BOARDS.map((it) => [it, every(it)]));
const all = (board: Board): readonly Plain[] => ALL.get(board) ?? [];
const EACH = BOARDS.flatMap((board) => MAJORITIES.map((majority) => ({ board, majority })));

const sides = (board: Board, majority: Majority, own: Plain) => {
  return { votes: own.votes, size: own.places.length, wins: isWinning(board, majority, own) };
};

/** What holds of a coalition, from the definitions: a chair goes or comes, and the coalition is looked at again. */
function plainVerdict(board: Board, majority: Majority, bits: number) {
  const { votes, numbers } = board;
  const side = sides(board, majority, coalition(board, bits));
  const turned = votes.flatMap((_, at) => {
    const other = coalition(board, bits ^ (1 << at));
    return isWinning(board, majority, other) === side.wins ? [] : [{ chair: numbers[at], isIn: (bits >> at) & 1 }];
  });
  const rest = coalition(board, bits ^ (2 ** votes.length - 1));
  return {
    ...side,
    critical: turned.filter((it) => side.wins && it.isIn).map((it) => it.chair),
    helpers: turned.filter((it) => !side.wins && !it.isIn).map((it) => it.chair),
    others: sides(board, majority, rest),
  };
}

test("whether a coalition wins, who is critical, and who would make it win", () => {
  // Catches: a tie that wins, a chair without votes that is critical by number, a quorum without its number of chairs.
  let found = 0;
  for (const [at, { board, majority }] of EACH.entries()) {
    const next = random(at);
    for (let which = 0; which < 6; which += 1) {
      const bits = [0, 2 ** board.votes.length - 1][which] ?? next(2 ** board.votes.length);
      const chosen = new Set(coalition(board, bits).places.map((it) => board.numbers[it] ?? 0));
      const { missingVotes, missingChairs, ...verdict } = verdictOf(ruleOf(board, majority), chosen);
      assert.deepEqual(verdict, plainVerdict(board, majority, bits), `${JSON.stringify(board)} ${majority} ${bits}`);
      assert.equal(verdict.wins, missingVotes === 0 && missingChairs === 0);
      found += 1;
    }
  }
  assert.ok(found > 4000);
});

test("what a coalition lacks", () => {
  // Catches: a missing vote too few or too many. With them the coalition wins, and with one less it doesn't.
  let found = 0;
  for (const { board, majority } of EACH.filter((it) => it.board.votes.length)) {
    const own = coalition(board, random(board.total)(2 ** board.votes.length));
    const chosen = new Set(own.places.map((it) => board.numbers[it] ?? 0));
    const { missingVotes, missingChairs } = verdictOf(ruleOf(board, majority), chosen);
    const places = board.votes.map((_, at) => at).slice(0, own.places.length + missingChairs);
    const wins = (votes: number, some: readonly number[]) => isWinning(board, majority, { places: some, votes });
    assert.ok(wins(own.votes + missingVotes, places), JSON.stringify([board, majority]));
    assert.ok(!missingVotes || !wins(own.votes + missingVotes - 1, places));
    assert.ok(!missingChairs || !wins(own.votes + missingVotes, places.slice(1)));
    found += 1;
  }
  assert.ok(found > 600);
});

test("the winning coalitions of each size, and their sum", () => {
  // Catches: a pair of halves that is counted twice or not at all, a size that is one off, a sum at the quota.
  for (const { board, majority } of EACH) {
    const rule = ruleOf(board, majority);
    const found = winningBySize(rule, new Subsets(board.votes));
    const winning = all(board).filter((it) => isWinning(board, majority, it));
    const sizes = Array.from({ length: board.votes.length + 1 }, (_, size) => size);
    assert.deepEqual(found, sizes.map((size) => winning.filter((it) => it.places.length === size).length));
    assert.deepEqual(checkOf(rule.winning, found), { sum: winning.length, holds: true });
    const many = sizes.map((size) => all(board).filter((it) => it.places.length === size).length);
    assert.deepEqual(coalitionsBySize(board.votes.length), many);
  }
});

test("a sum that isn't the counted number", () => {
  // Catches: a check that passes whatever was counted.
  assert.deepEqual(checkOf(12, [0, 1, 10]), { sum: 11, holds: false });
  assert.deepEqual(checkOf(11, [0, 1, 10]), { sum: 11, holds: true });
});

test("chairs with a veto", () => {
  // Catches: a veto by a chair that is only large, or by every chair of a board on which nothing wins.
  for (const { board, majority } of EACH) {
    const winning = all(board).filter((it) => isWinning(board, majority, it));
    const everywhere = board.numbers.filter((_, at) => winning.every((it) => it.places.includes(at)));
    assert.deepEqual(vetoChairs(ruleOf(board, majority)), winning.length ? everywhere : null);
  }
});

test("the smallest winning coalitions with a chair", () => {
  // Catches: a coalition that is smaller or later than one that is left out, and a number that is that of the list.
  let found = 0;
  for (const { board, majority } of EACH) {
    const winning = all(board).filter((it) => isWinning(board, majority, it));
    for (const [at, chair] of board.numbers.entries()) {
      const with_ = winning.filter((it) => it.places.includes(at)).map((it) => it.places);
      const size = Math.min(...with_.map((it) => it.length));
      const smallest = with_.filter((it) => it.length === size).map((it) => it.map((its) => board.numbers[its] ?? 0));
      // Chairs' numbers as letters of a word: words are compared letter by letter.
      const word = (it: readonly number[]) => String.fromCharCode(...it);
      const first = [...smallest].sort((left, right) => (word(left) < word(right) ? -1 : 1)).slice(0, 20);
      const wanted = smallest.length ? { size, many: smallest.length, first } : null;
      const rule = ruleOf(board, majority);
      const others = subsetsWithout(rule.chairs, chair);
      assert.deepEqual(smallestWith(rule, chair, others, 20), wanted, JSON.stringify([board, majority]));
      found += 1;
    }
  }
  assert.ok(found > 3500);
  assert.equal(smallestWith(ruleOf(boardOf(1, 3), "half"), 99, new Subsets([]), 20), null);
});

test("32 chairs with the most votes", () => {
  // Catches: sums above 2^53, which are no more exact, and a list that takes as long as all coalitions do.
  const next = random(32);
  const votes = Array.from({ length: 32 }, () => 2 ** 43 - next(2 ** 20));
  const cast = votes.reduce((sum, it) => sum + it, 0);
  const board = { votes, numbers: votes.map((_, at) => at + 1), cast, total: cast };
  assert.ok(board.total > 2 ** 47 && board.total <= 2 ** 48 && Number.isSafeInteger(board.total));
  const subsets = new Subsets(votes);
  for (const majority of MAJORITIES) {
    const rule = ruleOf(board, majority);
    assert.equal(checkOf(rule.winning, winningBySize(rule, subsets)).holds, true);
    const least = smallestWith(rule, 32, subsetsWithout(rule.chairs, 32), 20);
    const wins = least?.first.map((it) => verdictOf(rule, new Set(it)).wins);
    assert.deepEqual(wins, Array.from({ length: 20 }, () => true));
  }
  assert.equal(coalitionsBySize(32).reduce((sum, it) => sum + it, 0), 2 ** 32);
});

test("coalitions that can block", () => {
  // Catches: a coalition that blocks by a vote too few, a quorum that is blocked by votes alone, a list that isn't of
  // the smallest, and a number of all that isn't that of the losing ones.
  let found = 0;
  for (const { board, majority } of EACH.filter((it) => it.board.votes.length)) {
    const rule = ruleOf(board, majority);
    const last = 2 ** board.votes.length - 1;
    const blocks = all(board).filter((_, bits) => !isWinning(board, majority, coalition(board, bits ^ last)));
    assert.equal(blocks.length, all(board).length - rule.winning);
    for (const [place, chair] of board.numbers.entries()) {
      const own = blocks.filter((it) => it.places.includes(place));
      const least = Math.min(...own.map((it) => it.places.length));
      const wanted = own.filter((it) => it.places.length === least);
      const smallest = smallestWith(blockingRule(rule, chair), chair, subsetsWithout(rule.chairs, chair), 5000);
      const lists = wanted.map((it) => it.places.map((at) => board.numbers[at] ?? 0)).map(String).sort();
      assert.deepEqual(smallest?.first.map(String).sort(), lists, JSON.stringify([board, majority, chair]));
      found += 1;
    }
  }
  assert.ok(found > 3000);
});

test("the smallest coalitions of any chairs, without one of them, and the fewest chairs", () => {
  // Catches: a chair that is left out and is in them, or whose votes no longer count for the quota.
  let found = 0;
  for (const { board, majority } of EACH.filter((it) => it.board.votes.length)) {
    const rule = ruleOf(board, majority);
    const last = 2 ** board.votes.length - 1;
    const wins = all(board).filter((it) => isWinning(board, majority, it));
    const blocks = all(board).filter((_, bits) => !isWinning(board, majority, coalition(board, bits ^ last)));
    const named = (some: readonly Plain[]) => some.map((it) => it.places.map((at) => board.numbers[at] ?? 0));
    assert.equal(fewestToWin(rule)?.length, wins.length ? Math.min(...named(wins).map((it) => it.length)) : undefined);
    for (const without of [null, ...board.numbers]) {
      const subsets = subsetsWithout(rule.chairs.filter((it) => it.chair !== without), null);
      const parts = [[wins, ruleWithout(rule, without)], [blocks, blockingRule(rule, null, without)]] as const;
      for (const [some, its] of parts) {
        const own = named(some).filter((it) => without === null || !it.includes(without));
        const size = Math.min(...own.map((it) => it.length));
        const wanted = own.filter((it) => it.length === size).map(String).sort();
        const smallest = smallestWith(its, null, subsets, 5000);
        assert.deepEqual(smallest?.first.map(String).sort() ?? [], wanted, JSON.stringify([board, majority, without]));
        if (some === blocks) {
          const fewest = fewestToBlock(rule, without === null ? [] : [without]);
          assert.equal(fewest?.length ?? Infinity, size);
        }
        found += 1;
      }
    }
  }
  assert.ok(found > 6000, String(found));
});

test("the smallest coalitions that need each of their chairs", () => {
  // Catches: a chair that blocks nothing and is listed beside one that blocks alone, and a number that isn't of these.
  let found = 0;
  for (const { board, majority } of EACH.filter((it) => it.board.votes.length && it.board.votes.length < 9)) {
    const rule = ruleOf(board, majority);
    const last = 2 ** board.votes.length - 1;
    const wins = (bits: number) => isWinning(board, majority, coalition(board, bits));
    const blocks = (bits: number) => !wins(bits ^ last);
    const kinds = [[wins, minimalWinning], [blocks, minimalBlocking]] as const;
    for (const [holds, minimalOf] of kinds) {
      const minimal = all(board).flatMap(({ places }, bits) =>
        holds(bits) && places.every((at) => !holds(bits ^ (1 << at))) ? [places.map((at) => board.numbers[at]!)] : []);
      for (const without of [null, board.numbers[0]!]) {
        for (const chair of board.numbers.filter((it) => it !== without)) {
          const own = minimal.filter((it) => it.includes(chair) && !(without !== null && it.includes(without)));
          const size = Math.min(...own.map((it) => it.length));
          const wanted = own.filter((it) => it.length === size);
          const word = (it: readonly number[]) => String.fromCharCode(...it);
          const first = [...wanted].sort((left, right) => (word(left) < word(right) ? -1 : 1)).slice(0, 3);
          const its = minimalOf(rule, without);
          const others = its.chairs.map((it) => ({ ...it }));
          const smallest = minimalWith(its, chair, subsetsAbove(others, chair), 3);
          const about = JSON.stringify([board, majority, chair, without]);
          assert.deepEqual(smallest, wanted.length ? { size, many: wanted.length, first } : null, about);
          found += 1;
        }
      }
    }
  }
  assert.ok(found > 5000, String(found));
});
