/** Tests of vetoes: each is that of a count over all coalitions, and its margin that of counts with other votes. */
import assert from "node:assert/strict";
import { readFileSync } from "node:fs";
import { test } from "node:test";
import { indices } from "../../bindings/javascript/src/indices";
import { loadSync } from "../../bindings/javascript/src/load";
import { hasVeto, kindOf, vetoMargin } from "../src/engine/kinds";
import { readingOf, type Reading } from "../src/engine/reading";
import { MAJORITIES, type Majority } from "../src/study/words";

loadSync(readFileSync(process.env["MODULE"] ?? ""));

/** Votes of the chairs, and those of members in no chair. */
interface Board {
  readonly votes: readonly number[];
  readonly outside: number;
}

function sum(votes: readonly number[]): number {
  return votes.reduce((all, it) => all + it, 0);
}

/** Whether a coalition of some of the chairs wins, by the definitions. */
function isWinning({ votes, outside }: Board, majority: Majority, own: readonly number[]): boolean {
  const [have, cast] = [sum(own), sum(votes)];
  const total = cast + outside;
  if (majority === "half") return 2 * have > cast;
  if (majority === "quorum") return 2 * own.length > votes.length && 2 * have >= total;
  return have > 0 && 100 * have >= Number(majority) * total;
}

/** Whether a chair has a veto, by all coalitions. */
function isNeeded(board: Board, majority: Majority, at: number): boolean {
  const { votes } = board;
  const sets = Array.from({ length: 2 ** votes.length }, (_, bits) => bits);
  const wins = sets.filter((bits) => isWinning(board, majority, votes.filter((_, it) => (bits >> it) & 1)));
  return wins.length > 0 && wins.every((bits) => (bits >> at) & 1);
}

function readingAt({ votes, outside }: Board, majority: Majority): Reading {
  return readingOf(indices(votes, majority, { total: sum(votes) + outside }));
}

function withVotes({ votes, outside }: Board, at: number, weight: number): Board {
  return { votes: votes.map((it, place) => (place === at ? weight : it)), outside };
}

/** Numbers from a seed, each below a bound. */
function random(seed: number): (below: number) => number {
  let state = seed;
  return (below) => {
    state = (Math.imul(state, 1664525) + 1013904223) >>> 0;
    return Math.floor((state / 2 ** 32) * below);
  };
}

const next = random(54);
const BOARDS = Array.from({ length: 400 }, (): Board => {
  const most = [2, 5, 12, 40][next(4)] ?? 2;
  const votes = Array.from({ length: 1 + next(5) }, () => next(most));
  return { votes, outside: next(3) ? 0 : next(most) };
});

test("a chair has a veto where no coalition without it wins, and its margin is how many votes it could lose", () => {
  let vetoes = 0;
  for (const board of BOARDS) {
    for (const majority of MAJORITIES) {
      const reading = readingAt(board, majority);
      reading.chairs.forEach((chair, at) => {
        const isVeto = isNeeded(board, majority, at);
        const said = JSON.stringify([board, majority, at]);
        assert.equal(hasVeto(chair), isVeto, said);
        const margin = vetoMargin(reading, chair);
        if (margin === null) return assert.ok(board.votes.length < 3 && majority === "quorum", said);
        const least = chair.weight - margin;
        const holds = (weight: number) => isNeeded(withVotes(board, at, weight), majority, at);
        assert.equal(margin >= 0, isVeto, said);
        assert.ok(holds(least) && (least === 0 || !holds(least - 1)), `${said} ${least}`);
        vetoes += Number(isVeto);
      });
    }
  }
  assert.ok(vetoes > 500, String(vetoes));
});

test("a chair that decides alone, and one without power", () => {
  const reading = readingAt({ votes: [60, 30, 10], outside: 0 }, "half");
  assert.deepEqual(reading.chairs.map(kindOf), ["alone", "powerless", "powerless"]);
  assert.equal(vetoMargin(reading, reading.chairs[0]!), 20);
  const none = readingAt({ votes: [1, 1], outside: 100 }, "85");
  assert.deepEqual(none.chairs.map(kindOf), [null, null]);
});
