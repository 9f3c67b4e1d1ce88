/** Tests of counts as whole numbers, and of the fractions that are made of them. */
import assert from "node:assert/strict";
import { readFileSync } from "node:fs";
import { test } from "node:test";
import { indices } from "../../bindings/javascript/src/indices";
import { loadSync } from "../../bindings/javascript/src/load";
import { packed, unpacked, type Wholes } from "../src/engine/packed";
import { chairIn, measureIn, measureOf, readingOf, type Reading } from "../src/engine/reading";
import { MAJORITIES, MEASURES } from "../src/study/words";

loadSync(readFileSync(process.env["MODULE"] ?? ""));

/** A reading with all of its fractions. */
function whole(it: Reading): unknown {
  const { majority, quota, leastSize, cast, total, winning, coalitions, act, chairs } = it;
  const rows = chairs.map((chair) => [chair.chair, chair.weight, MEASURES.map((measure) => measureOf(chair, measure))]);
  const found = [0, 1, 3, 20, 32].map((chair) => chairIn(it, chair)?.weight);
  return { majority, quota, leastSize, cast, total, winning, coalitions, act, rows, found };
}

test("counts as numbers, and back", () => {
  // Catches: numbers in another order, a fraction that is missing and becomes 0, or one over another divisor.
  const squares = Array.from({ length: 20 }, (_, at) => at * at);
  const boards = [[], [0], [0, 0, 0], [50, 49, 1], [1, 2, 3, 4, 0, 2 ** 40], squares];
  const counts = boards.flatMap((weights) => MAJORITIES.map((it) => indices(weights, it)));
  for (const some of [[], ...counts.map((it) => [it]), counts]) {
    assert.deepEqual(unpacked(packed(some)).map(whole), some.map(readingOf).map(whole));
  }
  for (const it of counts) {
    for (const measure of MEASURES) {
      const own = it.chairs.map((chair) => measureIn(it, chair, measure));
      assert.deepEqual(own, readingOf(it).chairs.map((chair) => measureOf(chair, measure)));
    }
  }
});

test("fractions of large numbers", () => {
  // Catches: a fraction that is rounded.
  const most = 2 ** 48 - 1;
  const board: Wholes = {
    majority: "85", quota: 11, leastSize: 1, cast: most, total: 13, omega: 2 ** 32 - 3, coalitions: 2 ** 32,
    chairs: [{ chair: 3, weight: 2, swings: 2 ** 31 - 1 }, { chair: 32, weight: most - 2, swings: 2 ** 31 }],
  };
  const [reading] = unpacked(packed([board]));
  assert.deepEqual(reading?.act, { numerator: 2n ** 32n - 3n, denominator: 2n ** 32n });
  assert.deepEqual(reading?.chairs.map((it) => it.chair), [3, 32]);
  assert.deepEqual(reading?.chairs[0]?.share, { numerator: 2n ** 31n - 1n, denominator: 2n ** 32n - 1n });
  const ratio = { numerator: (2n ** 31n - 1n) * (2n ** 48n - 1n), denominator: (2n ** 32n - 1n) * 2n };
  assert.equal((reading?.chairs[0]?.ratio?.numerator ?? 0n) * ratio.denominator,
    (reading?.chairs[0]?.ratio?.denominator ?? 0n) * ratio.numerator);
});
