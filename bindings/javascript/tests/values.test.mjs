// What fractions and results are as values: compared, in JSON, cloned.
import { deepEqual, equal } from "node:assert/strict";
import { test } from "node:test";
import { Fraction, MAJORITIES, Refused, Register, indices, indicesOfAll } from "voting-board";
import { thrown } from "./misuse.mjs";

test("a fraction is in lowest terms, and compares as a number", () => {
  const half = new Fraction(2, 4);
  deepEqual([half.numerator, half.denominator, String(half), Number(half)], [1, 2, "1/2", 0.5]);
  deepEqual(
    [half < new Fraction(2, 3), half > 0.4, half.equals(new Fraction(3, 6)), half.equals(new Fraction(1, 3))],
    [true, true, true, false],
  );
  deepEqual([new Fraction(0, 7), new Fraction(6, 3), new Fraction(-2, 4)].map(String), ["0", "2", "-1/2"]);
  const sorted = [new Fraction(2, 3), half, new Fraction(0, 1), new Fraction(3, 5)].sort(
    (one, other) => one.compare(other),
  );
  deepEqual(sorted.map(String), ["0", "1/2", "3/5", "2/3"]);
  const large = 2 ** 52;
  const [one, other] = [new Fraction(large - 1, large), new Fraction(large - 2, large - 1)];
  deepEqual([one.compare(other), other.compare(one), one.compare(one), one.equals(other)], [1, -1, 0, false]);
  for (const [numerator, denominator] of [[1, 0], [1, -2], [0.5, 1], [1, NaN], ["1", 2], [2 ** 53, 1], [1n, 2n]]) {
    equal(thrown(() => new Fraction(numerator, denominator)) instanceof RangeError, true);
  }
});

// Catches: a difference by floats, a sign of the wrong side, and numbers above 2^53 that are rounded.
test("the difference of two fractions is exact", () => {
  const gain = new Fraction(1, 5).minus(new Fraction(7, 15));
  deepEqual([gain.numerator, gain.denominator, `${gain}`, Number(gain)], [-4n, 15n, "-4/15", -4 / 15]);
  equal(JSON.stringify([gain, gain.minus]), '["-4/15",null]');
  equal(`${new Fraction(1, 2).minus(new Fraction(2, 4))}`, "0");
  const large = 2 ** 52;
  const small = new Fraction(large - 1, large).minus(new Fraction(large - 2, large - 1));
  equal(`${small}`, `1/${BigInt(large) * BigInt(large - 1)}`);
  deepEqual([small.compare(gain), gain.compare(small), gain.compare(gain), small > gain], [1, -1, 0, true]);
});

test("results show all in JSON and after structuredClone", () => {
  const board = indices({ Alpha: 50, Beta: 49, Gamma: 1 }, "half");
  const { chairs, act, ...numbers } = JSON.parse(JSON.stringify(board));
  deepEqual(numbers, { majority: "half", quota: 51, leastSize: 0, cast: 100, total: 100, omega: 3, coalitions: 8 });
  deepEqual(
    [act, chairs[0]],
    [
      "3/8",
      { chair: 1, name: "Alpha", weight: 50, swings: 3, banzhaf: "3/4", share: "3/5", prevent: "1", initiate: "3/5" },
    ],
  );
  const { chairs: cloned } = structuredClone(board);
  deepEqual(cloned[0].share, { numerator: 3, denominator: 5 });
  equal(new Fraction(cloned[0].share.numerator, cloned[0].share.denominator).equals(board.chairs[0].share), true);
  deepEqual(Object.keys(structuredClone(indicesOfAll([1]))).sort(), [...MAJORITIES].sort());
});

test("a register shows its state in JSON and after structuredClone", () => {
  const register = new Register([{ code: "AAA", votes: 50, chair: 2 }]);
  register.publish();
  const wanted = {
    members: { AAA: { votes: 50, chair: 2, suspended: false } }, chairs: { 2: ["AAA"] }, accepted: 2, published: 2,
  };
  deepEqual(structuredClone(register), wanted);
  deepEqual(JSON.parse(JSON.stringify(register)), wanted);
  deepEqual({ ...register }, wanted);
  equal(String(register), "Register(members: 1, chairs: 1, accepted: 2, published: 2)");
  deepEqual(JSON.parse(JSON.stringify(register.journal)), [
    { kind: "open", code: null, chair: 2, votes: null }, { kind: "move", code: "AAA", chair: 2, votes: null },
  ]);
});

test("a refusal shows all in JSON and after structuredClone", () => {
  const why = thrown(() => new Register({}).submit("open,1\nopen,1"));
  const about = { number: 1, code: "ChairOpen", command: "open,1", record: 2 };
  deepEqual(JSON.parse(JSON.stringify(why)), { ...about, message: why.message });
  deepEqual(structuredClone({ ...why }), { ...about, message: why.message });
  deepEqual(structuredClone(why).cause, about);
  deepEqual([why.name, why instanceof Refused, why instanceof Error], ["Refused", true, true]);
  deepEqual([new Refused(32).message, new Refused(99).code], ["BadSheet (32), the words are not a sheet's", "Unknown"]);
});
