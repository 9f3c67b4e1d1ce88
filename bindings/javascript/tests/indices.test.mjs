import { deepEqual, equal } from "node:assert/strict";
import { test } from "node:test";
import { MAJORITIES, indices, indicesOfAll, indicesOfMany, indicesOfMembers } from "voting-board";
import { refused, wrongType } from "./misuse.mjs";

const WEIGHT = "votes are whole numbers from 0";
const CHAIR = "a chair is a whole number from 1 to 32";
const COLUMNS = "the columns are code, name, votes, chair, chair_name and suspended";
const MOST = "at most 281474976710656";
const swingsOf = ({ chairs }) => chairs.map(({ swings }) => swings);
const badSheet = (call) => {
  const [code, number, message] = refused(call);
  deepEqual([code, number], ["BadSheet", 32]);
  return message;
};

test("three chairs", () => {
  const { chairs, act, ...board } = indices([50, 49, 1], "half");
  deepEqual(board, { majority: "half", quota: 51, leastSize: 0, cast: 100, total: 100, omega: 3, coalitions: 8 });
  equal(String(act), "3/8");
  const [{ banzhaf, share, prevent, initiate, ...first }] = chairs;
  deepEqual(first, { chair: 1, weight: 50, swings: 3 });
  deepEqual([banzhaf, share, prevent, initiate].map(String), ["3/4", "3/5", "1", "3/5"]);
  deepEqual(chairs.map((it) => String(it.share)), ["3/5", "1/5", "1/5"]);
});

test("all majorities, and a total above the sum", () => {
  const all = indicesOfAll([50, 49, 1]);
  deepEqual(MAJORITIES.map((it) => [it, all[it].quota, all[it].omega]), [
    ["half", 51, 3], ["70", 70, 2], ["85", 85, 2], ["quorum", 50, 4],
  ]);
  for (const it of MAJORITIES) deepEqual(indices([50, 49, 1], it), all[it]);
  equal(indices([50, 49, 1], "85", { total: 200 }).omega, 0);
  deepEqual(indicesOfAll([50, 49, 1], { total: 200n })["85"], indices([50, 49, 1], "85", { total: 200 }));
  equal(all.quorum.leastSize, 2);
});

test("shares and powers that have no divisor are null", () => {
  const [{ share, prevent, initiate }] = indices([0, 0], "half").chairs;
  deepEqual([share, prevent, String(initiate)], [null, null, "0"]);
  deepEqual(indices([], "half").chairs, []);
});

test("weights are numbers and bigints in any list, and their names are those of chairs", () => {
  const wanted = indices([50, 49, 1], "half");
  const arrays = [new Uint8Array([50, 49, 1]), new BigUint64Array([50n, 49n, 1n])];
  for (const it of [[50n, 49, 1.0], ...arrays, new Set([50, 49, 1])]) {
    deepEqual(indices(it, "half"), wanted);
  }
  const names = ["Alpha", "", "Gamma"];
  for (const it of [{ Alpha: 50, "": 49, Gamma: 1 }, new Map([["Alpha", 50], ["", 49], ["Gamma", 1]])]) {
    const { chairs } = indices(it, "half");
    deepEqual(
      chairs.map(({ chair, name, swings }) => [chair, name, swings]), [[1, "Alpha", 3], [2, "", 1], [3, "Gamma", 1]],
    );
    deepEqual(indicesOfAll(it)["70"].chairs.map(({ name }) => name), names);
  }
  const whole = wrongType(() => indices({ 1: 50, 2: 49 }, "half"));
  equal(whole, "the name of weight 1 is '1' (string): a name is text and no number");
  equal(
    wrongType(() => indices(new Map([[1, 50]]), "half")),
    "the name of weight 1 is 1 (number): a name is text and no number",
  );
});

test("weights and totals that no board has", () => {
  for (const wrong of [-1, 1.5, NaN, Infinity, -1n]) {
    equal(badSheet(() => indices([50, wrong], "half")), `weight 2 is ${wrong}: ${WEIGHT}`);
    equal(badSheet(() => indices([50], "half", { total: wrong })), `the total is ${wrong}: ${WEIGHT}`);
  }
  equal(badSheet(() => indices([100], "half", { total: 99 })), "the total is 99: at least the sum of the weights, 100");
  equal(badSheet(() => indicesOfAll([100], { total: 99 })), "the total is 99: at least the sum of the weights, 100");
  for (const large of [2n ** 48n + 1n, 2n ** 64n, 2n ** 64n + 100n]) {
    for (const call of [(it) => indices([50], "half", { total: it }), (it) => indicesOfAll([50], { total: it })]) {
      equal(badSheet(() => call(large)), `the total is ${large}: ${MOST}`);
    }
    equal(badSheet(() => indices([large], "half")), `the total is ${large}: ${MOST}`);
    equal(badSheet(() => indicesOfAll([large])), `the total is ${large}: ${MOST}`);
  }
  equal(badSheet(() => indices([1e300], "half")), `the total is ${BigInt(1e300)}: ${MOST}`);
  equal(
    badSheet(() => indices([2n ** 64n], "half", { total: 1 })),
    `the total is 1: at least the sum of the weights, ${2n ** 64n}`,
  );
  for (const call of [(it) => indices(it, "half"), indicesOfAll]) {
    equal(badSheet(() => call(Array(33).fill(1))), "33 weights: a board has at most 32 chairs");
  }
  equal(indices([2 ** 48], "half").omega, 1);
});

test("wrong types", () => {
  for (const [value, shown] of [
    [true, "true (boolean)"], ["50", "'50' (string)"], [null, "null"], [undefined, "undefined"],
    [[1], "a list"], [{}, "an object"], [new Number(1), "an object"], [() => 1, "a function"],
  ]) {
    equal(wrongType(() => indices([50, value], "half")), `weight 2 is ${shown}: ${WEIGHT}`);
  }
  equal(wrongType(() => indices([, 1], "half")), `weight 1 is undefined: ${WEIGHT}`);
  equal(wrongType(() => indices("50", "half")), "the weights are '50' (string): a list");
  for (const weights of [null, undefined, 5, () => 1]) wrongType(() => indices(weights, "half"));
  equal(wrongType(() => indices([1], "half", { total: null })), `the total is null: ${WEIGHT}`);
  equal(wrongType(() => indices([1], "half", { Total: 1 })), "unknown option 'Total': the options are total");
  equal(wrongType(() => indices([1], "half", 5)), "the options are 5 (number): an object");
});

test("a majority is required", () => {
  for (const call of [
    (it) => indices([1], it),
    (it) => indicesOfMembers([{ votes: 1, chair: 1 }], it),
    (it) => indicesOfMany([[1]], [it]),
  ]) {
    deepEqual(refused(() => call("HALF")), ["BadRecord", 17, "no majority 'HALF': half, 70, 85 or quorum"]);
    equal(wrongType(() => call(70)), "the majority is 70 (number): half, 70, 85 or quorum");
    equal(wrongType(() => call(undefined)), "the majority is undefined: half, 70, 85 or quorum");
  }
  equal(refused(() => indices([1], "toString"))[0], "BadRecord");
});

test("many boards", () => {
  const many = indicesOfMany([[50, 49, 1], { A: 5, B: 5 }], ["half", "85"]);
  deepEqual(many.map((it) => [it.half.omega, it["85"].omega]), [[3, 2], [1, 1]]);
  deepEqual(many[0], { half: indices([50, 49, 1], "half"), 85: indices([50, 49, 1], "85") });
  deepEqual(indicesOfMany([[1], [1]], ["70"], { totals: [undefined, 3] }).map((it) => it["70"].omega), [1, 0]);
  deepEqual(indicesOfMany([], ["half"]), []);
  // Catches: another default than in the other languages.
  deepEqual(indicesOfMany([[50, 49, 1]]), [indicesOfAll([50, 49, 1])]);
  equal(badSheet(() => indicesOfMany([[1], [1], [5, -1]], ["half"])), `board 3: weight 2 is -1: ${WEIGHT}`);
  equal(badSheet(() => indicesOfMany([[1], [5]], ["half"], { totals: [1, 4] })),
    "board 2: the total is 4: at least the sum of the weights, 5");
  equal(
    badSheet(() => indicesOfMany([[1], Array(33).fill(1)], ["half"])),
    "board 2: 33 weights: a board has at most 32 chairs",
  );
  equal(wrongType(() => indicesOfMany([[1], "5"], ["half"])), "board 2: the weights are '5' (string): a list");
  equal(wrongType(() => indicesOfMany([[1]], "half")), "the majorities are 'half' (string): a list, such as an array");
  equal(wrongType(() => indicesOfMany([[1]], ["half"], { totals: [1, 2] })), "2 totals of 1 boards");
});

test("members in chairs, by rows and by columns", () => {
  const rows = [
    { code: "AAA", votes: 30, chair: 1, chair_name: "North" },
    { code: "BBB", votes: 20n, chair: 1n, suspended: true },
    { code: "CCC", votes: 49, chair: 2, chair_name: null },
    { code: "DDD", votes: 1, chair: null },
    { votes: 5, chair: NaN, chair_name: NaN },
  ];
  const board = indicesOfMembers(rows, "half", { openChairs: [4] });
  deepEqual([board.cast, board.total], [79, 85]);
  deepEqual(
    board.chairs.map(({ chair, name, weight }) => [chair, name, weight]),
    [[1, "North", 30], [2, null, 49], [4, null, 0]],
  );
  const column = (name) => rows.map((it) => it[name]);
  const columns = { votes: column("votes"), chair: column("chair"), chair_name: column("chair_name") };
  const suspended = rows.map((it) => it.suspended ?? false);
  deepEqual(indicesOfMembers({ ...columns, suspended }, "half", { openChairs: new Set([4]) }), board);
  deepEqual(swingsOf(indicesOfMembers([{ votes: 1, chair: 1 }, { votes: 2 }], "half")), [1]);
  equal("name" in indicesOfMembers([{ votes: 1, chair: 1 }], "half").chairs[0], false);
});

test("tables that are no boards", () => {
  const by = (...rows) => () => indicesOfMembers([{ votes: 1, chair: 1 }, ...rows], "half");
  for (const wrong of [-1, 1.5, NaN, Infinity]) equal(
    badSheet(by({ votes: wrong, chair: 1 })), `row 2: the votes are ${wrong}: ${WEIGHT}`,
  );
  for (const wrong of [0, 33, 1.5, -1, Infinity]) {
    equal(badSheet(by({ votes: 1, chair: wrong })), `row 2: the chair is ${wrong}: ${CHAIR}, or null for no chair`);
    equal(
      badSheet(() => indicesOfMembers([{ votes: 1, chair: 1 }], "half", { openChairs: [wrong] })),
      `an open chair is ${wrong}: ${CHAIR}`,
    );
  }
  for (const [value, shown] of [
    [true, "true (boolean)"], ["5", "'5' (string)"], [null, "null"], [undefined, "undefined"],
  ]) {
    equal(wrongType(by({ votes: value, chair: 1 })), `row 2: the votes are ${shown}: ${WEIGHT}`);
  }
  equal(wrongType(by({ votes: 1, chair: "2" })), `row 2: the chair is '2' (string): ${CHAIR}, or null for no chair`);
  for (const [value, shown] of [[1, "1 (number)"], [0, "0 (number)"], [null, "null"], ["yes", "'yes' (string)"]]) {
    equal(wrongType(by({ votes: 1, chair: 1, suspended: value })), `row 2: suspended is ${shown}: true or false`);
  }
  equal(wrongType(by({ votes: 1, chair: 1, chair_name: 5 })), "row 2: the chair_name is 5 (number): a name is text");
  equal(wrongType(by({ votes: 1, Chair: 1 })), `unknown column 'Chair': ${COLUMNS}`);
  equal(wrongType(by({ votes: 1, chair: 1, suspended_before: true })), `unknown column 'suspended_before': ${COLUMNS}`);
  equal(wrongType(by([1, 2])), "row 2 is a list: an object with the names of the columns");
  const missing = wrongType(() => indicesOfMembers([{ votes: 1 }], "half"));
  equal(missing, `no column 'chair': a board needs votes and chair, and ${COLUMNS}`);
  for (const empty of [[], {}, { votes: [], chair: [] }]) {
    deepEqual(indicesOfMembers(empty, "half"), indices([], "half"));
  }
  equal(
    wrongType(() => indicesOfMembers({ votes: [1, 2], chair: [1] }, "half")),
    "columns of unequal length: votes 2, chair 1",
  );
  equal(
    wrongType(() => indicesOfMembers({ votes: 5, chair: [1] }, "half")),
    "the column votes is 5 (number): a list, such as an array",
  );
  for (const none of [null, undefined, 5, "AAA"]) wrongType(() => indicesOfMembers(none, "half"));
  equal(
    wrongType(() => indicesOfMembers([{ votes: 1, chair: 1 }], "half", { open: [1] })),
    "unknown option 'open': the options are openChairs",
  );
  equal(
    wrongType(() => indicesOfMembers([{ votes: 1, chair: 1 }], "half", { openChairs: 3 })),
    "the open chairs are 3 (number): a list, such as an array",
  );
  equal(
    badSheet(by({ votes: 1, chair: 2, chair_name: "A" }, { votes: 1, chair: 2, chair_name: "B" })),
    "row 3: the name of chair 2 is 'B', and in row 2 it is 'A'",
  );
});

test("votes beyond the limits, codes twice", () => {
  const row = (votes, suspended = false) => ({ votes, chair: 1, suspended });
  equal(badSheet(() => indicesOfMembers([row(2 ** 48), row(1)], "half")), `the total is ${2 ** 48 + 1}: ${MOST}`);
  for (const suspended of [true, false]) {
    equal(
      badSheet(() => indicesOfMembers([row(1), row(2n ** 64n, suspended)], "half")),
      `row 2: the votes are ${2n ** 64n}: ${MOST}`,
    );
  }
  equal(indicesOfMembers([row(1), row(2n ** 64n - 1n, true)], "half").total, 1);
  const coded = (...codes) => () => indicesOfMembers(codes.map((code) => ({ code, votes: 1, chair: 1 })), "half");
  deepEqual(
    refused(coded("AAA", "BBB", "AAA")), ["DuplicateMember", 11, "row 3: the code 'AAA' is there already, in row 1"],
  );
  deepEqual(
    refused(coded("AAA", "aaa")), ["BadMember", 15, "row 2: the code is 'aaa': a code is three ASCII capitals"],
  );
});
