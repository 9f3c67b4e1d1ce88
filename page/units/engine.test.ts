/** Tests of the orders on registers, over the built module. The numbers are worked out by hand. */
import assert from "node:assert/strict";
import { readFileSync } from "node:fs";
import { test } from "node:test";
import { Engine } from "../src/engine/engine";
import type { Kind, Orders, Progress } from "../src/engine/orders";
import { Cancelled, pausing } from "../src/engine/pausing";
import type { Change, Command, Percentage } from "../src/study/study";

const SCRIPT = `member,votes
AAA,50
BBB,30
CCC,20
script
open,1
open,2
open,3
move,AAA,1
move,BBB,2
move,CCC,3
`;
const VOTES = { on: "base", unit: "votes", from: "0" } as const;
const AT_ONCE: Progress = async () => {};
const engine = new Engine();
await engine.carryOut("module", readFileSync(process.env["MODULE"] ?? ""), AT_ONCE);
let bases = 0;

async function based(script = SCRIPT): Promise<number> {
  await engine.carryOut("base", { number: (bases += 1), script }, AT_ONCE);
  return bases;
}

const changed = (...whats: (Command | Percentage)[]): Change[] => whats.map((what, id) => ({ id, on: true, what }));

async function ask<Some extends Kind>(kind: Some, order: Orders[Some]["ask"]): Promise<Orders[Some]["answer"]> {
  return engine.carryOut(kind, order, AT_ONCE);
}

test("a script's parts", async () => {
  // Catches: commands of the base that are listed as changes, majorities that aren't read, a reading in the base.
  const more = "publish\nread,1,70\nvotes,AAA,1\nread,1,half\n";
  const found = await ask("script", SCRIPT + more);
  assert.deepEqual(found, {
    base: SCRIPT,
    commands: [{ kind: "votes", code: "AAA", chair: null, votes: 1 }],
    majorities: ["half", "70"],
    long: 0,
  });
});

test("records that are quoted in part", async () => {
  // Catches: a reader of records in the page, which splits "op"en in two fields and drops the command.
  const odd = 'member,votes\nAAA,5\nBBB,6\nscript\n"op"en,1\r\n\n"open","2"\nmo"ve,AAA,1\n';
  await assert.rejects(ask("script", odd), /BadRecord/);
  const right = odd.replace('mo"ve', '"mo"ve') + '"vo"tes,AAA,"7"\npub"lish\n';
  await assert.rejects(ask("script", right), /BadRecord/);
  const last = '"mo"ve,BBB,2\n';
  const found = await ask("script", `${right.replace('pub"lish\n', "publish\n")}${last}`);
  assert.deepEqual(found.commands, [{ kind: "move", code: "BBB", chair: 2, votes: null }]);
  const board = { base: await based(found.base), changes: changed(...found.commands) };
  const { before, standing } = await ask("count", { ...board, majorities: ["half"] });
  assert.deepEqual(before[0]?.chairs.map(({ chair, weight }) => [chair, weight]), [[1, 7], [2, 0]]);
  const seats = standing.seats.map(({ code, votes, chair }) => [code, votes, chair]);
  assert.deepEqual(seats, [["AAA", 7, 1], ["BBB", 6, 2]]);
});

test("a script that ends in a fault is refused, with its record", async () => {
  // Catches: a fault without its record, or a script of which a part is taken.
  await assert.rejects(ask("script", `${SCRIPT}read,3,half\n`), { code: "BadReader", record: 12 });
});

test("what the register says of changes", async () => {
  // Catches: a refused change that is lost, a percentage of the wrong total, an old value that isn't the one before.
  const changes = changed(
    { kind: "percent", of: "own", code: "CCC", percent: "+50" },
    { kind: "open", chair: 3 },
    { kind: "percent", of: "total", code: "AAA", percent: "75" },
    { kind: "percent", of: "total", code: "AAA", percent: "100" },
    { kind: "suspend", code: "BBB" },
    { kind: "percent", of: "total", code: "BBB", percent: "5" },
  );
  const { outcomes, commands, after } = await ask("count", { base: await based(), changes, majorities: ["half"] });
  const kinds = [...outcomes.values()].map((it) => it.kind);
  assert.deepEqual(kinds, ["accepted", "refused", "accepted", "impossible", "accepted", "impossible"]);
  // 20 and a half of it are 30; 75 per cent of a total with 60 others are 180.
  assert.deepEqual(commands.map((it) => it.votes ?? it.chair ?? it.code), [30, 3, 180, "BBB"]);
  assert.equal(after[0]?.total, 210);
  const [first, second] = outcomes.values();
  const before = [{ code: "CCC", votes: 20, chair: 3, suspended: false }];
  assert.deepEqual(first?.kind === "accepted" && first.before, before);
  assert.deepEqual(second?.kind === "refused" && [second.number, second.name], [1, "ChairOpen"]);
});

test("a list of changes that is cut, altered and switched off", async () => {
  // Catches: a register that keeps a change that went, or counts one twice, since it starts from the count before.
  const base = await based();
  const votes = (code: string, number: number): Command => ({ kind: "votes", code, votes: number });
  const all = changed(votes("AAA", 1), votes("BBB", 2), votes("CCC", 3));
  const totals: number[] = [];
  const twoOn = all.map((it, at) => ({ ...it, on: at !== 1 }));
  const lists: Change[][] = [all, all.slice(0, 2), [], all, twoOn, all.slice(1)];
  for (const changes of lists) {
    const { after } = await ask("count", { base, changes, majorities: ["85"] });
    totals.push(after[0]?.total ?? 0);
  }
  assert.deepEqual(totals, [6, 23, 100, 6, 34, 55]);
});

test("a chair that is closed and opened again is a new one", async () => {
  // Catches: a new chair that inherits name and gains of the one that had its number.
  const changes = changed(
    { kind: "move", code: "CCC", chair: null },
    { kind: "close", chair: 3 },
    { kind: "open", chair: 3 },
    { kind: "open", chair: 9 },
  );
  const { opening, standing } = await ask("count", { base: await based(), changes, majorities: ["half"] });
  assert.deepEqual([opening.open, opening.opened], [[1, 2, 3], {}]);
  assert.deepEqual([standing.open, standing.opened], [[1, 2, 3, 9], { 3: 2, 9: 3 }]);
});

test("points of a sweep", async () => {
  // Catches: votes that aren't shared out in proportion, points of another value, a part that begins at a wrong place.
  const asked = { who: { kind: "chair", chair: 1 }, ...VOTES, to: "300", by: "100" } as const;
  const order = { base: await based(), changes: [], majorities: ["half"], asked } as const;
  const { points, chair, rest } = await ask("sweep", { ...order, from: 1, to: 3 });
  assert.deepEqual(points.map(({ value, votes }) => [value, votes]), [["100", 100], ["200", 200]]);
  assert.deepEqual([chair, rest], [1, 50]);
});

test("where statements turn", async () => {
  // Catches: a threshold that is one vote off, commands for other votes, another chair than the one that is asked of.
  const board = { base: await based(), changes: [], who: { kind: "chair", chair: 1 } } as const;
  const ends = { majority: "half", other: 2, low: 0, high: 200 } as const;
  const whats = ["counts", "prevents", "carries", "leads"] as const;
  const found = await ask("turns", { ...board, questions: whats.map((what) => ({ ...ends, what })) });
  // The others have 30 and 20. At 10 votes the 30 are no more than half of 60; at 50 the two have half, and at 51 less.
  // From 10 to 49 votes any two of the three win, so all have the same number of swings.
  assert.deepEqual(found.turns.map(({ votes }) => votes), [10, 50, 51, 50]);
  assert.ok(found.turns.every(({ isAtLow }) => !isAtLow));
  assert.deepEqual([found.chair, found.rest, found.votes], [1, 50, 50]);
  const given = found.turns[2]?.commands.map(([first]) => first?.votes);
  assert.deepEqual(given, [50, 51]);
  const above = await ask("turns", { ...board, questions: [{ ...ends, what: "counts", low: 10 }] });
  assert.deepEqual(above.turns, [{ isAtLow: true, votes: null, commands: [] }]);
});

test("single moves", async () => {
  // Catches: a member that is tried where it sits, numbers after a move that wasn't taken back, a tie with one winner.
  const codes = ["AAA", "BBB", "CCC"];
  const order = { base: await based(), changes: [], codes, majority: "half", measure: "swings" } as const;
  const tried = await ask("best", { ...order, chairs: [3] });
  // AAA in chair 3 gives it 70 of 100: 4 swings. BBB gives it 50 against 50: it can prevent, and wins with AAA's chair.
  assert.deepEqual(tried.map(({ code, value }) => [code, String(value.numerator)]), [["AAA", "4"], ["BBB", "2"]]);
  // Before, chair 1 has 3 swings, and the others 1 each.
  assert.deepEqual(tried.map(({ most, least }) => [most?.chairs, least?.chairs]), [[[3], [1]], [[3], [1, 2]]]);
  const all = await ask("best", { ...order, chairs: [1, 2, 3] });
  const moves = all.map(({ code, chair }) => `${code} ${chair}`);
  assert.deepEqual(moves, ["AAA 2", "AAA 3", "BBB 1", "BBB 3", "CCC 1", "CCC 2"]);
});

test("a script gives its readings", async () => {
  // Catches: a check that passes whatever the numbers are.
  const script = `${SCRIPT}publish\nread,1,half\n`;
  const { before } = await ask("count", { base: await based(), changes: [], majorities: ["half"] });
  assert.equal(await ask("check", { script, readings: before }), true);
  const other = before.map((it) => ({ ...it, winning: it.winning + 1 }));
  assert.equal(await ask("check", { script, readings: other }), false);
  assert.match(await ask("lines", script), /^accepted,1\n/);
});

test("a base that was dropped", async () => {
  // Catches: figures of another base, once more of them were sent than are kept.
  const first = await based();
  for (let at = 0; at < 8; at += 1) await based(SCRIPT.replace("50", String(60 + at)));
  await assert.rejects(ask("count", { base: first, changes: [], majorities: ["half"] }), /no base/);
});

test("an order that is cancelled", async () => {
  // Catches: Cancel that waits for the end; a report of progress at each of thousands of steps.
  const reports: number[] = [];
  let isCancelled = false;
  const progress = pausing((done) => (reports.push(done), (isCancelled = reports.length > 2)), () => isCancelled);
  const asked = { who: { kind: "member", code: "AAA" }, ...VOTES, to: "1000", by: "1" } as const;
  const base = await based(twentyFour());
  const majorities = ["half", "70", "85", "quorum"] as const;
  const order = { base, changes: [], majorities, asked, from: 0, to: 1001 };
  await assert.rejects(engine.carryOut("sweep", order, progress), Cancelled);
  assert.equal(reports.length, 3);
});

/** A board of 24 chairs, which takes a millisecond to count. */
function twentyFour(): string {
  const codes = Array.from({ length: 24 }, (_, at) => `AA${String.fromCharCode(65 + at)}`);
  const members = codes.map((code, at) => `${code},${1000 + 37 * at}`);
  const seats = codes.flatMap((code, at) => [`open,${at + 1}`, `move,${code},${at + 1}`]);
  return `${["member,votes", ...members, "script", ...seats].join("\n")}\n`;
}
