/** Tests of long orders that are split among several workers: here these are engines in one process. */
import assert from "node:assert/strict";
import { readFileSync } from "node:fs";
import { test } from "node:test";
import { Engine } from "../src/engine/engine";
import { Cancelled, pausing } from "../src/engine/pausing";
import { Pool, type Answer, type Ask, type Desk, type Report, type Task } from "../src/engine/pool";
import type { Kind } from "../src/engine/orders";
import { movesOver, sweepOver, thresholdsOver, type Place } from "../src/engine/split";
import type { SweepAsked } from "../src/study/study";
import { MAJORITIES } from "../src/study/words";

/** An engine as a worker, which notes the orders that it began. */
class Hand implements Desk {
  readonly engine = new Engine();
  readonly begun: Kind[] = [];
  hasEnded = false;

  ask<Some extends Kind>(kind: Some, ask: Ask<Some>, report: Report = () => {}): Task<Answer<Some>> {
    this.begun.push(kind);
    let isCancelled = false;
    const pause = pausing(report, () => isCancelled);
    // Each part gives way at once, so that parts of all engines are mixed.
    const progress = async (done: number) => {
      await new Promise((next) => setTimeout(next, 0));
      if (isCancelled) throw new Cancelled();
      return pause(done);
    };
    return { answer: this.engine.carryOut(kind, ask, progress), cancel: () => (isCancelled = true) };
  }

  end(): void {
    this.hasEnded = true;
  }
}

const [AT_ONCE, NO_REPORT] = [{ start: 0, end: 0 }, () => {}];
const SCRIPT = scriptOf([[90, 1], [70, 1], [60, 2], [50, 3], [45, 3], [40, 4], [33, 5], [20, 6], [11, 6], [5, 7]]);
const SWEEP: SweepAsked = {
  who: { kind: "chair", chair: 3 }, on: "base", unit: "percent", from: "1", to: "80", by: "0.5",
};
const ASKED = { who: SWEEP.who, on: SWEEP.on, other: 1, power: { measure: "share", least: "5" } } as const;
await new Hand().ask("module", readFileSync(process.env["MODULE"] ?? "")).answer;

function scriptOf(members: readonly (readonly [number, number])[]): string {
  const code = (at: number) => `AA${String.fromCharCode(65 + at)}`;
  const opens = [...new Set(members.map(([, chair]) => chair))].map((it) => `open,${it}`);
  const moves = members.map(([, chair], at) => `move,${code(at)},${chair}`);
  const votes = members.map(([own], at) => `${code(at)},${own}`);
  return `${["member,votes", ...votes, "script", ...opens, ...moves].join("\n")}\n`;
}

/** A pool of some engines, and a board that the first of them has. */
async function pooled(many: number, script = SCRIPT): Promise<{ pool: Pool; hands: Hand[]; place: Place }> {
  const hands = [new Hand()];
  const start = async () => {
    const hand = new Hand();
    hands.push(hand);
    return hand;
  };
  const base = { number: 1, script };
  const pool = new Pool("worker", hands[0] as Hand, start, many, AT_ONCE);
  await pool.ask("base", base).answer;
  return { pool, hands, place: { base, board: { base: 1, changes: [] } } };
}

/** What matters of a sweep. */
async function sweptBy(many: number) {
  const { pool, hands, place } = await pooled(many);
  const reports: number[] = [];
  const task = sweepOver(pool, place, MAJORITIES, SWEEP, (it) => reports.push(it));
  const { points: given, thresholds, chair, rest, desks } = await task.answer;
  const points = given.map((point) => ({ ...point, readings: point.readings.map(({ chairs, act, ...it }) => {
    return { ...it, act, chairs: chairs.map(({ share, ratio, ...own }) => ({ ...own, share, ratio })) };
  }) }));
  return { found: { points, thresholds, chair, rest }, desks, hands, reports };
}

test("several workers give what one gives", async () => {
  // Catches: parts in another order, a point that is missing or counted twice, thresholds of other neighbours.
  const [one, four] = [await sweptBy(1), await sweptBy(4)];
  assert.deepEqual(four.found, one.found);
  assert.equal(one.found.points.length, 159);
  assert.ok(one.found.thresholds.length > 6);
  assert.deepEqual([one.desks, one.hands.length, four.desks, four.hands.length], [1, 1, 4, 4]);
  for (const { begun } of four.hands) assert.ok(begun.filter((it) => it === "sweep").length > 5, String(begun));
  const { reports } = four;
  assert.deepEqual(reports, [...reports].sort((left, right) => left - right));
  assert.equal(reports[reports.length - 1], 1);
});

test("moves and thresholds by several workers", async () => {
  // Catches: moves or majorities whose parts are put together in another order.
  const found = await Promise.all([1, 3].map(async (many) => {
    const { pool, place } = await pooled(many);
    const codes = ["AAA", "AAB", "AAE", "AAJ"];
    const ask = { codes, chairs: [1, 2, 3, 4, 5, 6, 7], majority: "85", measure: "share" } as const;
    const moves = await movesOver(pool, place, ask, NO_REPORT).answer;
    return [moves, await thresholdsOver(pool, place, MAJORITIES, ASKED, NO_REPORT).answer];
  }));
  assert.deepEqual(found[0], found[1]);
});

test("Cancel ends all workers' parts", async () => {
  // Catches: a Cancel that reaches one worker only, or workers that begin further parts after it.
  const { pool, hands, place } = await pooled(3);
  const task = sweepOver(pool, place, MAJORITIES, SWEEP, () => task.cancel());
  await assert.rejects(task.answer, Cancelled);
  const begun = () => hands.map((it) => it.begun.length);
  const then = begun();
  await new Promise((next) => setTimeout(next, 100));
  assert.deepEqual(begun(), then);
  assert.ok(hands.flatMap((it) => it.begun).filter((it) => it === "sweep").length < 20);
});

test("Cancel of moves and thresholds, also once they are over", async () => {
  // Catches: a Cancel that throws, so that the dialog of the best move can't count a second time.
  const { pool, place } = await pooled(3);
  const ask = { codes: ["AAA", "AAB"], chairs: [1, 2, 3, 4, 5], majority: "85", measure: "share" } as const;
  const begin = [
    (report: Report) => movesOver(pool, place, ask, report),
    (report: Report) => thresholdsOver(pool, place, MAJORITIES, ASKED, report),
  ];
  for (const it of begin) {
    const { answer, cancel } = it(() => cancel());
    await assert.rejects(answer, Cancelled);
    const other = it(NO_REPORT);
    await other.answer;
    other.cancel();
  }
});

test("a fault of one part is the fault of all", async () => {
  // Catches: a sweep with a hole, or one that never ends, where one of its points can't be counted.
  const { pool, place } = await pooled(3);
  const asked = { ...SWEEP, from: "0", to: "1100000000000", by: "100000000000", unit: "votes" } as const;
  const over = sweepOver(pool, place, MAJORITIES, asked, NO_REPORT);
  await assert.rejects(over.answer, /1100000000000 votes, which is not from 0 to 2\^40/);
  const none = { ...SWEEP, who: { kind: "chair", chair: 9 } } as const;
  await assert.rejects(sweepOver(pool, place, MAJORITIES, none, NO_REPORT).answer, /chair 9 has no member/);
  const { points } = await sweepOver(pool, place, MAJORITIES, SWEEP, NO_REPORT).answer;
  assert.equal(points.length, 159);
});

test("workers that can't be started", async () => {
  // Catches: a sweep that waits for a worker that never came.
  const { hands: [first], place } = await pooled(1);
  const pool = new Pool("worker", first as Hand, () => Promise.reject(new Error("no worker")), 4, AT_ONCE);
  const { points, desks } = await sweepOver(pool, place, ["half"], SWEEP, NO_REPORT).answer;
  assert.deepEqual([points.length, desks], [159, 1]);
});

test("further workers end when there is nothing to do, and have the base of the next order", async () => {
  // Catches: workers that stay for ever, or that count with another base than the one asked for.
  const { pool, hands, place } = await pooled(2);
  await sweepOver(pool, place, ["half"], SWEEP, NO_REPORT).answer;
  await new Promise((next) => setTimeout(next, 20));
  assert.deepEqual(hands.map((it) => it.hasEnded), [false, true]);
  const other = { number: 2, script: SCRIPT.replace("AAA,90", "AAA,900") };
  await pool.ask("base", other).answer;
  const there = { base: other, board: { base: 2, changes: [] } };
  const { rest } = await sweepOver(pool, there, ["half"], SWEEP, NO_REPORT).answer;
  assert.equal(rest, 900 + 70 + 60 + 40 + 33 + 20 + 11 + 5);
  assert.equal(hands.length, 3);
});

test("a long script isn't split", async () => {
  // Catches: a script that takes seconds to read, read again by each worker.
  const long = `${SCRIPT}${"votes,AAA,90\n".repeat(22_000)}`;
  const { pool, hands, place } = await pooled(4, long);
  await sweepOver(pool, place, ["half"], { ...SWEEP, to: "5" }, NO_REPORT).answer;
  assert.deepEqual([hands.length, hands[0]?.begun.filter((it) => it === "sweep").length], [1, 1]);
});
