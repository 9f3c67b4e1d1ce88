/** Tests of thresholds on small boards, where every number of votes can be tried and every coalition counted. */
import assert from "node:assert/strict";
import { readFileSync } from "node:fs";
import { test } from "node:test";
import { Engine } from "../src/engine/engine";
import type { Power, Question, Statement } from "../src/engine/orders";
import { plainCount } from "../src/engine/plain";
import type { Who } from "../src/study/study";
import { MAJORITIES, type Majority } from "../src/study/words";

/** A member: its votes, its chair or 0 for none, and whether it is suspended. */
interface Seated {
  readonly code: string;
  readonly votes: number;
  readonly chair: number;
  readonly suspended: boolean;
}

const WHATS: readonly Statement[] = ["prevents", "carries", "counts", "leads"];
const POWERS: readonly Power["measure"][] = ["share", "banzhaf", "prevent", "initiate", "swings"];
/** At 85 per cent a chair needs less than six times the votes of all others, which have at most 8 each. */
const [BOARDS, MOST_VOTES, HIGH] = [60, 8, 400];
const engine = new Engine();
const AT_ONCE = async () => {};
await engine.carryOut("module", readFileSync(process.env["MODULE"] ?? ""), AT_ONCE);

/** Whole numbers below a limit, drawn from a seed. */
function drawing(seed: number): (limit: number) => number {
  let state = seed;
  return (limit) => {
    state = (Math.imul(state, 1_103_515_245) + 12_345) & 0x7fffffff;
    return (state >> 8) % limit;
  };
}

/** A board with up to five chairs and eight members, of which some are suspended or in no chair. */
function drawn(draw: (limit: number) => number): { chairs: number; members: Seated[] } {
  const chairs = 1 + draw(5);
  const code = (at: number) => `AA${String.fromCharCode(65 + at)}`;
  const others = Array.from({ length: draw(8) }, (_, at): Seated => {
    return { code: code(at + 1), votes: draw(MOST_VOTES + 1), chair: draw(chairs + 1), suspended: draw(6) === 0 };
  });
  return { chairs, members: [{ code: "AAA", votes: draw(9), chair: 1, suspended: false }, ...others] };
}

function scriptOf({ chairs, members }: ReturnType<typeof drawn>): string {
  const opens = Array.from({ length: chairs }, (_, at) => `open,${at + 1}`);
  const moves = members.filter((it) => it.chair).map((it) => `move,${it.code},${it.chair}`);
  const suspends = members.filter((it) => it.suspended).map((it) => `suspend,${it.code}`);
  const votes = members.map((it) => `${it.code},${it.votes}`);
  return `${["member,votes", ...votes, "script", ...opens, ...moves, ...suspends].join("\n")}\n`;
}

/** The winning coalitions, and the swings of all chairs, if what is varied has some votes, from the definitions. */
function countOf(board: ReturnType<typeof drawn>, who: Who, majority: Majority, votes: number): readonly number[] {
  const isVaried = (it: Seated) => (who.kind === "chair" ? it.chair === 1 : it.code === who.code);
  const fixed = board.members.filter((it) => !it.suspended && !isVaried(it));
  const sum = (some: readonly Seated[]) => some.reduce((all, it) => all + it.votes, 0);
  const weights = Array.from({ length: board.chairs }, (_, at) => {
    return sum(fixed.filter((it) => it.chair === at + 1)) + (at === 0 ? votes : 0);
  });
  return plainCount({ votes: weights, total: sum(fixed) + votes, majority });
}

/** Whether statements hold for chair 1 if what is varied has some votes. */
function truths(board: ReturnType<typeof drawn>, who: Who, other: number, majority: Majority, votes: number) {
  const [winning = 0, own = 0, ...rest] = countOf(board, who, majority, votes);
  const losing = 2 ** board.chairs - winning;
  return {
    prevents: winning > 0 && own === winning,
    carries: losing > 0 && own === losing,
    counts: own > 0,
    leads: own > (rest[other - 2] ?? 0),
  };
}

test("each threshold of small boards, by every number of votes", async () => {
  // Catches: a threshold that is one vote off, and a statement that holds, then doesn't, then holds again.
  const draw = drawing(20_261_128);
  let turned = 0;
  for (let number = 1; number <= BOARDS; number += 1) {
    const board = drawn(draw);
    const who: Who = number % 2 ? { kind: "member", code: "AAA" } : { kind: "chair", chair: 1 };
    const other = 2 + draw(4);
    const questions = MAJORITIES.flatMap((majority) =>
      WHATS.map((what): Question => ({ majority, what, other, power: null, low: 0, high: HIGH })),
    );
    await engine.carryOut("base", { number, script: scriptOf(board) }, AT_ONCE);
    const { turns } = await engine.carryOut("turns", { base: number, changes: [], who, questions }, AT_ONCE);
    for (const majority of MAJORITIES) {
      const all = Array.from({ length: HIGH + 1 }, (_, votes) => truths(board, who, other, majority, votes));
      for (const what of WHATS) {
        const first = all.findIndex((it) => it[what]);
        const about = `${what} at ${majority}, ${JSON.stringify(board)}`;
        if (first >= 0) assert.ok(all.slice(first).every((it) => it[what]), `${about} ends to hold`);
        const turn = turns[questions.findIndex((it) => it.majority === majority && it.what === what)];
        const wanted = { isAtLow: first === 0, votes: first > 0 ? first : null };
        assert.deepEqual({ isAtLow: turn?.isAtLow, votes: turn?.votes }, wanted, about);
        turned += Number(first > 0);
      }
    }
  }
  assert.ok(turned > 300, String(turned));
});

/** Whether chair 1 has a power, by a measure's definition. */
function hasPower({ measure, least }: Power, [winning = 0, own = 0, ...rest]: readonly number[], chairs: number) {
  const all = rest.reduce((sum, it) => sum + it, own);
  const [over, under] = {
    share: [100 * own, all], banzhaf: [own, 2 ** (chairs - 1)], prevent: [own, winning],
    initiate: [own, 2 ** chairs - winning], swings: [own, 1], ratio: [0, 0],
  }[measure];
  return under! > 0 && over! >= Number(least) * under!;
}

/** The votes of chairs beside which the share of power of the first one falls at 85 per cent, while its votes grow. */
const FALLING = [[7, 7, 10, 1, 12], [2, 3, 11, 12, 5, 2], [10, 1, 8, 4, 12, 7], [10, 7, 11, 3, 3, 9]];

/** A board of chairs with one member each, beside the first. */
function fallingBoard(others: readonly number[]): ReturnType<typeof drawn> {
  const member = (at: number, votes: number): Seated => {
    return { code: `AA${String.fromCharCode(65 + at)}`, votes, chair: at + 1, suspended: false };
  };
  return { chairs: others.length + 1, members: [1, ...others].map((votes, at) => member(at, votes)) };
}

/** Finds the votes from which chair 1 has a power, and keeps it, and tries every number of votes. */
async function checkPower(board: ReturnType<typeof drawn>, number: number, powers: readonly Power[]): Promise<number> {
  const who: Who = { kind: "chair", chair: 1 };
  const questions = MAJORITIES.flatMap((majority) => powers.flatMap((power) =>
    (["reaches", "keeps"] as const).map((what): Question => {
      return { majority, what, other: null, power, low: 0, high: HIGH };
    })));
  await engine.carryOut("base", { number, script: scriptOf(board) }, AT_ONCE);
  const { turns } = await engine.carryOut("turns", { base: number, changes: [], who, questions }, AT_ONCE);
  const counts = new Map(MAJORITIES.map((majority) =>
    [majority, Array.from({ length: HIGH + 1 }, (_, votes) => countOf(board, who, majority, votes))]));
  let fell = 0;
  for (const [at, { majority, what, power }] of questions.entries()) {
    const all = (counts.get(majority) ?? []).map((it) => power !== null && hasPower(power, it, board.chairs));
    const [first, last] = [all.indexOf(true), all.lastIndexOf(false)];
    const from = what === "reaches" ? first : last === HIGH ? -1 : last + 1;
    const { isAtLow, votes } = turns[at] ?? {};
    const about = `${what} ${JSON.stringify(power)} at ${majority}, ${JSON.stringify(board)}`;
    assert.deepEqual({ isAtLow, votes }, { isAtLow: from === 0, votes: from > 0 ? from : null }, about);
    fell += Number(what === "keeps" && first >= 0 && first < last);
  }
  return fell;
}

test("the votes with a power, by every number of votes", async () => {
  // Catches: a power that is one vote off, of another measure, or above which there is one that is less.
  const draw = drawing(20_261_201);
  for (let number = 101; number <= 100 + BOARDS; number += 1) {
    const leasts = { share: String(10 + draw(60)), swings: String(1 + draw(6)) };
    const powers = POWERS.map((measure): Power => {
      return { measure, least: measure === "share" || measure === "swings" ? leasts[measure] : `0.${1 + draw(9)}` };
    });
    await checkPower(drawn(draw), number, powers);
  }
});

test("a share of power that falls while votes grow", async () => {
  // Catches: a share that falls again and is said to be kept, and a fall between two counts that is missed.
  const powers = Array.from({ length: 60 }, (_, at): Power => ({ measure: "share", least: String(20 + at / 4) }));
  const falls = [];
  for (const [at, others] of FALLING.entries()) falls.push(await checkPower(fallingBoard(others), 301 + at, powers));
  assert.ok(falls.every((it) => it > 0), String(falls));
});
