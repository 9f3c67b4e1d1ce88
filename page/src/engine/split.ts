/** Long orders, split into parts for several workers: sweeps, thresholds without a range, and single moves. */
import { MEMBER_VOTES } from "../../../bindings/javascript/src/names";
import type { ThresholdsAsked } from "./count";
import { compared, over, ZERO } from "../study/fractions";
import type { Board, Interval, Orders, Point, Question, Statement, Swept, Threshold, Tried, Turns } from "./orders";
import { unpacked } from "./packed";
import { inSteps, type Ask, type Boards, type Report, type Task } from "./pool";
import type { SweepAsked } from "../study/study";
import { valuesOf } from "./sweep";
import { holds } from "./turns";
import type { Majority } from "../study/words";

/** The parts of a long order at most: many more than workers, so that all of them end at about the same time. */
const MOST_PARTS = 64;
/** A base with a longer script isn't split: each worker would read it, and each part copy its register. */
const LONG_SCRIPT = 262_144;

/** A base, and a board on it. */
export interface Place {
  readonly base: Ask<"base">;
  readonly board: Board;
}

/** A list of things in intervals of about the same length. */
function intervals(many: number, { base }: Place): Interval[] {
  const parts = Math.min(many, base.script.length > LONG_SCRIPT ? 1 : MOST_PARTS);
  const start = (at: number) => Math.floor((at * many) / parts);
  return Array.from({ length: parts }, (_, at) => ({ from: start(at), to: start(at + 1) }));
}

const OF_SWEEPS: readonly Statement[] = ["prevents", "carries", "counts"];
/** A statement on the chair alone. */
const ALONE = { other: null, power: null };

/** The neighbours among the points of a sweep between which statements turn. */
function questionsOf(points: readonly Point[], chair: number, majorities: readonly Majority[]): Question[] {
  const asked = majorities.flatMap((majority, at) => OF_SWEEPS.map((what) => ({ majority, what, at })));
  return asked.flatMap(({ majority, what, at }) => {
    const isTrue = (it: Point) => holds(it.readings[at], chair, { what, ...ALONE });
    return points.slice(1).flatMap((after, place): Question[] => {
      const before = points[place];
      if (!before || isTrue(before) === isTrue(after)) return [];
      return [{ majority, what, ...ALONE, low: before.votes, high: after.votes }];
    });
  });
}

/** The thresholds that were found, by votes. */
function thresholdsOf(questions: readonly Question[], found: readonly Turns[]): Threshold[] {
  const all = questions.flatMap(({ majority, what }, at): Threshold[] => {
    const { rest = 0, turns: [turn] = [] } = found[at] ?? {};
    if (!turn || turn.votes === null) return [];
    return [{ majority, what, isFrom: !turn.isAtLow, votes: turn.votes, share: over(turn.votes, turn.votes + rest) }];
  });
  return all.sort((left, right) => left.votes - right.votes || compared(left.share ?? ZERO, right.share ?? ZERO));
}

/** Counts a sweep: its points, then its thresholds. */
export function sweepOver(
  boards: Boards,
  place: Place,
  majorities: readonly Majority[],
  asked: SweepAsked,
  report: Report,
): Task<Swept> {
  const { base, board } = place;
  return inSteps(async (step) => {
    const begun = performance.now();
    const pieces = intervals(valuesOf(asked).length, place).map((it) => ({ ...board, majorities, asked, ...it }));
    const parts = await step(boards.spread("sweep", base, pieces, report));
    const points = parts.flatMap((it) => it.points).map((it) => ({ ...it, readings: unpacked(it.readings) }));
    const { chair = 0, rest = 0 } = parts[0] ?? {};
    const questions = questionsOf(points, chair, majorities);
    const orders = questions.map((it) => ({ ...board, who: asked.who, questions: [it] }));
    const thresholds = thresholdsOf(questions, await step(boards.spread("turns", base, orders)));
    return { chair, rest, points, thresholds, milliseconds: performance.now() - begun, desks: boards.desks };
  });
}

/** All votes that a member may have. */
const ANY_VOTES = { low: 0, high: MEMBER_VOTES };

/** What is asked of a chair at a majority, also of another chair and of a power if that is asked for. */
function questionsAt(majority: Majority, { other, power }: ThresholdsAsked): Question[] {
  const ask = (what: Statement, of: Partial<Question> = {}): Question => {
    return { majority, what, ...ALONE, ...ANY_VOTES, ...of };
  };
  return [
    ...OF_SWEEPS.map((it) => ask(it)),
    ...other === null ? [] : [ask("leads", { other })],
    ...power ? [ask("reaches", { power }), ask("keeps", { power })] : [],
  ];
}

/** Finds where each statement begins to hold, from no votes to the most of a member, for each majority. */
export function thresholdsOver(
  boards: Boards,
  { base, board }: Place,
  majorities: readonly Majority[],
  asked: ThresholdsAsked,
  report: Report,
): Task<{ readonly questions: readonly Question[]; readonly found: Turns }> {
  const each = majorities.map((it) => questionsAt(it, asked));
  return inSteps(async (step) => {
    const orders = each.map((questions) => ({ ...board, who: asked.who, questions }));
    const all = await step(boards.spread("turns", base, orders, report));
    const [first] = all;
    if (!first) throw new Error("no majority is shown");
    return { questions: each.flat(), found: { ...first, turns: all.flatMap((it) => it.turns) } };
  });
}

/** Tries single moves of some members to some chairs. */
export function movesOver(
  boards: Boards,
  place: Place,
  ask: Omit<Orders["best"]["ask"], keyof Board>,
  report: Report,
): Task<readonly Tried[]> {
  const parts = intervals(ask.codes.length, place).map(({ from, to }) => {
    return { ...place.board, ...ask, codes: ask.codes.slice(from, to) };
  });
  const { answer, cancel } = boards.spread("best", place.base, parts, report);
  return { answer: answer.then((all) => all.flat()), cancel };
}
