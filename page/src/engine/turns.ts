/** Statements on a chair, and the votes at which they begin or end to hold. Each step is counted. */
import type { Register } from "../../../bindings/javascript/src/register";
import { turnAwayFrom, type Counts } from "./falls";
import type { Orders, Power, Progress, Question, Turn, Turns } from "./orders";
import { packed, unpacked } from "./packed";
import { chairIn, countsOf, measureOf, type Reading, type ReadingOf } from "./reading";
import { give, targetOf, type Target } from "./target";
import { compared, decimalRatio, reduced, type Ratio } from "../study/fractions";
import type { Majority } from "../study/words";

/*
 * Each statement but one on a share of power, once it holds, holds for all greater numbers of votes of one chair while
 * all other votes stay: the quota rises more slowly than the chair's votes, so a coalition with the chair that wins
 * goes on winning, and one without it that loses goes on losing. So no coalition without the chair wins any more, no
 * swing of the chair ends, its swings over the winning coalitions or over the losing ones don't fall, and its swings
 * less those of another chair, twice the number of sets of third chairs that win with it less twice the number of those
 * that win with the other one, only grow. These turn once, and bisection finds where.
 *
 * A share of power may fall with more votes, since the swings of others may grow faster: falls.ts finds its turns.
 */

type Asked = Pick<Question, "what" | "other" | "power">;

/** The least power that is asked for, as a fraction. */
function leastOf({ measure, least }: Power): Ratio {
  const { numerator, denominator } = decimalRatio(least);
  return measure === "share" ? reduced(numerator, 100n * denominator) : { numerator, denominator };
}

/** Whether a statement holds for a chair. */
export function holds(reading: Reading | undefined, own: number, { what, other, power }: Asked): boolean {
  const chair = chairIn(reading, own);
  if (!chair) return false;
  if (what === "counts") return chair.swings > 0;
  if (what === "leads") return chair.swings > (chairIn(reading, other ?? own)?.swings ?? 0);
  if (power) {
    const value = measureOf(chair, power.measure);
    return value !== null && compared(value, leastOf(power)) >= 0;
  }
  const ratio = measureOf(chair, what === "prevents" ? "prevent" : "initiate");
  return ratio !== null && ratio.numerator === ratio.denominator;
}

type Read = (majority: Majority, votes: number) => ReadingOf | undefined;

/** Readings of a register with some votes of a target; each is counted once. */
function reader(register: Register, target: Target): Read {
  const read = new Map<string, ReadingOf | undefined>();
  return (majority, votes) => {
    const key = `${majority} ${votes}`;
    if (!read.has(key)) {
      give(register, target.commands(votes));
      read.set(key, unpacked(packed(countsOf(register, [majority])))[0]);
    }
    return read.get(key);
  };
}

/** The least votes from which the answer to a question that turns once is otherwise; null if it is always the same. */
async function bisected(
  { low, high }: Question,
  isTrue: (votes: number) => boolean,
  progress: Progress,
): Promise<number | null> {
  if (isTrue(low) === isTrue(high)) return null;
  let [below, above] = [low, high];
  while (above - below > 1) {
    await progress(1 - Math.log2(above - below) / Math.log2(high - low));
    const middle = Math.floor((below + above) / 2);
    if (isTrue(middle) === isTrue(low)) below = middle;
    else above = middle;
  }
  return above;
}

/** The least votes with a share of power, or those from which no number of votes is without it; null if that is so at
 * all votes, or not even at the most. */
async function ofShare(question: Question, { chair }: Target, read: Read, progress: Progress): Promise<number | null> {
  const { what, low, high, majority, power } = question;
  const counts = (votes: number): Counts => {
    const reading = read(majority, votes);
    const own = chairIn(reading, chair)?.swings ?? 0;
    return { votes, own, all: reading?.swings ?? 0, chairs: Math.log2(reading?.coalitions ?? 1) };
  };
  const isKept = what === "keeps";
  const [near, far] = isKept ? [high, low] : [low, high];
  if (!power || holds(read(majority, near), chair, question) !== isKept) return null;
  const found = await turnAwayFrom(counts(near), counts(far), leastOf(power), counts, progress);
  return found === null ? null : found + Number(isKept);
}

/** Where the answer to a question turns: it is asked at both of two neighbours. */
async function turnOf(question: Question, target: Target, read: Read, progress: Progress): Promise<Turn> {
  const { majority, what, low, high } = question;
  const isTrue = (votes: number) => holds(read(majority, votes), target.chair, question);
  const isShare = question.power?.measure === "share";
  const votes = await (isShare ? ofShare(question, target, read, progress) : bisected(question, isTrue, progress));
  // What is kept from some votes on may hold below them, too.
  const isAtLow = what === "keeps" ? votes === null && isTrue(high) : isTrue(low);
  return { isAtLow, votes, commands: votes === null ? [] : [target.commands(votes - 1), target.commands(votes)] };
}

/** Where statements turn over a register, which it changes. */
export async function turnsOf(
  register: Register,
  { who, questions }: Orders["turns"]["ask"],
  progress: Progress,
): Promise<Turns> {
  const target = targetOf(register, who);
  const read = reader(register, target);
  const turns: Turn[] = [];
  for (const it of questions) {
    const part: Progress = (done) => progress((turns.length + done) / questions.length);
    await part(0);
    turns.push(await turnOf(it, target, read, part));
  }
  const { chair, rest, votes } = target;
  return { chair, rest, votes, turns };
}
