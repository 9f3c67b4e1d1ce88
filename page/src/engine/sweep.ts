/** Sweeps: a member's or a chair's votes from one value to another, each point counted by the register. */
import { MEMBER_VOTES } from "../../../bindings/javascript/src/names";
import type { Register } from "../../../bindings/javascript/src/register";
import { shareVotes } from "./amount";
import { decimalRatio, nearest } from "../study/fractions";
import type { Orders, PackedPoint, Progress, SweptPart } from "./orders";
import { packed } from "./packed";
import { countsOf } from "./reading";
import type { SweepAsked } from "../study/study";
import { BadSweep, give, targetOf } from "./target";

const MOST_POINTS = 1001;

/** The values from the first to the last, exactly. */
export function valuesOf({ from, to, by }: SweepAsked): string[] {
  const places = Math.max(0, ...[from, to, by].map((it) => it.split(".")[1]?.length ?? 0));
  const units = (text: string) => nearest(decimalRatio(text), 10n ** BigInt(places));
  const [first, last, step] = [units(from), units(to), units(by)];
  if (step <= 0n) throw new BadSweep("the step is 0");
  if (last <= first) throw new BadSweep(`the last value, ${to}, isn't greater than the first one, ${from}`);
  const over = (last - first) % step;
  if (over !== 0n) {
    const near = [last - over, last - over + step].map((it) => plain(it, places));
    throw new BadSweep(`steps of ${by} from ${from} lead to ${near[0]} and ${near[1]}, not to ${to}`);
  }
  const count = (last - first) / step + 1n;
  if (count > BigInt(MOST_POINTS)) throw new BadSweep(`that is ${count} points, where ${MOST_POINTS} are the most`);
  return Array.from({ length: Number(count) }, (_, at) => plain(first + step * BigInt(at), places));
}

function plain(units: bigint, places: number): string {
  if (places === 0) return units.toString();
  const text = units.toString().padStart(places + 1, "0");
  return `${text.slice(0, -places)}.${text.slice(-places)}`.replace(/\.?0+$/, "");
}

function votesAt(value: string, unit: "votes" | "percent", rest: number): number {
  const exact = unit === "votes" ? decimalRatio(value) : shareVotes(decimalRatio(value), rest);
  if (!exact) throw new BadSweep(`no number of votes is ${value} per cent of the total voting power`);
  const votes = nearest(exact);
  if (votes > BigInt(MEMBER_VOTES)) throw new BadSweep(`${votes} votes, which is not from 0 to 2^40`);
  return Number(votes);
}

/** Counts points of a sweep over a register, which it changes. */
export async function sweptPart(
  register: Register,
  { majorities, asked, from, to }: Orders["sweep"]["ask"],
  progress: Progress,
): Promise<SweptPart> {
  const { chair, rest, commands } = targetOf(register, asked.who);
  const points: PackedPoint[] = [];
  for (const value of valuesOf(asked).slice(from, to)) {
    await progress(points.length / (to - from));
    const votes = votesAt(value, asked.unit, rest);
    const given = commands(votes);
    give(register, given);
    points.push({ value, votes, commands: given, readings: packed(countsOf(register, majorities)) });
  }
  return { chair, rest, points };
}

/** The text of a sweep in board-study's form: `XAA 10..20 by 0.5 %`. */
export function sweepText({ who, unit, from, to, by }: SweepAsked): string {
  const name = who.kind === "member" ? who.code : `chair ${who.chair}`;
  return `${name} ${from}..${to} by ${by}${unit === "percent" ? " %" : " votes"}`;
}
