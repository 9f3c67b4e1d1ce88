/** Single moves: each member is moved to each of some chairs where it isn't, and moved back. */
import type { Register } from "../../../bindings/javascript/src/register";
import { apart, compared, difference, reduced, ZERO, type Quotient, type Ratio } from "../study/fractions";
import type { Extreme, Orders, Progress, Tried } from "./orders";
import { measureIn } from "./reading";

type Values = ReadonlyMap<number, Ratio | null>;

/** The greatest gain of any chair, or with -1 the greatest loss, and all chairs that have it. */
function extreme(gains: ReadonlyMap<number, Quotient>, sign: 1 | -1): Extreme | null {
  let found: { chairs: number[]; gain: Quotient } | null = null;
  for (const [chair, gain] of gains) {
    if (gain.numerator === 0n || gain.numerator > 0n !== sign > 0) continue;
    const order = found ? sign * compared(gain, found.gain) : 1;
    if (order > 0) found = { chairs: [chair], gain };
    else if (order === 0) found?.chairs.push(chair);
  }
  return found && { ...found, gain: kept(found.gain) };
}

const kept = ({ numerator, denominator }: Quotient): Ratio => reduced(numerator, denominator);

/** What a move gave; null where it or the board before it has no value, since no coalition wins. */
function triedOf(code: string, chair: number, before: Values, after: Values): Tried | null {
  const gains = new Map<number, Quotient>();
  for (const [at, value] of after) {
    const own = before.get(at);
    if (value && own) gains.set(at, apart(value, own));
  }
  const [value, gain] = [after.get(chair), gains.get(chair)];
  if (!value || !gain) return null;
  return { code, chair, value, gain: kept(gain), most: extreme(gains, 1), least: extreme(gains, -1) };
}

/** The moves of an order on a register, which it changes: each member, in each chair in order. */
export async function triedMoves(
  register: Register,
  { codes, chairs, majority, measure }: Orders["best"]["ask"],
  progress: Progress,
): Promise<Tried[]> {
  const values = (): Values => {
    const found = register.indices(majority);
    return new Map(found.chairs.map((it) => [it.chair, measureIn(found, it, measure)]));
  };
  const { members } = register;
  const before = values();
  const own = (code: string) => members[code]?.chair ?? null;
  const moves = codes.flatMap((code) => chairs.filter((it) => it !== own(code)).map((to) => [code, to] as const));
  const tried: Tried[] = [];
  for (const [at, [code, chair]] of moves.entries()) {
    await progress(at / moves.length);
    register.move(code, chair);
    const found = triedOf(code, chair, before, values());
    register.move(code, own(code));
    if (found) tried.push(found);
  }
  return tried;
}

/** The greatest change of any chair by a move, a gain or a loss. */
export function changeOf({ most, least }: Tried): Ratio {
  const [gain, loss] = [most?.gain ?? ZERO, difference(ZERO, least?.gain ?? ZERO) ?? ZERO];
  return compared(gain, loss) < 0 ? loss : gain;
}

/** Moves in order: the greatest first, and equal ones in the order in which they were tried. */
export function ranked(tried: readonly Tried[], of: (it: Tried) => Ratio): Tried[] {
  const keyed = tried.map((it) => ({ it, key: of(it) }));
  return keyed.sort((left, right) => compared(right.key, left.key)).map(({ it }) => it);
}
