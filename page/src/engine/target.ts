/** What is varied in a sweep or for a threshold: the votes of a member, or of a chair's members in proportion. */
import type { Register } from "../../../bindings/javascript/src/register";
import { NO_PROPORTIONS } from "../cited";
import { totalOf } from "./amount";
import type { Command, Who } from "../study/study";

/** The reason why votes can't be varied. */
export class BadSweep extends Error {}

/** A member whose votes are varied. */
export interface Voter {
  readonly code: string;
  readonly votes: number;
}

/** Whether votes can be shared out among members: one alone gets all, but several need votes for their proportions. */
export function hasProportions(members: readonly Voter[]): boolean {
  return members.length === 1 || members.some((it) => it.votes > 0);
}

/** Shares out votes among members in the proportions that they have, with the largest remainders first. */
export function sharedOut(votes: number, members: readonly Voter[]): Command[] {
  // One member without votes gets all, as from a single vote.
  const weights = members.map((it) => BigInt(members.length === 1 ? 1 : it.votes));
  const sum = weights.reduce((all, it) => all + it, 0n);
  const parts = weights.map((it) => (BigInt(votes) * it) / sum);
  const rests = weights.map((it, at) => BigInt(votes) * it - (parts[at] ?? 0n) * sum);
  const order = members.map((_, at) => at).sort(
    (left, right) => Number((rests[right] ?? 0n) - (rests[left] ?? 0n)) || left - right,
  );
  const missing = BigInt(votes) - parts.reduce((all, it) => all + it, 0n);
  const raised = new Set(order.slice(0, Number(missing)));
  return members.map(({ code }, at) => {
    return { kind: "votes", code, votes: Number(parts[at]) + (raised.has(at) ? 1 : 0) };
  });
}

/** What is varied: its votes, those of all others in the total, its chair, and the commands for some votes. */
export interface Target {
  readonly votes: number;
  readonly rest: number;
  readonly chair: number;
  commands(votes: number): Command[];
}

/** The members whose votes are varied, and their chair. */
function votersOf(register: Register, who: Who): { own: readonly Voter[]; chair: number } {
  const { members } = register;
  if (who.kind === "chair") {
    const seated = Object.entries(members).map(([code, it]) => ({ code, ...it }));
    const own = seated.filter((it) => it.chair === who.chair && !it.suspended);
    if (!own.length) throw new BadSweep(`chair ${who.chair} has no member whose votes count`);
    if (!hasProportions(own)) throw new BadSweep(NO_PROPORTIONS);
    return { own, chair: who.chair };
  }
  const { code } = who;
  const place = members[code];
  if (!place) throw new BadSweep(`no member has the code ${code}`);
  if (place.suspended) throw new BadSweep(`${code} is suspended, so it has no share of the total voting power`);
  if (place.chair === null) throw new BadSweep(`${code} sits in no chair`);
  return { own: [{ code, votes: place.votes }], chair: place.chair };
}

export function targetOf(register: Register, who: Who): Target {
  const { own, chair } = votersOf(register, who);
  const votes = own.reduce((sum, it) => sum + it.votes, 0);
  return { votes, rest: totalOf(register) - votes, chair, commands: (many) => sharedOut(many, own) };
}

/** Gives the target some votes. Members that have them already stay as they are. */
export function give(register: Register, commands: readonly Command[]): void {
  for (const it of commands) {
    const refused = register.attempt(it);
    if (refused) throw refused;
  }
}
