/** Votes asked for in per cent, from what the register says of its members. */
import { MEMBER_VOTES } from "../../../bindings/javascript/src/names";
import type { Register } from "../../../bindings/javascript/src/register";
import { decimalRatio, nearest, reduced, type Ratio } from "../study/fractions";
import type { Command, Percentage } from "../study/study";

/** The total voting power: the votes of all members that aren't suspended. */
export function totalOf(register: Register): number {
  return Object.values(register.members).reduce((sum, it) => sum + (it.suspended ? 0 : it.votes), 0);
}

/** The votes for a share of the total voting power: p/(100-p) of the votes of all others. */
export function shareVotes(percent: Ratio, rest: number): Ratio | null {
  const left = 100n * percent.denominator - percent.numerator;
  if (left <= 0n || rest === 0) return null;
  return reduced(percent.numerator * BigInt(rest), left);
}

/** A member's votes, plus or minus per cent of them. */
export function steppedVotes(votes: number, percent: string): Ratio {
  const size = decimalRatio(percent.replace(/^[+-]/, ""));
  const all = 100n * size.denominator + (percent.startsWith("-") ? -size.numerator : size.numerator);
  return reduced(all * BigInt(votes), 100n * size.denominator);
}

/** A command that gives a member votes, rounded once to whole ones, half to even; or why it can't be one. */
export function votesCommand(code: string, exact: Ratio): Command | string {
  const votes = nearest(exact);
  if (votes < 0n || votes > BigInt(MEMBER_VOTES)) return `${votes} votes, which is not from 0 to 2^40`;
  return { kind: "votes", code, votes: Number(votes) };
}

/** The exact votes that a percentage asks for, or why there are none. */
function asked(register: Register, { of, code, percent }: Percentage): Ratio | string {
  const member = register.members[code];
  if (!member) return `no member has the code ${code}`;
  if (of === "own") return steppedVotes(member.votes, percent);
  if (member.suspended) return `${code} is suspended, so it has no share of the total voting power`;
  const votes = shareVotes(decimalRatio(percent), totalOf(register) - member.votes);
  return votes ?? `no number of votes is ${percent} per cent of the total voting power`;
}

/** A percentage as a command, or why it can't be one. */
export function votesAsked(register: Register, what: Percentage): Command | string {
  const exact = asked(register, what);
  return typeof exact === "string" ? exact : votesCommand(what.code, exact);
}
