/** Changes as commands of the register, worked out when they are carried out: all of a change's commands, or none. */
import { Refused } from "../../../bindings/javascript/src/refused";
import type { Register } from "../../../bindings/javascript/src/register";
import { MEMBER_VOTES } from "../../../bindings/javascript/src/names";
import { NO_PROPORTIONS } from "../cited";
import { shareVotes, steppedVotes, totalOf, votesAsked, votesCommand } from "./amount";
import type { Outcome, Refusal } from "./orders";
import { closedChair, type Seat } from "./standing";
import {
  isOperation, type Change, type Command, type Dissolve, type Join, type Merge, type Scale, type Share, type Split,
  type What,
} from "../study/study";
import { decimalRatio, nearest, reduced, sum, type Ratio } from "../study/fractions";
import { MOST_CHAIRS } from "../study/words";
import { hasProportions, sharedOut, type Voter } from "./target";

export const OFF: Outcome = { kind: "off" };

/** The commands of a change on a register, or why there are none. */
type Commands = readonly Command[] | string;

/** All members of a chair move, and it is closed. The register doesn't say that an empty chair goes nowhere. */
function emptied(register: Register, { chair, to }: Merge | Dissolve): Commands {
  if (chair === to) return `chair ${chair} can't be merged into itself`;
  const { chairs } = register;
  const codes = chairs[chair] ?? [];
  if (codes.length === 0 && to !== null && !chairs[to]) return `chair ${to} is not open`;
  return [...codes.map((code) => ({ kind: "move", code, chair: to }) as const), { kind: "close", chair }];
}

/** A chair is opened, and members move there. */
function splitOff(register: Register, { codes, to }: Split): Commands {
  const chair = to === "lowest" ? closedChair(Object.keys(register.chairs).map(Number)) : to;
  if (chair === null) return `all ${MOST_CHAIRS} chairs are open`;
  return [{ kind: "open", chair }, ...codes.map((code) => ({ kind: "move", code, chair }) as const)];
}

/** The members whose votes change, or why there are none. */
function scaledCodes(register: Register, of: Scale["of"]): readonly string[] | string {
  if (typeof of !== "number") return of;
  const codes = register.chairs[of];
  if (!codes) return `chair ${of} is not open`;
  return codes.length ? codes : `chair ${of} has no member`;
}

/** The votes of each member are changed by per cent, each rounded on its own. Suspended members have votes, too. */
function scaled(register: Register, { of, percent }: Scale): Commands {
  const codes = scaledCodes(register, of);
  if (typeof codes === "string") return codes;
  const { members } = register;
  const commands: Command[] = [];
  for (const code of codes) {
    const member = members[code];
    if (!member) return `no member has the code ${code}`;
    const command = votesCommand(code, steppedVotes(member.votes, percent));
    if (typeof command === "string") return `${code}: ${command}`;
    commands.push(command);
  }
  return commands;
}

/** The votes of some members of a register, in order; a text says which of them isn't there or is suspended. */
function votersOf(register: Register, codes: readonly string[]): Voter[] | string {
  const { members } = register;
  const missing = codes.find((it) => !members[it]);
  if (missing) return `no member has the code ${missing}`;
  const suspended = codes.find((it) => members[it]?.suspended);
  if (suspended) return `${suspended} is suspended, so it has no share of the total voting power`;
  return codes.map((code) => ({ code, votes: members[code]?.votes ?? 0 }));
}

const sumOf = (voters: readonly Voter[]): number => voters.reduce((sum, it) => sum + it.votes, 0);

/** The share that is asked for: per cent of the total, or points more than the members have of it. */
function shareAsked(percent: string, own: number, total: number): Ratio {
  const size = decimalRatio(percent.replace(/^[+-]/, ""));
  if (!/^[+-]/.test(percent)) return size;
  const now = { numerator: 100n * BigInt(own), denominator: BigInt(total) };
  const step = { ...size, numerator: percent.startsWith("-") ? -size.numerator : size.numerator };
  return sum([now, step]);
}

/** Votes for members, as commands; those that keep their votes have none. */
function given(votes: number, voters: readonly Voter[]): Commands {
  const parts = sharedOut(votes, voters);
  const high = parts.find((it) => (it.votes ?? 0) > MEMBER_VOTES);
  if (high) return `${high.code}: ${high.votes} votes, which is not from 0 to 2^40`;
  return parts.filter((it, at) => it.votes !== voters[at]?.votes);
}

/** Members get a share of the total; what they gain is added to it, or taken from all others in proportion. */
function shared(register: Register, { codes, percent, others }: Share): Commands {
  const own = votersOf(register, codes);
  if (typeof own === "string") return own;
  if (!hasProportions(own)) return NO_PROPORTIONS;
  const total = totalOf(register);
  const unit = /^[+-]/.test(percent) ? "points more" : "per cent";
  const words = `no number of votes is ${percent} ${unit} of the total voting power`;
  if (total === 0) return words;
  const asked = shareAsked(percent, sumOf(own), total);
  if (asked.numerator < 0n || asked.numerator >= 100n * asked.denominator) return words;
  const exact = others === "keep" ? shareVotes(asked, total - sumOf(own))
    : reduced(asked.numerator * BigInt(total), 100n * asked.denominator);
  if (!exact) return words;
  const votes = Number(nearest(exact));
  const gets = given(votes, own);
  if (others === "keep" || typeof gets === "string") return gets;
  const rest = Object.entries(register.members).flatMap(([code, it]) =>
    it.suspended || codes.includes(code) ? [] : [{ code, votes: it.votes }]);
  if (!hasProportions(rest)) return "the others have no votes to pay with";
  const pays = given(total - votes, rest);
  return typeof pays === "string" ? pays : [...gets, ...pays];
}

/** Members move to a chair or to none, except those that are there. */
function joined({ members }: Register, { codes, to }: Join): Commands {
  const moving = codes.filter((code) => members[code]?.chair !== to);
  if (!moving.length) return to === null ? "these members are in no chair" : `these members are in chair ${to} already`;
  return moving.map((code) => ({ kind: "move", code, chair: to }));
}

function commandsOf(register: Register, what: What): Commands {
  if (what.kind === "percent") {
    const command = votesAsked(register, what);
    return typeof command === "string" ? command : [command];
  }
  if (!isOperation(what)) return [what];
  switch (what.kind) {
    case "merge":
    case "dissolve":
      return emptied(register, what);
    case "split":
      return splitOff(register, what);
    case "scale":
      return scaled(register, what);
    case "share":
      return shared(register, what);
    case "move":
      return joined(register, what);
  }
}

/** The members of commands, as the register has them. */
function seatsOf(register: Register, commands: readonly Command[]): Seat[] {
  const { members } = register;
  return commands.flatMap(({ code }): Seat[] => {
    const member = members[code ?? ""];
    return code && member ? [{ code, ...member }] : [];
  });
}

/** Carries out commands, all of them or none; its refusal of one of them, or null. */
function refusalOf(register: Register, commands: readonly Command[]): Omit<Refusal, "commands"> | null {
  try {
    register.submit(commands);
    return null;
  } catch (why) {
    const refused = why instanceof Refused ? commands[(why.record ?? 0) - 1] : undefined;
    if (!(why instanceof Refused) || !refused) throw why;
    return { kind: "refused", refused, number: why.number, name: why.code };
  }
}

/** The outcome of a change on a register, which then has it, or is as before. */
export function outcomeOf(register: Register, { on, what }: Change): Outcome {
  if (!on) return OFF;
  const commands = commandsOf(register, what);
  if (typeof commands === "string") return { kind: "impossible", why: commands };
  const before = seatsOf(register, commands);
  const refusal = refusalOf(register, commands);
  if (!refusal) return { kind: "accepted", commands, before };
  return { ...refusal, commands: isOperation(what) ? [] : commands };
}
