/** Operations in words: what they do, and with old and new values once they are carried out. */
import type { Outcome } from "../engine/orders";
import { counted, grouped } from "./fractions";
import { listed, memberWords } from "./names";
import type { Seat, Standing } from "../engine/standing";
import type { Command, Operation, Scale } from "./study";

/** The commands of an accepted operation, and its members before it. */
interface Done {
  readonly commands: readonly Command[];
  readonly before: readonly Seat[];
}

function doneOf(outcome: Outcome | undefined): Done | null {
  return outcome?.kind === "accepted" ? outcome : null;
}

const who = (names: Standing) => (code: string) => memberWords(code, names.memberName(code));

/** The members that moved, in parentheses. */
function movedWords(done: Done | null, names: Standing): string {
  if (!done) return "";
  const members = done.before.map(({ code }) => who(names)(code));
  return members.length ? ` (${counted(members.length, "member")}: ${listed(members)})` : " (it had no member)";
}

/** Each member with old and new votes. */
function votesWords({ commands, before }: Done, names: Standing): string[] {
  return before.map(({ code, votes }, at) => {
    return `${who(names)(code)} ${grouped(votes)} → ${grouped(commands[at]?.votes ?? 0)}`;
  });
}

/** The members that get a share, with old and new votes. */
function ownVotes(codes: readonly string[], done: Done, names: Standing): string {
  const words = votesWords(done, names).filter((_, at) => codes.includes(done.before[at]?.code ?? ""));
  return words.length ? listed(words) : "they have it already";
}

/** The chair that all members left, in words, or nothing if they left several. */
function splitFrom(before: readonly Seat[]): string {
  const chairs = [...new Set(before.map((it) => it.chair))];
  const [chair] = chairs;
  return chairs.length === 1 && typeof chair === "number" ? `Chair ${chair} is split: ` : "";
}

/** The members whose votes change; those that are listed after it are only counted. */
function scaledWords(of: Scale["of"], isListed: boolean, names: Standing): string {
  if (typeof of === "number") return `Each member of chair ${of}`;
  return isListed ? counted(of.length, "member") : listed(of.map(who(names)));
}

/** An operation in words. */
export function operationWords(what: Operation, outcome: Outcome | undefined, names: Standing): string {
  const done = doneOf(outcome);
  switch (what.kind) {
    case "merge":
      return `Chair ${what.chair} is merged into chair ${what.to}${movedWords(done, names)}`;
    case "dissolve": {
      const target = what.to === null ? "no chair" : `chair ${what.to}`;
      return `Chair ${what.chair} is dissolved, and its members go to ${target}${movedWords(done, names)}`;
    }
    case "split": {
      const chair = done?.commands[0]?.chair ?? (what.to === "lowest" ? "" : what.to);
      const target = chair === "" ? "a new chair" : `new chair ${chair}`;
      return `${splitFrom(done?.before ?? [])}${listed(what.codes.map(who(names)))} → ${target}`;
    }
    case "share": {
      const isMore = /^[+-]/.test(what.percent);
      const share = `${what.percent} ${isMore ? "percentage points" : "%"} of the total`;
      const members = done ? counted(what.codes.length, "member") : listed(what.codes.map(who(names)));
      const pays = what.others === "pay" ? "the others pay in proportion" : "the others keep their votes";
      return `${members}: ${share}, ${pays}${done ? ` (${ownVotes(what.codes, done, names)})` : ""}`;
    }
    case "move": {
      const target = what.to === null ? "no chair" : `chair ${what.to}`;
      return `${listed(what.codes.map(who(names)))} → ${target}`;
    }
    case "scale": {
      const votes = `votes ${what.percent} %${done ? ` (${listed(votesWords(done, names))})` : ""}`;
      return `${scaledWords(what.of, done !== null, names)}: ${votes}`;
    }
  }
}

/** All members of an accepted operation, in words; empty without one. */
export function operationDetails(what: Operation, outcome: Outcome | undefined, names: Standing): string {
  const done = doneOf(outcome);
  if (!done) return "";
  const changesVotes = what.kind === "scale" || what.kind === "share";
  return (changesVotes ? votesWords(done, names) : done.before.map(({ code }) => who(names)(code))).join("; ");
}
