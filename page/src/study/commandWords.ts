/** Changes in words: the effect of each one, with old and new values. */
import type { Outcome } from "../engine/orders";
import { grouped } from "./fractions";
import { chairWords, memberWords } from "./names";
import { operationWords } from "./operationWords";
import { recordOf } from "./script";
import type { Seat, Standing } from "../engine/standing";
import { isOperation, type Change, type Command } from "./study";
import { reasonOf } from "./words";

export { chairWords, memberWords };

/** The requested percentage, in words. */
function askedWords({ what }: Change): string {
  if (what.kind !== "percent") return "";
  return what.of === "own" ? ` (${what.percent} %)` : ` (${what.percent} % of the total)`;
}

function commandWords(
  command: Command,
  who: string,
  before: Seat | null,
): string {
  switch (command.kind) {
    case "open":
      return `Chair ${command.chair} is opened`;
    case "close":
      return `Chair ${command.chair} is closed`;
    case "move":
      return `${who}${before ? `: ${chairWords(before.chair)}` : ""} → ${chairWords(command.chair)}`;
    case "votes":
      return `${who}: ${before ? `${grouped(before.votes)} → ` : ""}${grouped(command.votes ?? 0)}`;
    case "suspend":
      return `${who} is suspended`;
    case "restore":
      return `${who} is restored`;
    case "admit":
      return `${who} is admitted with ${grouped(command.votes ?? 0)} votes`;
    case "withdraw":
      return `${who} withdraws`;
  }
}

/** A change in words, with its old and new values if it was accepted. */
export function changeWords(change: Change, outcome: Outcome | undefined, names: Standing): string {
  const { what } = change;
  if (isOperation(what)) return operationWords(what, outcome, names);
  const code = what.code ?? "";
  const name = change.name ?? names.memberName(code);
  const who = memberWords(code, name);
  const [command = what] = outcome && "commands" in outcome ? outcome.commands : [];
  if (command.kind === "percent") return `${who}: votes${askedWords(change)}`;
  const before = outcome?.kind === "accepted" ? outcome.before[0] ?? null : null;
  return commandWords(command, who, before) + askedWords(change);
}

/** Why a change wasn't carried out; empty if it was. Of an operation, it names the member or the chair. */
export function refusalWords(outcome: Outcome | undefined, names?: Standing): string {
  if (outcome?.kind === "impossible") {
    return outcome.why.replace(/^[A-Z]{3}\b/, (code) => memberWords(code, names?.memberName(code)));
  }
  if (outcome?.kind !== "refused") return "";
  const { commands, refused, number, name } = outcome;
  const words = `refused ${number} ${name}: ${reasonOf(name)} (${recordOf(refused)})`;
  if (commands.length > 0) return words;
  const whose = refused.code ? memberWords(refused.code, names?.memberName(refused.code)) : chairWords(refused.chair);
  return `${whose}: ${words}; nothing of the operation was carried out`;
}
