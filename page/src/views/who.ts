/** The list of chairs and members whose votes can be varied. */
import type { Shown } from "./app";
import { memberWords } from "../study/commandWords";
import { isolated } from "../study/names";
import type { Standing } from "../engine/standing";
import type { SweepAsked, Who } from "../study/study";

/** The members and chairs of the base, or of the changed board. */
export function standingOn({ counted }: Shown, on: SweepAsked["on"]): Standing {
  return on === "base" ? counted.opening : counted.standing;
}

/** Open chairs with their names, as options of a list. */
export function chairOptions(standing: Standing): [string, string][] {
  return standing.open().map((it) => [String(it), `chair ${it} ${isolated(standing.name(it))}`]);
}

/** Open chairs and members, as options of a list. */
export function whoOptions(standing: Standing): [string, string][] {
  const members = standing.members().map((it): [string, string] => [it.code, memberWords(it.code, it.name)]);
  return [...chairOptions(standing), ...members];
}

/** The option of a chair or a member. */
export function whoKey(who: Who): string {
  return who.kind === "chair" ? String(who.chair) : who.code;
}

/** The chair or the member of an option. */
export function whoOf(key: string): Who {
  return /^\d+$/.test(key) ? { kind: "chair", chair: Number(key) } : { kind: "member", code: key };
}

/** A chair or a member, or the first open chair if the board hasn't it. */
export function whoThere(standing: Standing, who: Who): Who {
  const isThere = who.kind === "chair" ? standing.open().includes(who.chair) : standing.place(who.code) !== undefined;
  const [first] = standing.open();
  return isThere || first === undefined ? who : { kind: "chair", chair: first };
}
