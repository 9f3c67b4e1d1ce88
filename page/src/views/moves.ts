/** Moves of a member: to a chair, to none, or to a new chair, which is opened first. */
import type { App } from "./app";
import { memberWords, refusalWords } from "../study/commandWords";
import { byId } from "./dom";
import { isolated } from "../study/names";
import type { Outcome } from "../engine/orders";
import { closedChair, type Place } from "../engine/standing";
import { withAdded, type Command, type Study } from "../study/study";

/** The place of a card: a chair's number, `none` or `new`. */
export type CardPlace = string;

/** Tells screen readers a sentence. */
export function say(words: string): void {
  byId("live").textContent = words;
}

/** A member by code and name. */
export function who(app: App, code: string): string {
  return memberWords(code, app.shown?.counted.standing.memberName(code));
}

/** The place of a member in words. */
function where(app: App, chair: number | null): string {
  if (chair === null || !app.shown) return "no chair";
  return `chair ${chair} ${isolated(app.shown.counted.standing.name(chair))}`;
}

/** The outcome of the last change of a study, once it is counted; null if the page has another study by then. */
export async function lastOutcome(app: App, study: Study): Promise<Outcome | null | undefined> {
  await app.counting;
  if (app.study !== study) return null;
  const change = study.changes[study.changes.length - 1];
  return app.shown?.study === study && change ? app.shown.counted.outcomes.get(change.id) : undefined;
}

/** Says what the register made of a move, the last change of a study. */
async function sayOutcome(app: App, study: Study, place: Place, chair: number | null): Promise<void> {
  const outcome = await lastOutcome(app, study);
  if (outcome === null) return;
  const who = memberWords(place.code, place.name);
  if (outcome?.kind === "accepted") say(`${who} is moved to ${where(app, chair)}.`);
  else say(`${who} isn't moved: ${refusalWords(outcome) || "the count ended in a fault"}.`);
}

/** Moves a member to the place of a card, and says what came out of it. On its own card nothing is changed. */
export async function moveTo(app: App, code: string, target: CardPlace): Promise<void> {
  const standing = app.shown?.counted.standing;
  const place = standing?.place(code);
  if (!standing || !place) return;
  const fresh = closedChair(standing.open());
  if (target === "new" && fresh === null) return;
  const chair = target === "none" ? null : target === "new" ? fresh : Number(target);
  if (chair === place.chair) return say(`${memberWords(code, place.name)} stays in ${where(app, chair)}.`);
  const opens: Command[] = target === "new" && fresh !== null ? [{ kind: "open", chair: fresh }] : [];
  app.open.cards.add(chair === null ? "none" : String(chair));
  const study = withAdded(app.study, [...opens, { kind: "move", code, chair }]);
  app.take(study);
  await sayOutcome(app, study, place, chair);
}
