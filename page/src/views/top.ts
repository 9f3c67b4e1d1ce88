/** The top bar: the study's name, its summary, and whether all checks passed. */
import { wholeNumber } from "../study/amounts";
import type { App, Shown } from "./app";
import type { Counted } from "../engine/count";
import { byId, h, paint } from "./dom";
import { setDisabled } from "./focus";
import { counted, grouped } from "../study/fractions";
import { SHORT_HASH, VERSION } from "../study/made";
import { memberWords } from "../study/commandWords";
import { isolated } from "../study/names";
import { showValue } from "./patch";
import type { Place } from "../engine/standing";
import type { Study } from "../study/study";
import { MOST_MEMBERS, MOST_VOTES, reasonOf } from "../study/words";
import { Refusal } from "../engine/problem";
import { mark } from "./field";

/** If there are more names than this, only the cards of chairs show them. */
const MOST_NAMES = 12;
/** The most votes that all members can have together. */
const MOST_TOTAL = MOST_MEMBERS * MOST_VOTES;

function namesOf(places: readonly Place[]): string {
  const names = places.slice(0, MOST_NAMES).map((it) => memberWords(it.code, it.name));
  return names.join(", ") + (places.length > MOST_NAMES ? ` and ${places.length - MOST_NAMES} more` : "");
}

/** A number of things, and from which to which it has changed. */
function fromTo(before: number, after: number, thing: string): string {
  return before === after ? counted(after, thing) : `${grouped(before)} → ${counted(after, thing)}`;
}

/** What to do next, for who closed the card for a first visit. */
const NEXT = "Paste or open the Fund's table of Directors";

/** Members, chairs, votes, members in none and suspended ones, in one line. The totals are the readings'. */
function summaryOf({ opening, standing, before, after }: Counted, hint: string): string {
  const members = standing.members();
  const none = standing.in(null);
  const suspended = members.filter((it) => it.suspended);
  const [was] = before.values();
  const [now] = after.values();
  return [
    fromTo(opening.members().length, members.length, "member"),
    fromTo(opening.open().length, standing.open().length, "chair"),
    fromTo(was?.total ?? 0, now?.total ?? 0, "vote"),
    none.length ? `in no chair: ${namesOf(none)}` : "every member is in a chair",
    ...(suspended.length ? [`suspended: ${namesOf(suspended)}`] : []),
    ...(hint ? [hint] : []),
  ].join(" · ");
}

function publishedWords(study: Study, total: number): string {
  if (study.published === null) return "";
  const gap = total - study.published;
  if (gap === 0) return "the votes add up to the published total";
  return `the votes add up to ${grouped(total)}: ${grouped(Math.abs(gap))} ${gap > 0 ? "more" : "fewer"}`;
}

function faultWords(why: Error): string {
  if (!(why instanceof Refusal)) return `The page can't go on: ${why.message}`;
  const place = why.record ? ` at record ${why.record}` : "";
  return `The run ended in a fault${place}: ${why.name}, ${reasonOf(why.name)}.`;
}

function previousWords(shown: Shown | null): string {
  return `The figures are those of ${shown ? isolated(shown.study.name) : "no study"} before.`;
}

/** Paints Undo and Redo: when one of them has nothing left to do, the other has its focus. */
function paintHistory({ history }: App): void {
  const [undo, redo] = [byId<HTMLButtonElement>("undo"), byId<HTMLButtonElement>("redo")];
  if (history.canUndo) undo.disabled = false;
  if (history.canRedo) redo.disabled = false;
  setDisabled(undo, !history.canUndo, redo);
  setDisabled(redo, !history.canRedo, undo);
}

/** Reads the published total when it is typed; an empty field has none. */
export function listenPublished(app: App): void {
  const [field, wrong] = [byId<HTMLInputElement>("published"), byId("published-wrong")];
  const take = (published: number | null) => {
    if (published !== app.study.published) app.take({ ...app.study, published });
  };
  field.addEventListener("input", () => mark(field, wrong, ""));
  field.addEventListener("change", () => {
    const found = wholeNumber(field.value, MOST_TOTAL);
    if (field.value.trim() === "") take(null);
    else if ("value" in found) take(found.value);
    else mark(field, wrong, found.wrong);
  });
}

/** Paints the top bar. */
export function paintTop(app: App): void {
  const { shown, study, fault } = app;
  paint(byId("study-name"), h("bdi", {}, study.name));
  const title = `${app.isUnsaved ? "• " : ""}${isolated(study.name)} · voting power`;
  if (document.title !== title) document.title = title;
  paintHistory(app);
  byId("fault").textContent = fault ? `${faultWords(fault)} ${previousWords(shown)}` : app.trouble;
  showValue(byId<HTMLInputElement>("published"), study.published === null ? "" : grouped(study.published));
  byId("welcome").hidden = !app.isExample || app.open.isWelcomed;
  byId("paste").classList.toggle("primary", app.isExample && !app.open.isWelcomed);
  if (!shown) return;
  const [before] = shown.counted.before.values();
  const source = "votes: counted, TOTAL; members and chairs: those of the register";
  const hint = app.isExample && app.open.isWelcomed ? NEXT : "";
  paint(byId("summary"), h("span", { title: source }, summaryOf(shown.counted, hint)));
  byId("published-words").textContent = publishedWords(shown.study, before?.total ?? 0);
  const checked = app.isOwnModule ? "module checked" : "MODULE CHANGED";
  byId("seal").textContent = `counted by board ${VERSION} (${SHORT_HASH}), ${checked}`;
  byId("seal").classList.toggle("wrong", !app.isOwnModule);
}
