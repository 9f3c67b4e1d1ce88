/** The list of changes in the order carried out, each with old and new; it can be switched off, moved and removed. */
import { percentage, wholeNumber, type Typed } from "../study/amounts";
import type { App } from "./app";
import { changeWords, refusalWords } from "../study/commandWords";
import { button, byId, h, type Child } from "./dom";
import { keepFocus, setDisabled } from "./focus";
import { listed } from "../study/names";
import { operationDetails } from "../study/operationWords";
import { patch } from "./patch";
import {
  isOperation, withAdded, withChanges, type Change, type Percentage, type Scale, type Study,
} from "../study/study";
import { MOST_VOTES } from "../study/words";
import { readField, type Field } from "./field";

function set(app: App, changes: readonly Change[], gesture = ""): void {
  app.take(withChanges(app.study, changes), gesture);
}

function moved(app: App, id: number, by: number): void {
  const list = [...app.study.changes];
  const at = list.findIndex((it) => it.id === id);
  const [one] = list.splice(at, 1);
  if (one) list.splice(at + by, 0, one);
  set(app, list);
}

function replaced(app: App, id: number, part: Partial<Change>, gesture = ""): void {
  set(app, app.study.changes.map((it) => (it.id === id ? { ...it, ...part } : it)), gesture);
}

/** A change of votes, of one member or of several in per cent. */
type Votes = Percentage | Scale | { readonly kind: "votes"; readonly code: string; readonly votes: number };

/** The number of a change of votes, as its box shows it. */
function numberText(what: Votes): string {
  return what.kind === "votes" ? String(what.votes) : what.percent;
}

/** Whether a percentage is added or taken away. */
function isStep(what: Percentage | Scale): boolean {
  return what.kind === "scale" || what.of === "own";
}

/** The change with the number of its slider. */
function slid(what: Votes, value: number): Votes {
  if (what.kind === "votes") return { ...what, votes: value };
  const plain = value.toFixed(9).replace(/\.?0+$/, "");
  return { ...what, percent: isStep(what) && value >= 0 ? `+${plain.replace("-", "")}` : plain };
}

/** The change with the number typed into its box, or why it has none. */
function typed(what: Votes, text: string): Typed<Votes> {
  if (what.kind === "votes") {
    const found = wholeNumber(text, MOST_VOTES);
    return "wrong" in found ? found : { value: { ...what, votes: found.value } };
  }
  const found = percentage(text, isStep(what) ? "step" : "share");
  return "wrong" in found ? found : { value: { ...what, percent: found.value } };
}

/** The change of votes with a number in a study, or null if there is none. */
function votesIn({ changes }: Study, id: number): Votes | null {
  const what = changes.find((it) => it.id === id)?.what;
  if (what?.kind === "percent" || what?.kind === "scale") return what;
  return what?.kind === "votes" ? { kind: "votes", code: what.code ?? "", votes: what.votes ?? 0 } : null;
}

/** The range of a slider, its present number, and the text of its box. */
interface Range {
  readonly min: number;
  readonly max: number;
  readonly step: number;
  readonly value: string;
  readonly text: string;
}

/** A number, doubled until it is at least another one. */
function doubled(number: number, least: number): number {
  return number < least ? doubled(2 * number, least) : number;
}

/** The range has room for the number. It stays while the slider moves: then the number before that counts. */
function rangeOf(app: App, id: number): Range | null {
  const what = votesIn(app.study, id);
  if (!what) return null;
  const text = numberText(what);
  const value = String(Number(text));
  const size = Math.abs(Number(numberText(votesIn(app.history.resting, id) ?? what)));
  if (what.kind !== "votes") {
    const [min, most] = isStep(what) ? [-100, 100] : [0, 50];
    return { min, max: doubled(most, size), step: 0.1, value, text };
  }
  const outcome = app.shown?.counted.outcomes.get(id);
  const before = outcome?.kind === "accepted" ? outcome.before[0]?.votes ?? 0 : 0;
  return { min: 0, max: Math.min(MOST_VOTES, doubled(2 * Math.max(before, 50), size)), step: 1, value, text };
}

/** The box for the number of a change of votes: its text is read when it is left, or at Enter. */
function numberBox(app: App, id: number, value: string, label: string): Field<Votes> {
  const read = (text: string): Typed<Votes> => {
    const what = votesIn(app.study, id);
    return what ? typed(what, text) : { wrong: "This change is no longer in the list." };
  };
  const onchange = () => {
    const what = field.check();
    if (what && numberText(what) !== numberText(votesIn(app.study, id) ?? what)) replaced(app, id, { what });
  };
  const attributes = { value, inputmode: "decimal", "aria-label": label, live: true, onchange };
  const field = readField(`number-${id}`, "", read, attributes);
  return field;
}

/** A slider and a number box for the votes of a change. */
function slider(app: App, id: number, words: string): Child {
  const found = rangeOf(app, id);
  if (!found) return null;
  const { min, max, step, value, text } = found;
  const box = numberBox(app, id, text, `Number: ${words}`);
  const slide = () => {
    const present = votesIn(app.study, id);
    if (present) replaced(app, id, { what: slid(present, Number(range.value)) }, `slide-${id}`);
  };
  const rest = () => app.history.rest();
  const range: HTMLInputElement = h("input", {
    type: "range", id: `slide-${id}`, min, max, step, value, "aria-label": `Slider: ${words}`, live: true,
    oninput: slide, onchange: rest,
  });
  return h("div", {}, h("span", { class: "slider" }, range, box.input), box.wrong);
}

/** The buttons of an item. */
function actsOf(app: App, id: number, words: string, at: number, many: number): HTMLElement[] {
  const remove = () => set(app, app.study.changes.filter((it) => it.id !== id));
  const act = (sign: string, what: string, name: string, run: () => void, disabled: boolean) =>
    button(sign, run, { id: `${name}-${id}`, class: "quiet", title: what, "aria-label": `${what}: ${words}`, disabled,
      live: true });
  return [
    ...many === 1 ? [] : [
      act("↑", "Move up", "up", () => moved(app, id, -1), at === 0),
      act("↓", "Move down", "down", () => moved(app, id, 1), at === many - 1),
    ],
    act("✕", "Remove", "remove", remove, false),
  ];
}

function itemOf(app: App, change: Change, at: number, many: number): HTMLElement {
  const { id, what } = change;
  const { outcomes, opening } = app.shown?.counted ?? {};
  const outcome = outcomes?.get(id);
  const words = opening ? changeWords(change, outcome, opening) : "";
  const title = opening && isOperation(what) ? operationDetails(what, outcome, opening) : "";
  const toggle = () => replaced(app, id, { on: tick.checked });
  const tick: HTMLInputElement = h("input", {
    type: "checkbox", id: `on-${id}`, checked: change.on, live: true, onchange: toggle,
  });
  const refusal = refusalWords(outcome, opening);
  return h("li", { class: "change", "data-id": id, "data-key": id, "data-state": outcome?.kind ?? "off" },
    h("div", { class: "change-head" },
      h("label", { class: "change-words" }, tick, h("span", { id: `words-${id}`, title }, words)),
      h("span", { class: "change-buttons" }, actsOf(app, id, words, at, many)),
    ),
    refusal && h("p", { class: "refusal" }, refusal),
    slider(app, id, words),
  );
}

/** Paints the items. If the focused control goes, another one of its change has the focus, or else of the next one. */
function paintItems(app: App): void {
  const { changes } = app.study;
  const list = byId("changes");
  const at = [...list.children].findIndex((it) => it.contains(document.activeElement));
  const id = list.children[at]?.getAttribute("data-id");
  const heir = () => {
    const control = list.querySelector<HTMLElement>(`[data-id="${id}"] button:enabled`);
    return control ?? list.children[at]?.querySelector<HTMLElement>("[id^=remove-]") ?? byId("changes-title");
  };
  keepFocus(list, heir, () => patch(list, changes.map((it, place) => itemOf(app, it, place, changes.length))));
}

/** The chairs that have lost all members by changes, and are open. */
function emptied({ shown }: App): number[] {
  if (!shown) return [];
  const { opening, standing } = shown.counted;
  return standing.open().filter((it) => !standing.in(it).length && opening.in(it).length);
}

/** Says which chairs the changes have emptied, with a button that closes them. */
function emptiedWords(app: App): Child {
  const chairs = emptied(app);
  if (!chairs.length) return null;
  const isOne = chairs.length === 1;
  const which = isOne ? `Chair ${chairs[0]} has` : `Chairs ${listed(chairs.map(String))} have`;
  const close = () => app.take(withAdded(app.study, emptied(app).map((chair) => ({ kind: "close", chair }))));
  return [`${which} no member now, and still ${isOne ? "counts" : "count"} as open for the quorum. `,
    button(isOne ? "Close it" : "Close them", close, { id: "close-emptied", live: true })];
}

/** Paints the list of changes, and the choices made when the table was read. */
export function paintChanges(app: App): void {
  const { changes, base } = app.study;
  paintItems(app);
  byId("no-changes").hidden = changes.length > 0;
  byId("changes-title").textContent = changes.length ? `Changes (${changes.length})` : "Changes";
  patch(byId("emptied"), emptiedWords(app));
  setDisabled(byId("clear-changes"), changes.length === 0, byId("changes-title"));
  byId("clear-changes").hidden = changes.length < 2;
  const choices = byId("choices");
  patch(choices, base.choices.map((it) => h("li", {}, it)));
  // It can be scrolled by keyboard.
  choices.tabIndex = base.choices.length ? 0 : -1;
}
