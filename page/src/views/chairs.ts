/** The list of chairs, each with its marks and numbers; open, it shows its members as chips that can be dragged. */
import type { App, Shown } from "./app";
import { button, byId, h, type Child } from "./dom";
import { keepFocus } from "./focus";
import { counted, grouped } from "../study/fractions";
import { hasGains, type Line } from "../engine/columns";
import { memberWords } from "../study/commandWords";
import { closedChair, type Place } from "../engine/standing";
import { namesChair, namesMember } from "./filter";
import type { CardPlace } from "./moves";
import { patch } from "./patch";
import { withAdded, type Tab } from "../study/study";
import { KIND_WORDS, rowWords } from "./chairTable";
import { openChairName } from "./chairName";
import { openMember } from "./member";
import { operationButtons } from "./operations";
import {
  gridOf, headOf, lastRow, lineWords, listOf, numbersOf, plotOf, tagElements, tipOf, votesOf, widthsOf, type List,
} from "./rows";
import { openThresholds } from "./thresholds";
import { hideTip, showTip } from "./tip";

function chip(app: App, place: Place): HTMLElement {
  const words = memberWords(place.code, place.name);
  const votes = grouped(place.votes);
  const state = place.suspended ? ", suspended" : "";
  return h(
    "button",
    {
      type: "button",
      id: `chip-${place.code}`,
      class: place.suspended ? "chip suspended" : "chip",
      "data-code": place.code,
      "aria-label": `${words}, ${votes} votes${state}`,
      "aria-haspopup": "dialog",
      "aria-describedby": "chip-help",
      "aria-pressed": app.open.carried?.code === place.code ? "true" : null,
    },
    h("span", {}, place.name ? [`${place.code} `, h("bdi", {}, place.name)] : place.code),
    h("span", { class: "number" }, place.suspended ? `(${votes})` : votes),
  );
}

/** A chair, the members in none, or a chair that could be opened. */
interface Card {
  readonly place: CardPlace;
  /** The number of its chair and a name; or other words. */
  readonly title: Child;
  /** Its line in the chart, or words instead of one. */
  readonly line: Line | null;
  readonly words: string;
  readonly members: readonly Place[];
  /** Its buttons, which are made once it is open. */
  readonly tail: (() => Child) | null;
  /** Whether the filter names the chair itself. */
  readonly isNamed: boolean;
}

/** A card and the members in it that the filter finds. */
interface Found extends Card {
  readonly found: readonly Place[];
}

function isFiltered(app: App): boolean {
  return app.open.filter.trim() !== "";
}

/** Whether the filter names a chair, by its number or its given name. */
function isNamed(app: App, chair: number): boolean {
  return isFiltered(app) && namesChair(app.open.filter, chair, app.shown?.counted.standing.given(chair));
}

/** The card with the members that the filter finds: all of a chair that it names. */
function withFound(app: App, card: Card): Found {
  const isAll = !isFiltered(app) || card.isNamed;
  return { ...card, found: card.members.filter((it) => isAll || namesMember(app.open.filter, it.code, it.name)) };
}

/** Whether the filter finds the card or a member in it. */
function isHit({ found, isNamed }: Found): boolean {
  return isNamed || found.length > 0;
}

/** The place of the row of a line: its chair's number, or its key if its chair is closed. */
function placeOf({ counted }: Shown, { chair, key, kind }: Line): CardPlace {
  return kind === "closed" || !counted.standing.open().includes(chair) ? `closed ${key}` : String(chair);
}

/** Shows the numbers of a row beside a point of the window. */
function tipAt(app: App, head: HTMLElement, x: number, y: number): void {
  const { shown } = app;
  const place = head.parentElement?.dataset["place"];
  const list = shown && listOf(app, shown);
  const line = list?.columns.lines.find((it) => placeOf(shown as Shown, it) === place);
  if (list && line) showTip(`chair ${place}`, () => tipOf(line, list), x, y);
  else hideTip();
}

/** Shows the numbers of the row under the pointer, or of the row where the keyboard is. */
function listenTip(app: App, list: HTMLElement): void {
  const headOf = (event: Event) => (event.target as Element).closest<HTMLElement>(".card-head");
  list.addEventListener("pointermove", (event) => {
    const head = headOf(event);
    const isHidden = event.pointerType === "touch" || document.body.classList.contains("dragging");
    if (!head || isHidden) hideTip();
    else tipAt(app, head, event.clientX, event.clientY);
  });
  list.addEventListener("focusin", (event) => {
    const head = headOf(event);
    if (!head?.matches(":focus-visible")) return;
    const { left, width, bottom } = head.getBoundingClientRect();
    tipAt(app, head, left + width * 0.62, bottom - 12);
  });
  for (const kind of ["pointerleave", "focusout"]) list.addEventListener(kind, hideTip);
  list.addEventListener("keydown", (event) => event.key === "Escape" && hideTip());
}

/** Opens a row, or closes it. */
function toggle(app: App, place: CardPlace): void {
  const { cards } = app.open;
  if (!cards.delete(place)) cards.add(place);
  hideTip();
  paintChairs(app);
}

/** Listens to the rows: a click opens one, or the menu of a member. */
export function listenChairs(app: App): void {
  const list = byId("cards");
  listenTip(app, list);
  list.addEventListener("click", (event) => {
    const found = (event.target as Element).closest<HTMLElement>(".chip, button.card-head");
    const { code } = found?.dataset ?? {};
    if (code) openMember(app, code);
    else if (found) toggle(app, found.parentElement?.dataset["place"] ?? "");
  });
}

/** The head of a card: a button that opens it, or a line while a filter decides what is open. */
function headElement(app: App, card: Card, isOpen: boolean, list: List): HTMLElement {
  const { line } = card;
  const parts = [
    h("span", { class: "who" }, h("span", { class: "card-title" }, card.title), line && tagElements(lastRow(line))),
    line ? [votesOf(line, list), plotOf(line, list), numbersOf(line, list)] : h("span", { class: "rest" }, card.words),
  ];
  const attributes = { id: `card-${card.place}`, class: "card-head row" };
  if (isFiltered(app) || (card.members.length === 0 && (card.tail === null || card.line === null))) {
    return h("div", attributes, parts);
  }
  const name = line ? lineWords(line, list) : null;
  return h("button", { type: "button", ...attributes, "aria-expanded": String(isOpen), "aria-label": name }, parts);
}

/** The exact fractions of an open chair, on request. */
function fractions(line: Line, { columns, view }: List): HTMLElement {
  return h("details", { class: "fractions" },
    h("summary", {}, "Exact fractions"), h("ul", {}, rowWords(line, columns, view)));
}

function cardElement(app: App, card: Found, list: List): HTMLElement {
  const isLine = isFiltered(app) && !isHit(card);
  const isEmpty = card.members.length === 0 && card.line === null;
  const isAsked = app.open.cards.has(card.place) && (card.found.length > 0 || card.members.length === 0);
  const isOpen = !isEmpty && (isAsked || (isFiltered(app) && isHit(card)));
  const hasTail = card.tail !== null && (isOpen || (isEmpty && !isLine));
  const aimed = app.open.carried?.place === card.place ? " aimed" : "";
  return h(
    "li",
    { class: `card${isLine ? " line" : ""}${aimed}`, "data-place": card.place, "data-key": card.place },
    headElement(app, card, isOpen, list),
    (isOpen || hasTail) && h("div", { class: "inside" },
      isOpen && h("ul", { class: "chips" }, card.found.map((it) => h("li", {}, chip(app, it)))),
      hasTail && h("div", { class: "buttons" }, card.tail?.() ?? null),
      isOpen && card.line && fractions(card.line, list),
    ),
  );
}

/** The buttons of a chair's card: its name, and closing it if it's empty, else its thresholds and operations. */
function chairButtons(app: App, chair: number, isEmpty: boolean): Child {
  const close = () => app.take(withAdded(app.study, [{ kind: "close", chair }]));
  const find = () => openThresholds(app, { kind: "chair", chair });
  return [
    button("Name this chair…", () => openChairName(app, chair), { id: `name-${chair}` }),
    ...isEmpty ? [button("Close this chair", close, { id: `close-${chair}` })] : [
      button("Find thresholds…", find, { id: `find-${chair}` }),
      operationButtons(app, chair),
    ],
  ];
}

function chairCard(app: App, shown: Shown, line: Line): Card {
  const { chair, name, kind } = line;
  const place = placeOf(shown, line);
  const isClosed = place !== String(chair);
  const members = isClosed ? [] : shown.counted.standing.in(chair);
  return {
    place,
    title: [h("span", { class: "chair-number" }, String(chair)), " ", h("bdi", {}, name), KIND_WORDS[kind]],
    line,
    words: "",
    members,
    tail: isClosed ? null : () => chairButtons(app, chair, members.length === 0),
    isNamed: !isClosed && isNamed(app, chair),
  };
}

/** The card of the members in no chair. */
function noneCard(members: readonly Place[]): Card {
  const words = counted(members.length, "member");
  return { place: "none", title: "In no chair", line: null, words, members, tail: null, isNamed: false };
}

/** The card of a chair that is opened when a member comes to it. */
function newCard(chair: number): Card {
  return { place: "new", title: `New chair ${chair}`, line: null, words: "", members: [], tail: null, isNamed: false };
}

/** Opens the next chair. */
export function openNext(app: App): void {
  const chair = closedChair(app.shown?.counted.standing.open() ?? []);
  if (chair !== null) app.take(withAdded(app.study, [{ kind: "open", chair }]));
}

function cardsOf(app: App, shown: Shown, { columns }: List): Card[] {
  const { standing } = shown.counted;
  const next = closedChair(standing.open());
  const cards = [...columns.lines.map((it) => chairCard(app, shown, it)), noneCard(standing.in(null))];
  return next === null ? cards : [...cards, newCard(next)];
}

/** Whether the tab that is shown is the list of chairs. */
export function isList(tab: Tab): boolean {
  return tab === "power" || tab === "change";
}

/** Paints the cards. A filter brings the cards in which it finds members to the top; the others are still targets. */
export function paintChairs(app: App): void {
  if (!app.shown) return;
  const place = byId("chairs");
  const isSame = app.view.tab === "change" && !hasGains(app, app.shown);
  place.hidden = !isList(app.view.tab) || isSame || app.open.isPrinting;
  if (place.hidden) return;
  const shownList = listOf(app, app.shown);
  byId("open-new").hidden = closedChair(app.shown.counted.standing.open()) === null;
  const [wide, narrow] = widthsOf(shownList);
  place.style.setProperty("--wide", wide);
  place.style.setProperty("--narrow", narrow);
  place.dataset["columns"] = shownList.columns.isOne ? "one" : "many";
  place.dataset["changed"] = String(shownList.isChanged);
  patch(byId("list-columns"), headOf(app, shownList));
  patch(byId("grid"), gridOf(shownList));
  const cards = cardsOf(app, app.shown, shownList).map((it) => withFound(app, it));
  const hits = cards.filter(isHit);
  const inOrder = isFiltered(app) ? [...hits, ...cards.filter((it) => !isHit(it))] : cards;
  const list = byId("cards");
  keepFocus(list, () => byId("filter"), () => patch(list, inOrder.map((it) => cardElement(app, it, shownList))));
  const isNone = isFiltered(app) && hits.length === 0;
  byId("filter-words").textContent = isNone ? "No member and no open chair has this code, name or number." : "";
}
