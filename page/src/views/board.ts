/** The figures of the readings for the board as a whole. */
import type { App } from "./app";
import { byId, h, type Child } from "./dom";
import { fractionText, grouped, nearest, over, percent } from "../study/fractions";
import { patch } from "./patch";
import type { Reading, Readings } from "../engine/reading";
import { MAJORITY } from "../study/words";
import { markOf, SHORT } from "./rows";

/** A quantity of the board: its words, where it comes from, and its text in a reading. */
interface Quantity {
  readonly words: string;
  readonly source: string;
  readonly title?: string;
  of(reading: Reading): string;
}

function whole(words: string, of: (reading: Reading) => number, title?: string): Quantity {
  return { words, source: "counted", of: (it) => grouped(of(it)), ...title ? { title } : {} };
}

/** What all majorities have in common. */
const COMMON: readonly Quantity[] = [
  whole("Open chairs", (it) => it.chairs.length),
  whole("Total votes", (it) => it.total),
  whole("Votes cast", (it) => it.cast),
  whole("Coalitions", (it) => it.coalitions),
];
const OWN: readonly Quantity[] = [
  whole("Quota", (it) => it.quota, "the least number of votes that wins"),
  whole("Winning", (it) => it.winning, "winning coalitions"),
];

/** The power to act in per cent, with enough places for two significant digits. */
function actText({ act }: Reading, digits: number): string {
  if (!act) return "-";
  if (act.numerator * 100n >= act.denominator) return `${percent(act, digits)} %`;
  const places = [0, 1, 2, 3, 4, 6, 8, 10].find((it) => it >= digits && /[1-9]\d?$/.test(percent(act, it)) &&
    percent(act, it).replace(/^0\.0*/, "").replace(".", "").length > 1) ?? digits;
  return `${percent(act, places)} %`;
}

/** A small chance as one in n. */
function oneIn({ act }: Reading): string {
  if (!act || act.numerator === 0n || act.numerator * 10n > act.denominator) return "";
  const many = over(Number(act.denominator), Number(act.numerator));
  return many ? `1 in ${grouped(nearest(many))}` : "";
}

/** A cell: what is now, and under it what was in the base, if that is different. */
function cellOf(now: string, before: string, title: string, ...more: Child[]): HTMLElement {
  return h("td", { title }, now, more, now === before ? null : h("small", {}, `was ${before}`));
}

/** A row of majorities' cells. Where there is no room beside more than two of them, its words stand above. */
function rowOf({ words, title }: { words: string; title?: string }, cells: readonly HTMLElement[]): Child {
  const isAbove = cells.length > 2;
  const attributes = { class: "text", title, scope: isAbove ? "rowgroup" : "row", colspan: isAbove ? cells.length : 1 };
  const head = h("th", attributes, words);
  return isAbove ? h("tbody", {}, h("tr", { class: "above" }, head), h("tr", {}, cells))
    : h("tbody", {}, h("tr", {}, head, cells));
}

/** Quantities as rows, and majorities as columns. */
function table(before: Readings, after: Readings, digits: number): HTMLElement {
  const all = [...before].flatMap(([it, was]) => {
    const now = after.get(it);
    return now ? [{ majority: it, now, was }] : [];
  });
  const [first] = all;
  // A row of words and one value takes as many columns as the rows of majorities below it.
  const common = first && COMMON.map((it) => {
    const [now, was] = [it.of(first.now), it.of(first.was)];
    const words = now === was ? now : `${was} → ${now}`;
    const span = Math.max(1, all.length - Number(all.length > 2));
    return h("tr", {}, h("th", { scope: "row", class: "text" }, it.words),
      h("td", { title: it.source, colspan: span }, words));
  });
  const heads = all.map(({ majority }) => {
    const words = SHORT[majority].replace(" ", "\u00a0");
    return h("th", { scope: "col", title: MAJORITY[majority].label }, markOf(majority), words);
  });
  const own = OWN.map((it) => rowOf(it, all.map(({ now, was }) => cellOf(it.of(now), it.of(was), it.source))));
  const act = all.map(({ now, was }) => {
    const title = `${fractionText(now.act)} (counted: WINNING of COALITIONS)`;
    const small = oneIn(now);
    return cellOf(actText(now, digits), actText(was, digits), title, small ? h("small", {}, small) : null);
  });
  return h("table", { id: "board-table" },
    h("tbody", {}, common ?? null),
    h("tbody", {}, h("tr", { class: "heads" }, all.length > 2 ? null : h("td", {}), heads)),
    own,
    rowOf({ words: "Power to act", title: "winning coalitions of all coalitions" }, act),
  );
}

const WORDS = [
  "A coalition is a set of open chairs. It wins if its votes reach the quota, and for the quorum also its chairs are " +
    "more than half of the open ones.",
  "Power to act: the winning coalitions over all coalitions (Coleman 1971), the chance that a decision passes if " +
    "each chair is for or against it with the same chance.",
];

export function paintBoard(app: App): void {
  if (!app.shown) return;
  const { before, after } = app.shown.counted;
  patch(byId("board"), table(before, after, app.view.digits));
  patch(byId("board-words"), WORDS.map((it) => h("p", { class: "note" }, it)));
}
