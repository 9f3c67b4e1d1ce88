/** The figures in the middle: the choices above them, the sentences, and the chart or table of the tab. */
import type { App } from "./app";
import type { Look } from "../charts/charts";
import { drawGains, drawPower, type ChairModel } from "../charts/chairChart";
import { columnsOf, hasGains, type Columns } from "../engine/columns";
import { byId, choice, h, paint, type Child } from "./dom";
import { grouped } from "../study/fractions";
import { chairModel, screenLook } from "../charts/look";
import { patch } from "./patch";
import { chairTable } from "./chairTable";
import { tableBehind } from "./chartParts";
import { isList } from "./chairs";
import { paintCoalition } from "./coalition";
import { paintCurve } from "./curve";
import { isNarrow, markOf, namingChoice, SHORT } from "./rows";
import { paintSentences } from "./sentences";
import { MOST_STEPS } from "../engine/steps";
import {
  AGAINST, COLUMNS, ORDERS, TABS, THINGS, type Against, type ColumnsShown, type Order, type Tab, type Thing,
} from "../study/study";
import { MAJORITIES, MAJORITY, MEASURE, measureTitle, MEASURES, type Majority, type Measure } from "../study/words";

const ORDER_WORDS: Readonly<Record<Order, string>> = {
  number: "number",
  votes: "votes",
  power: "power",
  gain: "gain",
};

const COLUMN_WORDS: Readonly<Record<ColumnsShown, string>> = {
  changed: "base and changed",
  steps: "each change",
  scenarios: "each scenario",
};
const AGAINST_WORDS: Readonly<Record<Against, string>> = { base: "the base", before: "the column before" };

/** Shows a majority, or doesn't any more. The last one stays. */
function switchMajority(app: App, majority: Majority): void {
  const shown = app.view.majorities;
  const majorities = MAJORITIES.filter((it) => (it === majority) !== shown.includes(it));
  if (!majorities.length) return;
  const orderAt = majorities.includes(app.view.orderAt) ? app.view.orderAt : majorities[0] ?? "half";
  app.look({ majorities, orderAt });
}

/** The majorities as buttons that are pressed or not. */
function majorityButtons(app: App): HTMLElement {
  const { view } = app;
  const buttons = MAJORITIES.map((majority) => {
    const isOn = view.majorities.includes(majority);
    const words = [markOf(majority), SHORT[majority].replace(" %", "\u00a0%")];
    return h("button", {
      type: "button", id: `at-${majority}`, "aria-pressed": String(isOn), "aria-label": MAJORITY[majority].label,
      title: `${MAJORITY[majority].label}: ${MAJORITY[majority].rule}`, live: true,
      onclick: () => switchMajority(app, majority),
    }, words);
  });
  return h("span", { class: "segments", role: "group", "aria-label": "Majorities" }, buttons);
}

function paintChoices(app: App): void {
  const { view } = app;
  const measures = MEASURES.map((it): [string, string] => [it, MEASURE[it].label]);
  const digits = [0, 1, 2, 3, 4, 6, 8, 10].map((it): [string, string] => [String(it), String(it)]);
  const measure = choice("measure", "Measure", measures, view.measure, (it) => app.look({ measure: it as Measure }));
  measure.title = measureTitle(view.measure);
  const display = h("details", { id: "display", class: "menu" },
    h("summary", {}, "Display"),
    h("div", { class: "menu-body" },
      // A phone has room for the majorities only; elsewhere the list's head has names and orders.
      isNarrow() && measure,
      (isNarrow() || !isList(view.tab)) && namingChoice(app),
      (isNarrow() || view.columns !== "changed") && orderChoices(app),
      choice("digits", "Digits", digits, String(view.digits), (it) => app.look({ digits: Number(it) })),
      columnChoices(app),
      tableChoices(app),
    ),
  );
  patch(byId("choose"), isNarrow() ? null : measure, majorityButtons(app), display);
}

/** The order of the chairs, where columns have no heads that order. */
function orderChoices(app: App): Child {
  const { view } = app;
  const orders = ORDERS.map((it): [string, string] => [it, ORDER_WORDS[it]]);
  const ats = view.majorities.map((it): [string, string] => [it, MAJORITY[it].label]);
  return [
    choice("order", "Order by", orders, view.order, (it) => app.look({ order: it as Order })),
    choice("order-at", "at", ats, view.orderAt, (it) => app.look({ orderAt: it as Majority })),
  ];
}

const THING_WORDS: Readonly<Record<Thing, string>> = {
  added: "what is added", ratio: "power over votes", votes: "votes", share: "share of votes",
};

/** What the table of chairs has beside the power. */
function tableChoices(app: App): Child {
  const boxes = THINGS.map((thing) => {
    const onchange = () => {
      const hidden = app.view.hidden.filter((it) => it !== thing);
      app.look({ hidden: box.checked ? hidden : [...hidden, thing] });
    };
    const checked = !app.view.hidden.includes(thing);
    const box: HTMLInputElement = h("input", { type: "checkbox", id: `table-${thing}`, checked, live: true, onchange });
    return h("label", {}, box, THING_WORDS[thing]);
  });
  return h("fieldset", { class: "boxes" }, h("legend", {}, "In the table"), boxes);
}

/** The choices of columns. */
function columnChoices(app: App): Child {
  const { view } = app;
  const columns = COLUMNS.map((it): [string, string] => [it, COLUMN_WORDS[it]]);
  const against = AGAINST.map((it): [string, string] => [it, AGAINST_WORDS[it]]);
  const isOne = view.columns === "changed";
  return [
    choice("columns", "Columns", columns, view.columns, (it) => app.look({ columns: it as ColumnsShown })),
    isOne ? null : choice("against", "less", against, view.against, (it) => app.look({ against: it as Against })),
  ];
}

const OTHER_SIZES =
  "The boards that are compared have different numbers of chairs, so different numbers of coalitions: more swings " +
  "don't mean more power there. Compare shares of power.";

/** Why a view has no columns of its own now, which are missing, or that what is compared isn't alike. */
function columnsNote({ view, study }: App, { isOne, waiting, base, list }: Columns): string {
  const sizes = new Set([base, ...list].map((it) => it.standing.open().length));
  if (view.measure === "swings" && sizes.size > 1) return OTHER_SIZES;
  if (waiting) return `${waiting} of the columns are being counted.`;
  if (!isOne || view.columns === "changed") return "";
  if (view.columns === "scenarios") return "No scenario is kept yet: give the list of changes a name under Scenarios.";
  const many = study.changes.filter((it) => it.on).length;
  if (many <= MOST_STEPS) return "No change is in the list yet.";
  return `The list has ${grouped(many)} changes, and at most ${MOST_STEPS} are shown one by one: keep parts of it as ` +
    "scenarios instead.";
}

function paintTabs(app: App): void {
  const tabs = TABS.map((tab) => {
    const isOn = app.view.tab === tab;
    const keys = (event: KeyboardEvent) => {
      const by = event.key === "ArrowRight" ? 1 : event.key === "ArrowLeft" ? -1 : 0;
      if (!by) return;
      event.preventDefault();
      const next = TABS[(TABS.indexOf(tab) + by + TABS.length) % TABS.length] ?? tab;
      app.look({ tab: next });
      byId(`tab-${next}`).focus();
    };
    return h("button", {
      type: "button", role: "tab", id: `tab-${tab}`, "aria-selected": String(isOn),
      "aria-controls": isList(tab) ? "chairs" : "panel",
      tabindex: isOn ? 0 : -1, live: true, onclick: () => app.look({ tab }), onkeydown: keys,
    }, TAB[tab].words);
  });
  patch(byId("tabs"), tabs);
  byId("panel").setAttribute("aria-labelledby", `tab-${app.view.tab}`);
}

type Draw = (place: Element, model: ChairModel, look: Look) => void;

/** What is under the list of chairs: its table, once that is opened; on paper the chart and the table instead of it. */
function paintUnderList(app: App, columns: Columns, draw: Draw): void {
  const panel = byId("panel");
  if (!app.open.isPrinting) return patch(panel, tableBehind(app, () => chairTable(app, columns)));
  const model = chairModel(app, columns);
  const chart = h("div", { class: "chart" });
  paint(panel, chart, chairTable(app, columns));
  if (model.majorities.length) draw(chart, model, screenLook(app, chart));
}

const NO_GAINS =
  "Nothing is changed yet. On the tab Power, open a chair's row, and drag a member to another row or click on it to " +
  "alter its votes; or paste a second table to compare the two.";

function paintGains(app: App, columns: Columns): void {
  if (app.shown && hasGains(app, app.shown)) return paintUnderList(app, columns, drawGains);
  paint(byId("panel"), h("p", {}, NO_GAINS));
}

/** The tabs: their words, and what they show beside the list of chairs or instead of it. */
const TAB: Readonly<Record<Tab, { words: string; draw(app: App, columns: Columns): void }>> = {
  power: { words: "Power", draw: (app, columns) => paintUnderList(app, columns, drawPower) },
  change: { words: "Change", draw: paintGains },
  curve: { words: "Curve", draw: paintCurve },
  table: { words: "Table", draw: (app, columns) => patch(byId("panel"), chairTable(app, columns)) },
  coalition: { words: "Coalition", draw: paintCoalition },
};

export function paintFigures(app: App): void {
  const { shown, view, results, open } = app;
  if (!shown) return;
  const { majorities, measure, digits, tab } = view;
  app.part("choices", [view, shown, isNarrow()], () => paintChoices(app));
  app.part("tabs", [tab], () => paintTabs(app));
  app.part("sentences", [shown, majorities, measure, digits], () => paintSentences(app));
  const columns = columnsOf(app, shown);
  byId("columns-words").textContent = columnsNote(app, columns);
  app.part("tab", [tab, open.isPrinting], () => byId("panel").replaceChildren());
  const isDark = matchMedia("(prefers-color-scheme: dark)").matches;
  const look = [innerWidth, isDark, open.isPrinting, open.isTableOpen, open.ticks];
  app.part("panel", [shown, view, results.version, app.sweep, ...look], () => TAB[tab].draw(app, columns));
}
