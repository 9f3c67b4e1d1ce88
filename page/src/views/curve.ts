/** The tab Curve: a sweep, its chart, its thresholds, and its table. */
import { percentage, wholeNumber, type Typed } from "../study/amounts";
import type { App, Shown } from "./app";
import { valueText } from "../engine/compare";
import type { Curve } from "../engine/count";
import { drawCurve, type CurveModel } from "../charts/curveChart";
import { curveModel, thresholdWords } from "../charts/curveModel";
import { button, byId, choice, h, type Child } from "./dom";
import { fractionText, grouped, percent } from "../study/fractions";
import { screenLook } from "../charts/look";
import { isolated } from "../study/names";
import { patch } from "./patch";
import { chairIn, measureOf, readings, voteShare } from "../engine/reading";
import type { SweepAsked } from "../study/study";
import { MAJORITY, MEASURE, MOST_VOTES } from "../study/words";
import { scriptDetails } from "./scriptDetails";
import { openThresholds } from "./thresholds";
import { standingOn, whoKey, whoOf, whoOptions, whoThere } from "./who";

/** The fields of the form before there is a chair. */
const NO_SWEEP: SweepAsked = {
  who: { kind: "chair", chair: 1 }, on: "base", unit: "percent", from: "0", to: "10", by: "0.5",
};

/** The fields of the form: those typed so far, else those of the sweep that is shown. */
function fieldsOf(app: App, shown: Shown): SweepAsked {
  const asked = app.open.sweep ?? app.study.sweep ?? app.asked(shown) ?? NO_SWEEP;
  return { ...asked, who: whoThere(standingOn(shown, asked.on), asked.who) };
}

const NUMBERS = ["from", "to", "by"] as const;

/** The request with its numbers as plain decimals, or what is wrong with the first of them that isn't one. */
function read(asked: SweepAsked): Typed<SweepAsked> {
  const numbers: Record<string, string> = {};
  for (const id of NUMBERS) {
    const found = asked.unit === "percent" ? percentage(asked[id], "share") : wholeNumber(asked[id], MOST_VOTES);
    if ("wrong" in found) return { wrong: `${id}: ${found.wrong}` };
    numbers[id] = String(found.value);
  }
  return { value: { ...asked, ...numbers } };
}

/** Counts the sweep of the form: it becomes part of the study, if it isn't yet. */
function run(app: App, typed: SweepAsked): void {
  const found = read(typed);
  byId("sweep-wrong").textContent = "wrong" in found ? found.wrong : "";
  if ("wrong" in found) return;
  const asked = found.value;
  app.results.forgetProblems();
  app.open.sweep = null;
  app.view = { ...app.view, curveChair: null };
  if (JSON.stringify(asked) === JSON.stringify(app.study.sweep)) return void app.count();
  byId("sweep-results").replaceChildren();
  app.take({ ...app.study, sweep: asked }, "sweep");
}

/** The form. Its fields are read when they are used, so that it can stay while the board changes. */
function form(app: App, shown: Shown): HTMLElement {
  const now = () => fieldsOf(app, app.shown ?? shown);
  const asked = now();
  const set = (part: Partial<SweepAsked>) => {
    app.open.sweep = { ...now(), ...part };
    byId("sweep-results").replaceChildren();
  };
  const take = (part: Partial<SweepAsked>) => {
    set(part);
    run(app, now());
  };
  const number = (id: "from" | "to" | "by", label: string) => {
    const input: HTMLInputElement = h("input", {
      id: `sweep-${id}`,
      class: "short",
      inputmode: "decimal",
      title: "a number without a sign, such as 10 or 0.5",
      value: asked[id],
      live: true,
      oninput: () => set({ [id]: input.value.trim() }),
      onchange: () => run(app, now()),
    });
    return h("label", { class: "choice", for: `sweep-${id}` }, h("span", {}, label), input);
  };
  const options = whoOptions(standingOn(shown, asked.on));
  const submit = (event: Event) => {
    event.preventDefault();
    run(app, now());
  };
  return h("form", { class: "choices", id: "sweep", live: true, onsubmit: submit },
    choice("sweep-who", "Sweep", options, whoKey(asked.who), (it) => take({ who: whoOf(it) })),
    choice("sweep-on", "on", [["base", "the base"], ["changed", "the changed board"]], asked.on, (it) => {
      take({ on: it === "base" ? "base" : "changed" });
      app.repaint();
    }),
    number("from", "from"), number("to", "to"), number("by", "by"),
    choice(
      "sweep-unit",
      "unit",
      [["percent", "per cent of the total"], ["votes", "votes"]],
      asked.unit,
      (it) => take({ unit: it === "votes" ? "votes" : "percent" }),
    ),
    h("button", { id: "sweep-run" }, "Count the sweep"),
    button("Find thresholds…", () => openThresholds(app, now().who, now().on), { id: "find-open", live: true }),
    h("p", { id: "sweep-wrong", class: "wrong", role: "alert" }),
  );
}

function tableOf(app: App, model: CurveModel, found: Curve): HTMLElement {
  const { digits, measure } = app.view;
  const heads = [
    ["given", found.asked.unit === "percent" ? "Per cent of the total" : "Votes asked for"],
    ["made here", "Votes"],
    ["made here", "Share of votes"],
    ...model.majorities.map((it) => ["counted", `${MEASURE[measure].label}, ${MAJORITY[it].label}`]),
  ].map(([mark, words]) => h("th", { scope: "col", "data-mark": mark }, words ?? ""));
  const rows = found.points.map(({ value, votes, readings: list }) => {
    const [reading] = list;
    const own = chairIn(reading, model.chair);
    const share = reading && own ? voteShare(reading, own) : null;
    const all = readings(list);
    const cells = model.majorities.map((it) => {
      const chair = chairIn(all.get(it), model.chair);
      const ratio = chair ? measureOf(chair, measure) : null;
      const text = app.view.fractions ? fractionText(ratio) : valueText(ratio, measure, digits);
      return h("td", { title: chair ? `${fractionText(ratio)} (${MEASURE[measure].from})` : "" }, text);
    });
    return h(
      "tr",
      {},
      h("th", { scope: "row" }, value),
      h("td", {}, grouped(votes)),
      h("td", { title: fractionText(share) }, share ? `${percent(share, digits)} %` : "-"),
      cells,
    );
  });
  return h("div", { class: "scroll preview", tabindex: 0, role: "region", "aria-label": model.name },
    h(
      "table",
      { id: "sweep-table" },
      h("caption", {}, model.name),
      h("thead", {}, h("tr", {}, heads)),
      h("tbody", {}, rows),
    ),
  );
}

function results(app: App, model: CurveModel, found: Curve): Child {
  const chairs = found.points[0]?.readings[0]?.chairs ?? [];
  const options = chairs.map(({ chair }): [string, string] => [
    String(chair),
    `${chair} ${isolated(found.standing.name(chair))}`,
  ]);
  const votes: HTMLInputElement = h("input", {
    type: "checkbox",
    id: "sweep-votes",
    checked: app.view.curveVotes,
    live: true,
    onchange: () => app.look({ curveVotes: votes.checked }),
  });
  const marks = found.thresholds.map((it) => h("li", {}, thresholdWords(it, app.view.digits)));
  return [
    h("div", { class: "choices" },
      choice("curve-chair", "Chair shown", options, String(model.chair), (it) => app.look({ curveChair: Number(it) })),
      h("label", {}, votes, "votes on a second axis"),
    ),
    h("h3", {}, `Thresholds of chair ${found.chair}`),
    h("ul", { id: "thresholds" }, marks.length ? marks : h("li", {}, "None between the first point and the last.")),
  ];
}

/** What is said of the sweep: what was counted in which time, or why it wasn't. */
function sweepWords(app: App): string {
  const { sweep, shown } = app;
  if (!sweep) return shown && app.asked(shown) ? "The sweep is being counted." : "";
  if ("problem" in sweep) return `This can't be swept: ${sweep.problem}.`;
  const points = `${sweep.points.length} points at ${sweep.majorities.length} majorities`;
  const workers = sweep.desks > 1 ? ` with ${sweep.desks} workers running` : "";
  return `${points} were counted in ${sweep.milliseconds.toFixed(0)} ms${workers}.`;
}

/** Paints the tab, and keeps what is as it was. While a sweep is counted again, what is shown of it is grey. */
export function paintCurve(app: App): void {
  const { shown, curve, sweep } = app;
  if (!shown) return;
  const panel = byId("panel");
  panel.dataset["sweep"] = curve ? curve.milliseconds.toFixed(0) : "";
  if (!panel.firstChild) panel.append(...["sweep-form", "sweep-results"].map((id) => h("div", { id })));
  const said = h("p", { id: "sweep-words", class: "note", role: "status" }, sweepWords(app));
  patch(byId("sweep-form"), form(app, shown), said);
  const place = byId("sweep-results");
  const isCounting = app.asked(shown) !== null && !sweep;
  place.classList.toggle("old", isCounting);
  // No curve stands under fields that it isn't of.
  if (app.open.sweep) return place.replaceChildren();
  if (isCounting) return;
  const model = curveModel(app);
  const chart = h("div", { class: "chart" });
  if (model) drawCurve(chart, model, screenLook(app, panel));
  const script = () => app.curve?.script ?? "";
  patch(place, model && curve && [chart, results(app, model, curve), tableOf(app, model, curve),
    scriptDetails("sweep-script", "this sweep", script)]);
}
