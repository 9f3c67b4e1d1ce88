/** Named scenarios in their order: the greatest gain and the greatest loss of each at each majority. */
import type { App } from "./app";
import { MEASURE_NAMES } from "../cited";
import { chairRows, emptySentence, extremeCell } from "../engine/compare";
import { button, byId, h, type Child } from "./dom";
import { isolated } from "../study/names";
import { patch } from "./patch";
import type { Said } from "../engine/said";
import { freshId, withChanges, type Scenario, type Study } from "../study/study";
import { MAJORITY } from "../study/words";

/** Names of registers that no scenario may have. */
const TAKEN = ["base", "changed"];

/** Whether no scenario of a study can get a name. */
export function isTaken(study: Study, name: string): boolean {
  return TAKEN.includes(name) || study.scenarios.some((it) => it.name === name);
}

function kept(study: Study, name: string): Study {
  const first = freshId(study);
  const changes = study.changes.map((it, at) => ({ ...it, id: first + at }));
  return { ...study, scenarios: [...study.scenarios, { name, changes }] };
}

function shownAgain(study: Study, scenario: Scenario): Study {
  const first = freshId(study);
  return withChanges(study, scenario.changes.map((it, at) => ({ ...it, id: first + at })));
}

/** The study with a scenario one place earlier. */
function earlier(study: Study, scenario: Scenario): Study {
  const at = study.scenarios.indexOf(scenario);
  const before = study.scenarios[at - 1];
  if (!before) return study;
  const scenarios = study.scenarios.map((it) => (it === scenario ? before : it === before ? scenario : it));
  return { ...study, scenarios };
}

/** The buttons of a scenario, which find it by its name in the study as it is when they are pressed. */
function buttons(app: App, { name }: Scenario, isFirst: boolean): HTMLElement {
  const act = (words: string, what: string, change: (study: Study, scenario: Scenario) => Study, disabled = false) => {
    const take = () => {
      const found = app.study.scenarios.find((it) => it.name === name);
      if (found) app.take(change(app.study, found));
    };
    return button(words, take, { "aria-label": what, disabled, live: true });
  };
  const without = (study: Study, scenario: Scenario) =>
    ({ ...study, scenarios: study.scenarios.filter((it) => it !== scenario) });
  return h("span", { class: "buttons" },
    act("↑", `Move ${isolated(name)} up`, earlier, isFirst),
    act("Show", `Show ${isolated(name)}`, shownAgain),
    act("Remove", `Remove ${isolated(name)}`, without),
  );
}

function rows(app: App, scenario: Scenario): Child {
  const { shown, view, study } = app;
  const counted = shown && app.results.scenario(study.base, scenario, view.majorities);
  const acts = buttons(app, scenario, study.scenarios[0] === scenario);
  const list = counted ? chairRows(counted, view) : [];
  const note = counted?.refused ? ` (${counted.refused} refused)` : "";
  const of = view.majorities.map((majority) => {
    const cells = (["gain", "loss"] as const).map((it) => (counted ? extremeCell(list, view, majority, it) : COUNTING));
    const empty = counted ? emptySentence(counted, majority) : null;
    return h("tr", { "data-scenario": scenario.name, "data-majority": majority },
      h("td", { class: "text" }, MAJORITY[majority].label),
      empty ? h("td", { class: "text", colspan: 2 }, empty) : cells.map(cellOf),
    );
  });
  return [
    h("tr", {},
      h("th", { scope: "rowgroup", class: "text" }, h("bdi", {}, scenario.name), note),
      h("td", { colspan: 2 }, acts),
    ),
    ...of,
  ];
}

const COUNTING: Said = { words: "counting", source: "" };

function cellOf({ words, source }: Said): HTMLElement {
  return h("td", { class: "text", title: source }, words);
}

function form(app: App): HTMLElement {
  const said = h("p", { class: "wrong", role: "status" });
  const oninput = () => void (said.textContent = "");
  const name = h("input", { id: "scenario-name", autocomplete: "off", required: true, live: true, oninput });
  const submit = (event: Event) => {
    event.preventDefault();
    const words = name.value.trim().replace(/\s+/g, " ");
    const isUsed = isTaken(app.study, words);
    if (isUsed) said.textContent = `The name ${isolated(words)} is taken.`;
    if (isUsed || !words) return;
    name.value = "";
    app.take(kept(app.study, words));
  };
  return h("form", { class: "field", live: true, onsubmit: submit },
    h("label", { for: "scenario-name" }, "Name of these changes"),
    name,
    h("button", { id: "scenario-keep", disabled: app.study.changes.length === 0 }, "Keep"),
    said,
  );
}

export function paintScenarios(app: App): void {
  const { scenarios } = app.study;
  const measure = MEASURE_NAMES[app.view.measure];
  const heads = ["Scenario", `Gains most, ${measure}`, `Loses most, ${measure}`];
  const table = h("div", { class: "scroll", tabindex: 0, role: "region", "aria-label": "Scenarios side by side" },
    h("table", { id: "scenarios" },
      h("thead", {}, h("tr", {}, heads.map((it) => h("th", { scope: "col", class: "text" }, it)))),
      scenarios.map((it) => h("tbody", { "data-key": it.name }, rows(app, it))),
    ),
  );
  const isEmpty = !scenarios.length && !app.study.changes.length;
  const note = h("p", { class: "note" }, "Give a list of changes a name, to compare several.");
  const place = byId("scenarios-place");
  const keep = h("details", { id: "keep" }, h("summary", {}, "Keep these changes…"), form(app));
  patch(place, h("h2", {}, "Scenarios"), isEmpty ? note : keep, scenarios.length ? table : null);
}
