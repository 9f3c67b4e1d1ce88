/** The registers of the study for exports, and the scripts that give their readings. */
import type { App, Shown } from "../views/app";
import { changedColumn, scenarioColumns, stepColumns, type Column, type Columns } from "../engine/columns";
import { stepsScript } from "../engine/count";
import type { Labelled } from "./csv";
import { sweepRegisters, sweepTitle } from "../charts/curveModel";
import { studySource, type Source } from "../study/provenance";

/** Columns as registers of a table; with `isChained` each is compared with the one before it, too. */
function labelled(columns: readonly Column[], base: Labelled, isChained: boolean): Labelled[] {
  const all = columns.map(({ label, readings, standing }): Labelled => ({ label, readings, standing }));
  return isChained ? all.map((it, at) => ({ ...it, previous: all[at - 1] ?? base })) : all;
}

function scenarioSource({ label, counted: { script } }: Column): Source {
  return { of: `scenario ${label}`, script };
}

/** The script that gives the readings of the base and of each step. */
function stepsSource({ counted: { base, majorities } }: Shown, steps: readonly Column[]): Source {
  return { of: "steps", script: stepsScript(base, steps.map((it) => it.counted.commands), majorities) };
}

/** The base, the scenarios, the changed board, the steps if they are shown, and the points of the sweep. */
export function registers(app: App, shown: Shown): { all: Labelled[]; sources: Source[] } {
  const { counted } = shown;
  const base: Labelled = { label: "base", readings: counted.before, standing: counted.opening };
  const scenarios = scenarioColumns(shown, app.results);
  const changed = counted.commands.length ? [changedColumn(shown)] : [];
  const steps = app.view.columns === "steps" ? stepColumns(shown, app.results) : { list: [], waiting: 0 };
  if (scenarios.waiting + steps.waiting > 0) throw new Error("not all columns are counted yet");
  const isChained = app.view.columns !== "changed" && app.view.against === "before";
  const { keptCurve: curve } = app;
  return {
    all: [
      base,
      ...labelled([...scenarios.list, ...changed], base, isChained),
      ...labelled(steps.list, base, isChained),
      ...sweepRegisters(app),
    ],
    sources: [
      studySource(shown),
      ...scenarios.list.map(scenarioSource),
      ...(steps.list.length ? [stepsSource(shown, steps.list)] : []),
      ...(curve ? [{ of: `sweep ${sweepTitle(curve.asked)}`, script: curve.script }] : []),
    ],
  };
}

/** The scripts that give the numbers of columns. */
export function columnSources(app: App, shown: Shown, { list, isOne }: Columns): Source[] {
  if (isOne) return [studySource(shown)];
  if (app.view.columns === "steps") return [stepsSource(shown, list)];
  return list.map((it) => (it.counted === shown.counted ? studySource(shown) : scenarioSource(it)));
}
