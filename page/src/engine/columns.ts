/** Registers side by side: each is compared with the base, or with the one before it. */
import type { App, Shown } from "../views/app";
import { changeWords } from "../study/commandWords";
import { inOrder, pairRows, sidesOf, type ChairRow, type Side } from "./compare";
import type { Counted } from "./count";
import type { Results } from "./results";
import { stepsOf } from "./steps";
import type { Change, Study, View } from "../study/study";

/** A register that is shown beside others, and the count that gives it. */
export interface Column extends Side {
  readonly label: string;
  /** The label where there is little room. */
  readonly short: string;
  readonly counted: Counted;
}

/** A chair across all columns: a row for each, where the chair is open in it or in what it is compared with. */
export interface Line {
  readonly key: string;
  readonly chair: number;
  readonly name: string;
  readonly kind: ChairRow["kind"];
  readonly cells: readonly (ChairRow | undefined)[];
}

/** Columns with their lines. `waiting` are columns that aren't counted yet. */
export interface Columns {
  readonly base: Side;
  readonly list: readonly Column[];
  readonly lines: readonly Line[];
  readonly waiting: number;
  /** Whether the list of changes is the only column. */
  readonly isOne: boolean;
}

/** What a step does, in words. */
function stepWords(change: Change | undefined, { outcomes, opening }: Counted): string {
  if (!change) return "";
  const outcome = outcomes.get(change.id);
  return changeWords(change, outcome, opening) + (outcome?.kind === "accepted" ? "" : " (refused)");
}

/** The board after all changes, as a column. */
export function changedColumn({ counted }: Shown): Column {
  return columnOf("changed", counted);
}

/** Whether there is anything to compare with the base. */
export function hasGains(app: App, shown: Shown): boolean {
  return shown.counted.isChanged || !shownColumns(app, shown).isOne;
}

function columnOf(label: string, counted: Counted, short = label): Column {
  return { label, short, counted, ...sidesOf(counted).changed };
}

/** The scenarios that are counted, and how many are not. */
export function scenarioColumns({ study, counted }: Shown, results: Results): { list: Column[]; waiting: number } {
  const list = study.scenarios.flatMap((it) => {
    const found = results.scenario(study.base, it, counted.majorities);
    return found ? [columnOf(it.name, found)] : [];
  });
  return { list, waiting: study.scenarios.length - list.length };
}

/** The board after each change that is on, as far as they are counted. */
export function stepColumns({ study, counted }: Shown, results: Results): { list: Column[]; waiting: number } {
  const steps = stepsOf(study);
  const list = steps.flatMap((changes, at) => {
    const found = results.step(study.base, changes, counted.majorities);
    const last = changes[changes.length - 1];
    if (!found) return [];
    const words = stepWords(last, found);
    return [columnOf(`step ${at + 1}: ${words}`, found, `${at + 1} ${words}`)];
  });
  return { list, waiting: steps.length - list.length };
}

/** Whether a scenario has the changes of the list. */
function isKept({ changes, scenarios }: Study): boolean {
  const words = (all: readonly Change[]) => JSON.stringify(all.map(({ on, what, name }) => [on, what, name]));
  return scenarios.some((it) => words(it.changes) === words(changes));
}

/** The columns that a view asks for; the list of changes as a whole if there are no others. */
function shownColumns(app: App, shown: Shown): { list: Column[]; waiting: number; isOne: boolean } {
  const changed = changedColumn(shown);
  const one = { list: [changed], waiting: 0, isOne: true };
  if (app.view.columns === "changed") return one;
  if (app.view.columns === "steps") {
    const found = stepColumns(shown, app.results);
    return found.list.length ? { ...found, isOne: false } : one;
  }
  const { list, waiting } = scenarioColumns(shown, app.results);
  if (!list.length) return one;
  const isNew = shown.counted.isChanged && !isKept(shown.study);
  return { list: isNew ? [...list, changed] : list, waiting, isOne: false };
}

/** What each column is compared with. */
export function comparedWith(base: Side, list: readonly Side[], { against }: View): Side[] {
  return list.map((_, at) => (against === "base" ? base : list[at - 1] ?? base));
}

/** The name of what a column is compared with. */
export function comparedLabel(list: readonly Column[], at: number, { against }: View): string {
  return (against === "before" && list[at - 1]?.label) || "base";
}

/** The last row of a line. */
function lastOf(cells: readonly (ChairRow | undefined)[]): ChairRow | undefined {
  return cells.reduce((found, it) => it ?? found, undefined);
}

function linesOf(rows: readonly (readonly ChairRow[])[], view: View): Line[] {
  const byKey = rows.map((it) => new Map(it.map((row) => [row.key, row])));
  const keys = [...new Set(rows.flatMap((it) => it.map((row) => row.key)))];
  const lines = keys.flatMap((key) => {
    const cells = byKey.map((it) => it.get(key));
    const last = lastOf(cells);
    return last ? [{ key, chair: last.chair, name: last.name, kind: kindOf(cells, last), cells }] : [];
  });
  const numbered = lines.sort((left, right) => left.chair - right.chair);
  return inOrder(numbered, ({ cells }) => lastOf(cells), view);
}

/** Whether a chair is in the last column, and whether a change opened it. */
function kindOf(cells: readonly (ChairRow | undefined)[], last: ChairRow): ChairRow["kind"] {
  const isThere = cells[cells.length - 1] === last && last.kind !== "closed";
  if (!isThere) return "closed";
  return last.key === String(last.chair) ? "kept" : "opened";
}

/** The columns of a view, with a line for each chair that is open in any of them. */
export function columnsOf(app: App, shown: Shown): Columns {
  const { base } = sidesOf(shown.counted);
  const { list, waiting, isOne } = shownColumns(app, shown);
  const others = comparedWith(base, list, app.view);
  const rows = list.map((it, at) => pairRows(others[at] ?? base, it, app.view));
  return { base, list, lines: linesOf(rows, app.view), waiting, isOne };
}
