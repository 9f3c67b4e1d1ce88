/** What the parts of the tab Coalition share: the board that they look at, and its chairs in words. */
import type { App, Shown } from "./app";
import { chairRows, type ChairRow } from "../engine/compare";
import { h, type Child } from "./dom";
import type { Reading } from "../engine/reading";
import type { Majority } from "../study/words";

/** The board that the tab looks at: the changed one if there is one, else the base. */
export interface Looked {
  readonly app: App;
  readonly shown: Shown;
  readonly board: string;
  /** Its readings; the chairs and their votes are the same in each. */
  readonly readings: readonly Reading[];
  readonly chairs: Reading["chairs"];
  readonly names: ReadonlyMap<number, string>;
  /** The rows of its chairs, in the order of the list. */
  readonly rows: readonly ChairRow[];
}

/** The board, or null if no chair is open. */
export function lookedAt(app: App): Looked | null {
  const { shown } = app;
  const readings = [...(shown?.counted.after.values() ?? [])];
  const { chairs = [] } = readings[0] ?? {};
  if (!shown || !chairs.length) return null;
  const rows = chairRows(shown.counted, app.view).filter((it) => it.kind !== "closed");
  const names = new Map(rows.map(({ chair, name }) => [chair, name]));
  return { app, shown, board: boardWords(shown), readings, chairs, names, rows };
}

/** The board that the tab looks at, in words. */
export function boardWords({ counted }: Shown): string {
  return counted.isChanged ? "the changed board" : "the base";
}

/** Chairs by number and name, which stay on one line if there is room. */
export function chairList({ names }: Looked, chairs: readonly number[]): Child {
  return chairs.map((it, at) => {
    const mark = at === chairs.length - 1 ? "" : ",";
    return [at ? " " : "", h("span", { class: "named" }, `${it} `, h("bdi", {}, names.get(it) ?? ""), mark)];
  });
}

/** The reading of a majority, else the first one. */
export function readingAt({ readings }: Looked, majority: Majority | null): Reading | undefined {
  return readings.find((it) => it.majority === majority) ?? readings[0];
}
