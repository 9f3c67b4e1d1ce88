/** The chairs that are ticked as a coalition, in the base or in the changed board. */
import type { App, Shown } from "../views/app";
import { chairKey } from "./standing";
import type { Majority } from "../study/words";

/** What is ticked and chosen in the tab Coalition. */
export interface Ticks {
  /** The script of the base whose chairs are ticked, and their keys. */
  readonly of: string;
  readonly keys: ReadonlySet<string>;
  /** The chair and the majority of the list of smallest winning coalitions; null until they are chosen. */
  readonly chair: number | "any" | null;
  /** The chair that isn't in them, or null. */
  readonly without: number | null;
  readonly at: Majority | null;
  /** Whether the list is of those that block, and of those alone that need each of their chairs. */
  readonly isBlocking: boolean;
  readonly isMinimal: boolean;
}

export const NO_TICKS: Ticks = {
  of: "", keys: new Set(), chair: null, without: null, at: null, isBlocking: false, isMinimal: true,
};

/** The open chairs by number, with their keys: a chair that was closed and opened again is another one. */
function keysOf({ counted: { standing } }: Shown): Map<number, string> {
  return new Map(standing.open().map((it) => [it, chairKey(it, standing.isNew(it))]));
}

/** The open chairs that are ticked. Ticks of another base's chairs aren't of this one's. */
export function ticked(app: App, shown: Shown): Set<number> {
  const { of, keys } = app.open.ticks;
  const isOther = of !== shown.study.base.script;
  return new Set([...keysOf(shown)].flatMap(([chair, key]) => (!isOther && keys.has(key) ? [chair] : [])));
}

/** Ticks these chairs and no others. */
export function setTicked(app: App, shown: Shown, chairs: ReadonlySet<number>): void {
  const keys = [...keysOf(shown)].flatMap(([chair, key]) => (chairs.has(chair) ? [key] : []));
  app.open.ticks = { ...app.open.ticks, of: shown.study.base.script, keys: new Set(keys) };
}
