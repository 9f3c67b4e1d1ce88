/** The sweep that is drawn before one is asked for. */
import type { Counted } from "./count";
import type { SweepAsked } from "../study/study";

/** The first point, and the step, of a range up to an end: about forty points. */
const STEPS: readonly (readonly [number, string])[] = [[10, "0.25"], [20, "0.5"], [50, "1"], [95, "2.5"]];

/** A sweep of the chair in focus, the first whose row is open, else of the one with the most votes; up to about twice
 * its share. Null if no chair is open. */
export function firstSweep({ after, isChanged }: Counted, cards: ReadonlySet<string>): SweepAsked | null {
  const [reading] = after.values();
  const { chairs = [], total = 0 } = reading ?? {};
  const [largest] = [...chairs].sort((left, right) => right.weight - left.weight);
  const found = chairs.find((it) => cards.has(String(it.chair))) ?? largest;
  if (!found || !total) return null;
  const most = Math.min(95, Math.max(10, 5 * Math.ceil((40 * found.weight) / total)));
  const by = STEPS.find(([end]) => most <= end)?.[1] ?? "2.5";
  const who = { kind: "chair", chair: found.chair } as const;
  return { who, on: isChanged ? "changed" : "base", unit: "percent", from: by, to: String(most), by };
}
