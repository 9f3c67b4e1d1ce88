/** The counts of scenarios and sweeps that were made so far, each by what it was counted from. */
import type { Counted, Curve } from "./count";
import type { Base, Change, Scenario, SweepAsked } from "../study/study";
import type { Majority } from "../study/words";

/** A sweep that was counted, or why it wasn't. */
export type Sweep = Curve | { readonly problem: string };

interface Kept<Value> {
  readonly base: Base;
  readonly key: string;
  readonly value: Value;
}

/** The sweeps and the steps that are kept at most. */
const [MOST_SWEEPS, MOST_STEPS] = [12, 240] as const;

function keyOf(majorities: readonly Majority[], changes: readonly Change[], asked?: SweepAsked): string {
  return JSON.stringify([majorities, asked, changes.map(({ on, what }) => (on ? what : null))]);
}

function sweepKey(counted: Counted, changes: readonly Change[], asked: SweepAsked): string {
  return keyOf(counted.majorities, asked.on === "base" ? [] : changes, asked);
}

function stepKey(changes: readonly Change[], majorities: readonly Majority[]): string {
  return keyOf(majorities, changes.filter((it) => it.on));
}

export class Results {
  version = 0;
  readonly #scenarios = new WeakMap<Scenario, Kept<Counted>>();
  readonly #steps = new Map<string, Kept<Counted>>();
  #sweeps: readonly Kept<Sweep>[] = [];

  /** The count of a scenario, or undefined if it isn't made yet. */
  scenario(base: Base, scenario: Scenario, majorities: readonly Majority[]): Counted | undefined {
    const kept = this.#scenarios.get(scenario);
    return kept?.base === base && kept.key === keyOf(majorities, []) ? kept.value : undefined;
  }

  keepScenario(scenario: Scenario, value: Counted): void {
    this.version += 1;
    this.#scenarios.set(scenario, { base: value.base, key: keyOf(value.majorities, []), value });
  }

  /** The count of the board after some changes, or undefined if it isn't made yet. */
  step(base: Base, changes: readonly Change[], majorities: readonly Majority[]): Counted | undefined {
    const kept = this.#steps.get(stepKey(changes, majorities));
    return kept?.base === base ? kept.value : undefined;
  }

  keepStep(changes: readonly Change[], value: Counted): void {
    this.version += 1;
    const key = stepKey(changes, value.majorities);
    this.#steps.delete(key);
    this.#steps.set(key, { base: value.base, key, value });
    const [oldest] = this.#steps.keys();
    if (this.#steps.size > MOST_STEPS && oldest !== undefined) this.#steps.delete(oldest);
  }

  /** A sweep of a count, or undefined if it isn't made yet. */
  sweep(counted: Counted, changes: readonly Change[], asked: SweepAsked): Sweep | undefined {
    const key = sweepKey(counted, changes, asked);
    return this.#sweeps.find((it) => it.base === counted.base && it.key === key)?.value;
  }

  keepSweep(counted: Counted, changes: readonly Change[], asked: SweepAsked, value: Sweep): void {
    const kept = { base: counted.base, key: sweepKey(counted, changes, asked), value };
    const others = this.#sweeps.filter((it) => it.base !== kept.base || it.key !== kept.key);
    this.#sweeps = [kept, ...others].slice(0, MOST_SWEEPS);
  }

  /** Forgets sweeps that couldn't be counted or were cancelled, so that they are tried again. */
  forgetProblems(): void {
    this.#sweeps = this.#sweeps.filter(({ value }) => !("problem" in value));
  }
}
