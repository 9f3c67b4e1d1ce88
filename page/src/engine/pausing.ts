/** Long orders: they say how much is done, give way to other work, and can be cancelled. */
import type { Progress } from "./orders";

/** The milliseconds between two pauses. */
const BETWEEN = 50;

/** An order that was cancelled. */
export class Cancelled extends Error {
  override readonly name = "Cancelled";
  constructor() {
    super("cancelled");
  }
}

/** The progress of an order: it reports and pauses at most once in a while. */
export function pausing(report: (done: number) => void, isCancelled: () => boolean): Progress {
  let last = performance.now();
  return async (done) => {
    if (performance.now() - last < BETWEEN) return;
    report(done);
    await new Promise((next) => setTimeout(next, 0));
    last = performance.now();
    if (isCancelled()) throw new Cancelled();
  };
}
