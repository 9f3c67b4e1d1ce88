/**
 * The worker: it carries out the page's orders, of which a long one gives way to others from time to time. Where a
 * browser makes no worker, the page runs this itself, with a port in place of the worker's global scope.
 */
import { Engine } from "./engine/engine";
import type { Kind, Orders } from "./engine/orders";
import { pausing } from "./engine/pausing";
import { problemOf, type Problem } from "./engine/problem";

/** An order with a number that all answers to it repeat; or the number of an order that is cancelled. */
export type Message =
  | { readonly id: number; readonly kind: Kind; readonly ask: Orders[Kind]["ask"] }
  | { readonly id: number; readonly kind: "cancel" };

export type Reply =
  | { readonly id: number; readonly value: Orders[Kind]["answer"] }
  | { readonly id: number; readonly done: number }
  | { readonly id: number; readonly error: Problem };

/** What orders come by, and answers go by. */
interface Port {
  onmessage: ((event: MessageEvent<Message>) => void) | null;
  postMessage(reply: Reply): void;
}
declare const self: Port & { readonly orders?: Port };

const port = self.orders ?? self;
const engine = new Engine();
const cancelled = new Set<number>();

port.onmessage = async ({ data }) => {
  const { id, kind } = data;
  if (kind === "cancel") {
    cancelled.add(id);
    return;
  }
  const progress = pausing((done) => port.postMessage({ id, done }), () => cancelled.has(id));
  try {
    port.postMessage({ id, value: await engine.carryOut(kind, data.ask as never, progress) });
  } catch (why) {
    port.postMessage({ id, error: problemOf(why) });
  }
  cancelled.delete(id);
};
