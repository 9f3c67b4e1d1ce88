/** The place of the registers: a worker made from a blob if the browser allows that for a file, else the page. */
import workerText from "../../out/worker.txt";
import type { Kind } from "./orders";
import { Cancelled } from "./pausing";
import { Pool, type Answer, type Ask, type Boards, type Desk, type Report, type Task } from "./pool";
import { Refusal } from "./problem";
import type { Message, Reply } from "../worker";

/** The most workers that a long order is split among, however many processors there are. */
const MOST_WORKERS = 8;

interface Waiting {
  take(value: never): void;
  refuse(why: Error): void;
  readonly report: Report;
}

/** The address of the worker's script. */
const scriptUrl = (): string => URL.createObjectURL(new Blob([workerText], { type: "text/javascript" }));

/** A worker that answers orders, or a port to the page itself, which runs the worker's script. */
class ScriptDesk implements Desk {
  readonly #port: Worker | MessagePort;
  readonly #waiting = new Map<number, Waiting>();
  #last = 0;

  constructor(port: Worker | MessagePort = new Worker(scriptUrl())) {
    this.#port = port;
    port.onmessage = ({ data }: MessageEvent<Reply>) => this.#take(data);
    if ("onerror" in port) port.onerror = (event) => {
      event.preventDefault();
      this.#stop(new Error("the worker doesn't run"));
    };
  }

  #take(reply: Reply): void {
    const waiting = this.#waiting.get(reply.id);
    if ("done" in reply) return waiting?.report(reply.done);
    this.#waiting.delete(reply.id);
    if ("value" in reply) waiting?.take(reply.value as never);
    else waiting?.refuse(reply.error.name === "Cancelled" ? new Cancelled() : new Refusal(reply.error));
  }

  #stop(why: Error): void {
    for (const { refuse } of this.#waiting.values()) refuse(why);
    this.#waiting.clear();
  }

  ask<Some extends Kind>(kind: Some, ask: Ask<Some>, report: Report = () => {}): Task<Answer<Some>> {
    const id = (this.#last += 1);
    const send = (message: Message) => this.#port.postMessage(message);
    const answer = new Promise<Answer<Some>>((take, refuse) => {
      this.#waiting.set(id, { take, refuse, report });
      send({ id, kind, ask });
    });
    return { answer, cancel: () => send({ id, kind: "cancel" }) };
  }

  /** Ends a worker: what it was doing is cancelled. */
  end(): void {
    if ("terminate" in this.#port) this.#port.terminate();
    this.#stop(new Cancelled());
  }
}

/** A worker; and one of its own for what gives way to nothing, the count over all coalitions and reading a table. */
class First implements Desk {
  readonly #desk: ScriptDesk;

  constructor(desk: ScriptDesk) {
    this.#desk = desk;
  }

  ask<Some extends Kind>(kind: Some, ask: Ask<Some>, report?: Report): Task<Answer<Some>> {
    if (kind !== "plain" && kind !== "read") return this.#desk.ask(kind, ask, report);
    const own = new ScriptDesk();
    const { answer } = own.ask(kind, ask, report);
    return { answer: answer.finally(() => own.end()), cancel: () => own.end() };
  }

  end(): void {
    this.#desk.end();
  }
}

/** The page itself, which runs the worker's script. */
async function pageDesk(): Promise<Desk> {
  const { port1, port2 } = new MessageChannel();
  Object.assign(globalThis, { orders: port2 });
  const script = document.createElement("script");
  await new Promise((resolve, reject) => {
    [script.onload, script.onerror, script.src] = [resolve, reject, scriptUrl()];
    document.head.append(script);
  });
  script.remove();
  return new ScriptDesk(port1);
}

/** A worker that has loaded the module. */
async function started(bytes: Uint8Array): Promise<ScriptDesk> {
  const desk = new ScriptDesk();
  await desk.ask("module", bytes).answer;
  return desk;
}

/** Makes the place of the registers. It fails if the browser can't run the module. */
export async function boardsOver(bytes: Uint8Array): Promise<Boards> {
  const start = () => started(bytes);
  try {
    const most = Math.min(MOST_WORKERS, navigator.hardwareConcurrency || 1);
    return new Pool("worker", new First(await start()), start, most);
  } catch {
    const page = await pageDesk();
    await page.ask("module", bytes).answer;
    return new Pool("page", page, start, 1);
  }
}
