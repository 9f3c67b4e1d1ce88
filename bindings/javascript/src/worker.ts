/** Workers that count. Each has an instance of the module, and code of its own, so that bundles need no other file. */
import { COUNTS, ROOM, SHEET } from "./memory.js";
import { builtin } from "./node.js";

/** Boards for a worker: their sheets, and the numbers of the majorities. */
export interface Task {
  readonly module: WebAssembly.Module;
  readonly sheets: ArrayBuffer;
  readonly numbers: readonly number[];
}

/** The counts of each board by each majority, or the place of the first board that is refused. */
export interface Counted {
  readonly counts: ArrayBuffer;
  readonly refused: number | undefined;
}

/** What a worker runs: it answers one task. */
const code = (): string => `
const isNode = typeof postMessage === "undefined";
const port = isNode ? process.getBuiltinModule("node:worker_threads").parentPort : globalThis;
const count = ({ module, sheets, numbers }) => {
  const calls = new WebAssembly.Instance(module).exports;
  const reserve = (bytes) => {
    const at = calls.board_reserve(BigInt(bytes));
    if (at === 0n) throw new Error("out of memory");
    return at;
  };
  const [room, sheet, found] = [reserve(${ROOM}), reserve(${SHEET}), reserve(${COUNTS})];
  const many = sheets.byteLength / ${SHEET};
  const counts = new Uint8Array(${COUNTS} * many * numbers.length);
  for (let board = 0; board < many; board++) {
    const words = new Uint8Array(sheets, ${SHEET} * board, ${SHEET});
    new Uint8Array(calls.memory.buffer, Number(sheet), ${SHEET}).set(words);
    for (let kind = 0; kind < numbers.length; kind++) {
      const answer = calls.board_counts_of_sheet(sheet, ${SHEET / 8}n, numbers[kind], room, found);
      if (answer !== 0) return { counts: counts.buffer, refused: board };
      const at = ${COUNTS} * (board * numbers.length + kind);
      counts.set(new Uint8Array(calls.memory.buffer, Number(found), ${COUNTS}), at);
    }
  }
  return { counts: counts.buffer, refused: undefined };
};
const run = (task) => {
  const found = count(task);
  port.postMessage(found, [found.counts]);
};
if (isNode) port.once("message", run);
else port.onmessage = ({ data }) => run(data);
`;

/** How many workers can count at a time. */
export function processors(): number {
  const { navigator } = globalThis as { navigator?: { hardwareConcurrency?: number } };
  return navigator?.hardwareConcurrency ?? builtin("node:os").availableParallelism();
}

function inBrowser(task: Task): Promise<Counted> {
  const url = URL.createObjectURL(new Blob([code()], { type: "text/javascript" }));
  const worker = new Worker(url);
  const answer = new Promise<Counted>((resolve, reject) => {
    worker.onmessage = ({ data }) => resolve(data);
    worker.onerror = ({ message }) => reject(new Error(`a worker failed: ${message}`));
    worker.postMessage(task);
  });
  return answer.finally(() => {
    worker.terminate();
    URL.revokeObjectURL(url);
  });
}

function inNode(task: Task): Promise<Counted> {
  const worker = new (builtin("node:worker_threads").Worker)(code(), { eval: true });
  const answer = new Promise<Counted>((resolve, reject) => {
    worker.once("message", resolve);
    worker.once("error", reject);
    worker.postMessage(task);
  });
  return answer.finally(() => worker.terminate());
}

/** Has a new worker do a task. */
export const inWorker = (task: Task): Promise<Counted> =>
  typeof Worker === "undefined" ? inNode(task) : inBrowser(task);
