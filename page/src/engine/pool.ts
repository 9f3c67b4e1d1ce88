/** A long order, split into parts that several workers carry out. Further workers start once it takes some time. */
import { MOST_BASES, type Board, type Kind, type Orders } from "./orders";
import { Cancelled } from "./pausing";

/** An order that is being carried out. */
export interface Task<Value> {
  readonly answer: Promise<Value>;
  cancel(): void;
}

/** Reports how much of an order is done, from 0 to 1. */
export type Report = (done: number) => void;

export type Ask<Some extends Kind> = Orders[Some]["ask"];
export type Answer<Some extends Kind> = Orders[Some]["answer"];

/** The kinds of orders that are split. */
export type Split = { [Some in Kind]: Ask<Some> extends Board ? Some : never }[Kind];

/** One that carries out orders: a worker, or the page. */
export interface Desk {
  ask<Some extends Kind>(kind: Some, ask: Ask<Some>, report?: Report): Task<Answer<Some>>;
  end(): void;
}

/** The place of the registers. */
export interface Boards {
  readonly place: "worker" | "page";
  /** The number of workers that are running; the page counts as one. */
  readonly desks: number;
  /** Carries out an order in the first worker. */
  ask<Some extends Kind>(kind: Some, ask: Ask<Some>, report?: Report): Task<Answer<Some>>;
  /** Carries out parts of an order on a base, in several workers. The answers are in the order of the parts. */
  spread<Some extends Split>(
    kind: Some,
    base: Ask<"base">,
    parts: readonly Ask<Some>[],
    report?: Report,
  ): Task<Answer<Some>[]>;
}

/** The milliseconds after which further workers start, and after which those end that have nothing to do. */
export interface Delays {
  readonly start: number;
  readonly end: number;
}

const DELAYS: Delays = { start: 100, end: 60_000 };

/** A task of several tasks, one after another. */
export function inSteps<Value>(
  act: (step: <Part>(task: Task<Part>) => Promise<Part>) => Promise<Value>,
): Task<Value> {
  let isCancelled = false;
  let running: Task<unknown> | null = null;
  const step = <Part>(task: Task<Part>) => {
    running = task;
    if (isCancelled) task.cancel();
    return task.answer;
  };
  const cancel = () => {
    isCancelled = true;
    running?.cancel();
  };
  return { answer: act(step), cancel };
}

/** Parts that are carried out by all who join: each takes the next part once its last one is done. */
class Shift<Part, Value> implements Task<Value[]> {
  readonly answer: Promise<Value[]>;
  readonly #parts: readonly Part[];
  readonly #report: Report;
  readonly #done: number[];
  readonly #values: Value[] = [];
  readonly #running = new Set<Task<Value>>();
  #taken = 0;
  #ended = 0;
  #isOver = false;
  #take: (values: Value[]) => void = () => {};
  #refuse: (why: unknown) => void = () => {};

  constructor(parts: readonly Part[], report: Report) {
    this.#parts = parts;
    this.#report = report;
    this.#done = parts.map(() => 0);
    this.answer = new Promise((take, refuse) => ([this.#take, this.#refuse] = [take, refuse]));
    if (!parts.length) this.#take([]);
  }

  /** Whether there is a part that nobody has taken. */
  get isOpen(): boolean {
    return !this.#isOver && this.#taken < this.#parts.length;
  }

  /** Takes parts as long as there are any. */
  async join(carryOut: (part: Part, report: Report) => Task<Value>): Promise<void> {
    while (this.isOpen) {
      const at = this.#taken;
      this.#taken += 1;
      const task = carryOut(this.#parts[at] as Part, (done) => this.#say(at, done));
      this.#running.add(task);
      try {
        this.#values[at] = await task.answer;
        this.#running.delete(task);
        this.#end(at);
      } catch (why) {
        this.#running.delete(task);
        this.#stop(why);
      }
    }
  }

  /** It is also called without its object, as a part of another task. */
  readonly cancel = (): void => this.#stop(new Cancelled());

  #say(at: number, done: number): void {
    if (this.#isOver) return;
    this.#done[at] = done;
    this.#report(this.#done.reduce((sum, it) => sum + it, 0) / this.#parts.length);
  }

  #end(at: number): void {
    this.#say(at, 1);
    this.#ended += 1;
    if (this.#ended === this.#parts.length) this.#take(this.#values);
  }

  /** Ends all parts for the reason of one. */
  #stop(why: unknown): void {
    if (this.#isOver) return;
    this.#isOver = true;
    for (const it of this.#running) it.cancel();
    this.#refuse(why);
  }
}

/** A further worker, and the numbers of the bases that it keeps. */
class Helper {
  #bases: readonly number[] = [];

  constructor(readonly desk: Desk) {}

  /** Sends it a base, if it hasn't it. */
  async bring(base: Ask<"base">): Promise<void> {
    if (this.#bases.includes(base.number)) return;
    await this.desk.ask("base", base).answer;
    this.#bases = [...this.#bases, base.number].slice(-MOST_BASES);
  }
}

/** The first worker, or the page, and further workers, which are started when they are needed. */
export class Pool implements Boards {
  readonly #first: Desk;
  readonly #start: () => Promise<Desk>;
  readonly #most: number;
  readonly #delays: Delays;
  readonly #helpers = new Map<number, Promise<Helper>>();
  #spread = 0;
  #idle: ReturnType<typeof setTimeout> | undefined;

  /** `most` is the greatest number of workers, together with the first. */
  constructor(
    readonly place: Boards["place"],
    first: Desk,
    start: () => Promise<Desk>,
    most: number,
    delays: Delays = DELAYS,
  ) {
    [this.#first, this.#start, this.#most, this.#delays] = [first, start, most, delays];
  }

  get desks(): number {
    return 1 + this.#helpers.size;
  }

  ask<Some extends Kind>(kind: Some, ask: Ask<Some>, report?: Report): Task<Answer<Some>> {
    return this.#first.ask(kind, ask, report);
  }

  spread<Some extends Split>(
    kind: Some,
    base: Ask<"base">,
    parts: readonly Ask<Some>[],
    report: Report = () => {},
  ): Task<Answer<Some>[]> {
    const shift = new Shift<Ask<Some>, Answer<Some>>(parts, report);
    const join = (desk: Desk) => shift.join((part, say) => desk.ask(kind, part, say));
    const help = () => {
      for (let at = 1; at < this.#most && shift.isOpen; at += 1) void this.#join(at, base, join);
    };
    this.#spread += 1;
    clearTimeout(this.#idle);
    const timer = setTimeout(help, this.#helpers.size ? 0 : this.#delays.start);
    const ended = () => {
      clearTimeout(timer);
      this.#spread -= 1;
      if (this.#spread === 0) this.#idle = setTimeout(() => this.#endHelpers(), this.#delays.end);
    };
    shift.answer.then(ended, ended);
    void join(this.#first);
    return shift;
  }

  /** Has a further worker join. One that can't be started is forgotten: the others do its parts. */
  async #join(at: number, base: Ask<"base">, join: (desk: Desk) => Promise<void>): Promise<void> {
    const helper = this.#helpers.get(at) ?? this.#start().then((it) => new Helper(it));
    this.#helpers.set(at, helper);
    try {
      const { desk } = await helper;
      await (await helper).bring(base);
      // The second part is there when the first one ends, although the page may be busy then.
      await Promise.all([join(desk), join(desk)]);
    } catch {
      if (this.#helpers.get(at) === helper) this.#helpers.delete(at);
      helper.then(({ desk }) => desk.end(), () => {});
    }
  }

  #endHelpers(): void {
    for (const it of this.#helpers.values()) it.then(({ desk }) => desk.end(), () => {});
    this.#helpers.clear();
  }
}
