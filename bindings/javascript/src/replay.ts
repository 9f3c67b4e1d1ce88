/** Replays as data, one outcome after another. */
import { commandIn, recordOf } from "./commands.js";
import { Handle } from "./handle.js";
import type { Indices } from "./indices.js";
import { shared } from "./load.js";
import { PUBLISH, READ, REFUSALS, type Majority } from "./names.js";
import { readFile } from "./node.js";
import { OUT_OF_MEMORY, Refused, sentenceOf, type Fault } from "./refused.js";
import { Register, registerOf } from "./register.js";
import { Script, recordsOf, type Records } from "./script.js";
import type { ReplayOptions } from "./text.js";
import { journalOf, options, readersOf, wrongType } from "./values.js";

/** A command was accepted, the `number`-th in all. */
export interface Accepted {
  readonly kind: "accepted";
  /** The number of the record in the input, counted from 1. */
  readonly record: number;
  readonly number: number;
}

/** A command was refused; the register is unchanged. */
export interface Refusal {
  readonly kind: "refused";
  readonly record: number;
  /** The refusal's number and its name in docs/FORMATS.md, and its reason. */
  readonly number: number;
  readonly name: string;
  readonly reason: string;
  /** The command, as a record. */
  readonly command: string;
}

/** `number` commands are published. */
export interface Published {
  readonly kind: "published";
  readonly record: number;
  readonly number: number;
}

/** A reader read the published board. Readings of the same board by the same majority share their rows of chairs. */
export interface Reading extends Indices {
  readonly kind: "reading";
  readonly record: number;
  /** The number of the reader, from 1. */
  readonly reader: number;
  /** How many commands are published. */
  readonly front: number;
}

/** The outcome of a record of a script. */
export type Outcome = Accepted | Refusal | Published | Reading;

/** The replay of an input on a register. */
class Run {
  readonly handle: Handle;
  readonly #records: Records;
  /** The readings since the last publication. */
  readonly #read = new Map<Majority, Indices>();

  constructor(script: Script, journal: number) {
    this.#records = recordsOf(script);
    this.handle = Handle.start(shared(), script.members, journal);
  }

  /** Carries out a record. */
  step(at: number): Outcome {
    const kind = this.#records.kind(at);
    if (kind === READ) return this.#reading(at);
    const record = this.#records.record(at);
    if (kind === PUBLISH) {
      this.#read.clear();
      return { kind: "published", record, number: this.handle.publish() };
    }
    const struct = this.#records.command(at);
    const number = this.#apply(struct);
    if (number === 0) return { kind: "accepted", record, number: this.handle.accepted };
    const [name, reason] = REFUSALS[number]!;
    const command = recordOf(commandIn(new DataView(struct.buffer, struct.byteOffset), 0));
    return { kind: "refused", record, number, name, reason, command };
  }

  /** Carries out a record, and leaves a reading out. */
  take(at: number): void {
    const kind = this.#records.kind(at);
    if (kind === PUBLISH) this.handle.publish();
    else if (kind !== READ) this.#apply(this.#records.command(at));
  }

  /** Applies a command; the number of the refusal, or 0. */
  #apply(struct: Uint8Array): number {
    const number = this.handle.apply(struct);
    if (number === OUT_OF_MEMORY) throw new Refused(number);
    return number;
  }

  #reading(at: number): Reading {
    const { record, reader, majority } = this.#records.item(at);
    const indices = this.#read.get(majority!) ?? this.handle.indices("read", majority!);
    this.#read.set(majority!, indices);
    return { kind: "reading", record, reader: reader!, front: this.handle.published, ...indices };
  }
}

/**
 * A replay: iterating over it carries out the records of a script one by one, from the start each time, and gives the
 * outcome of each. No more than one outcome is held in memory, and the loop may end at any time.
 */
export class Replay implements Iterable<Outcome> {
  /** The input as data. */
  readonly script: Script;
  /** The fault that ends the replay after the outcomes, or null. */
  readonly fault: Fault | null;
  readonly #journal: number;

  constructor(input: string | Uint8Array, given: ReplayOptions = {}) {
    const { readers, journal } = options(given, "readers", "journal");
    this.#journal = journalOf(journal);
    this.script = new Script(input, { readers: readersOf(readers) });
    this.fault = this.script.fault;
  }

  *[Symbol.iterator](): Generator<Outcome, void> {
    // The members of an input that has a fault before its script aren't a register's.
    if (this.script.length === 0) return;
    const run = new Run(this.script, this.#journal);
    try {
      for (let at = 0; at < this.script.length; at++) yield run.step(at);
    } finally {
      run.handle.free();
    }
  }

  *#only<Kind extends Outcome["kind"]>(kind: Kind): Generator<Extract<Outcome, { kind: Kind }>, void> {
    for (const it of this) if (it.kind === kind) yield it as Extract<Outcome, { kind: Kind }>;
  }

  /** The readings, one by one as they are asked for. */
  get readings(): Iterable<Reading> {
    return this.#only("reading");
  }

  /** The refused commands, one by one. */
  get refused(): Iterable<Refusal> {
    return this.#only("refused");
  }

  /**
   * The register as the replay leaves it. If a fault comes before the script, there is none: the fault is `Refused`.
   */
  register(): Register {
    const { fault, length } = this.script;
    if (fault && fault.record <= this.script.members.length + 2) {
      throw new Refused(fault.number, sentenceOf(fault.number), { record: fault.record });
    }
    const run = new Run(this.script, this.#journal);
    for (let at = 0; at < length; at++) run.take(at);
    return registerOf(run.handle);
  }
}

/**
 * Replays an input of `board replay`: docs/FORMATS.md has its records, refusals and faults. It is text, or bytes, which
 * are UTF-8. The records are read at once, so a fault is known at once, and are carried out by iterating.
 *
 * Limits out of range are `Refused` as BadLimit (13). Other types, and text without a line end, are a TypeError.
 *
 * @example
 * const run = replay("member,votes\nAAA,50\nscript\nopen,1\nmove,AAA,1\npublish\nread,1,half\n");
 * for (const it of run) console.log(it.record, it.kind); // 4 accepted, 5 accepted, 6 published, 7 reading
 * for (const { omega, chairs } of run.readings) console.log(omega, chairs[0].swings); // 1 1
 */
export const replay = (input: string | Uint8Array, given: ReplayOptions = {}): Replay => new Replay(input, given);

/** Replays a file, in Node. The path is text or a URL. */
export function replayFile(path: string | { readonly href: string }, given: ReplayOptions = {}): Replay {
  if (typeof path !== "string" && !(path instanceof URL)) throw wrongType("the path is", path, "text or a URL");
  return replay(readFile(path), given);
}
