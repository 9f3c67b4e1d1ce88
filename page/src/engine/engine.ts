/** Carries out the page's orders on registers of the package, in a worker or in the page. */
import { Refused } from "../../../bindings/javascript/src/refused";
import { Register } from "../../../bindings/javascript/src/register";
import { replay, type Replay } from "../../../bindings/javascript/src/replay";
import type { Script } from "../../../bindings/javascript/src/script";
import { replayText } from "../../../bindings/javascript/src/text";
import { triedMoves } from "./best";
import { outcomeOf, OFF } from "./operations";
import {
  MOST_BASES, type Board, type Counts, type Kind, type Opened, type Orders, type Outcome, type Progress,
} from "./orders";
import { loadSync } from "../../../bindings/javascript/src/load";
import { plainCount } from "./plain";
import { readingOf, readingsOf, type Reading } from "./reading";
import type { Seat, Snapshot } from "./standing";
import type { Change, Command } from "../study/study";
import { sweptPart } from "./sweep";
import { turnsOf } from "./turns";
import { MAJORITIES, type Majority } from "../study/words";
import { packed, unpackedContents } from "./zip";

/** A script with more records than this after its first publication is taken as a base as a whole. */
const MOST_LISTED = 1000;

/** A change that was carried out: its text, its outcome, and the number of accepted commands after it. */
interface Done {
  readonly text: string;
  readonly outcome: Outcome;
  readonly accepted: number;
}

/** A base: its register and its readings so far, and the register with the changes that were counted last. */
interface Kept {
  readonly register: Register;
  readonly readings: Map<Majority, Reading>;
  changed: Register | null;
  readonly done: Done[];
}

/** A base, and its register with the changes of an order. */
interface Changed extends Kept {
  changed: Register;
}

/** The members and the open chairs of a register. `opened` has the chairs that changes opened, with their numbers. */
function snapshotOf(register: Register, opened: ReadonlyMap<number, number> = new Map()): Snapshot {
  const seats = Object.entries(register.members).map(([code, it]): Seat => ({ code, ...it }));
  const open = Object.keys(register.chairs).map(Number);
  return { seats, open, opened: Object.fromEntries([...opened].filter(([chair]) => open.includes(chair))) };
}

/** The replay of a script that ends in no fault. */
function soundReplay(text: string): Replay {
  const run = replay(text);
  if (!run.fault) return run;
  const { number, record } = run.fault;
  throw new Refused(number, undefined, { record });
}

/** What a script has: its base, its other commands, and the majorities of its readings. */
function partsOf(script: Script, text: string): Opened {
  const whole = /[\r\n]$/.test(text) ? text : `${text}\n`;
  let first = 0;
  while (first < script.length && !isRead(script.item(first)?.kind)) first += 1;
  const isLong = script.length - first > MOST_LISTED;
  const [commands, read] = [new Array<Command>(), new Set<Majority>()];
  for (let at = isLong ? script.length - MOST_LISTED : first; at < script.length; at += 1) {
    const item = script.item(at);
    if (item?.majority) read.add(item.majority);
    if (!item || isLong || item.kind === "publish" || item.kind === "read") continue;
    const { kind, code, chair, votes } = item;
    commands.push({ kind, code, chair, votes });
  }
  const cut = script.item(first)?.from ?? whole.length;
  const majorities = MAJORITIES.filter((it) => read.has(it));
  return { base: isLong ? whole : whole.slice(0, cut), commands, majorities, long: isLong ? script.length : 0 };
}

const isRead = (kind: string | undefined): boolean => kind === "publish" || kind === "read";

/** The registers that the page works with. */
export class Engine {
  readonly #bases = new Map<number, Kept>();
  /** The script that was read last, which is often kept as a base next. */
  #last: { readonly text: string; readonly run: Replay } | null = null;

  #kept(base: number): Kept {
    const kept = this.#bases.get(base);
    if (!kept) throw new Error(`there is no base ${base}`);
    return kept;
  }

  #keep(number: number, script: string): void {
    const run = this.#last?.text === script ? this.#last.run : replay(script);
    this.#last = null;
    const register = run.register();
    this.#bases.set(number, { register, readings: new Map(), changed: null, done: [] });
    const [oldest] = this.#bases.keys();
    if (this.#bases.size <= MOST_BASES || oldest === undefined) return;
    const { register: one, changed } = this.#kept(oldest);
    for (const it of [one, changed]) it?.free();
    this.#bases.delete(oldest);
  }

  #open(text: string): Opened {
    const run = soundReplay(text);
    this.#last = { text, run };
    return partsOf(run.script, text);
  }

  /** Brings a base's changed register to these changes: those that it has from the last count stay. */
  #changed({ base, changes }: Board): Changed {
    const kept = this.#kept(base);
    const { done, register } = kept;
    // A copy takes as long as the base's script is.
    if (changes.length === 0 && !kept.changed) return { ...kept, changed: register };
    const changed = (kept.changed ??= register.copy());
    const texts = changes.map(({ on, what }) => JSON.stringify([on, what]));
    const shared = done.findIndex((it, at) => it.text !== texts[at]);
    if (shared >= 0) done.length = shared;
    const accepted = done[done.length - 1]?.accepted ?? register.accepted;
    if (changed.accepted !== accepted) changed.undo(accepted);
    for (const [at, it] of changes.entries()) {
      if (at < done.length) continue;
      const outcome = outcomeOf(changed, it);
      done.push({ text: texts[at] ?? "", outcome, accepted: changed.accepted });
    }
    return { ...kept, changed };
  }

  #count(board: Board, majorities: readonly Majority[]): Counts {
    const { register, readings, changed, done } = this.#changed(board);
    const missing = majorities.filter((it) => !readings.has(it));
    for (const it of missing.length ? readingsOf(register, missing) : []) readings.set(it.majority, it);
    const outcomes = done.map((it) => it.outcome);
    return {
      before: majorities.flatMap((it) => readings.get(it) ?? []),
      after: readingsOf(changed, majorities),
      opening: snapshotOf(register),
      standing: snapshotOf(changed, openedBy(board.changes, outcomes)),
      outcomes: new Map(board.changes.map((it, at) => [it.id, outcomes[at] ?? OFF])),
      commands: outcomes.flatMap((it) => ("commands" in it ? it.commands : [])),
    };
  }

  /** A copy of a base's register with changes. */
  #copy(board: Board): Register {
    return this.#changed(board).changed.copy();
  }

  /** Carries out an order. */
  async carryOut<Some extends Kind>(
    kind: Some,
    ask: Orders[Some]["ask"],
    progress: Progress,
  ): Promise<Orders[Some]["answer"]> {
    const acts: { readonly [Any in Kind]: (ask: Orders[Any]["ask"]) => unknown } = {
      module: (bytes) => (loadSync(bytes), null),
      table: (rows) => withRegister(new Register(rows), (it) => it.script()),
      script: (text) => this.#open(text),
      base: ({ number, script }) => (this.#keep(number, script), null),
      count: (it) => this.#count(it, it.majorities),
      sweep: (it) => withRegister(this.#copy(it), (board) => sweptPart(board, it, progress)),
      turns: (it) => withRegister(this.#copy(it), (board) => turnsOf(board, it, progress)),
      best: (it) => withRegister(this.#copy(it), (board) => triedMoves(board, it, progress)),
      lines: (script) => replayText(script).text,
      check: ({ script, readings }) => isGivenBy(script, readings),
      read: (given) => unpackedContents(given),
      pack: (texts) => packed(texts),
      plain: (weights) => plainCount(weights),
    };
    return (await acts[kind](ask)) as Orders[Some]["answer"];
  }
}

/** Whether a script's last readings are these. */
function isGivenBy(script: string, readings: readonly Reading[]): boolean {
  const text = (it: Reading) => JSON.stringify(it, (_, value) => (typeof value === "bigint" ? String(value) : value));
  const found = Array.from(replay(script).readings, readingOf).slice(-readings.length);
  return found.length === readings.length && found.every((it, at) => text(it) === text(readings[at] ?? it));
}

/** The chairs that accepted changes opened, each with the number of the last of them. */
function openedBy(changes: readonly Change[], outcomes: readonly Outcome[]): Map<number, number> {
  const opens = changes.flatMap(({ id }, at) => {
    const outcome = outcomes[at];
    const commands = outcome?.kind === "accepted" ? outcome.commands : [];
    return commands.flatMap(({ kind, chair }): [number, number][] => (kind === "open" ? [[Number(chair), id]] : []));
  });
  return new Map(opens);
}

/** What a function gives of a register, which is freed after it. */
async function withRegister<Value>(
  register: Register,
  act: (register: Register) => Value | Promise<Value>,
): Promise<Value> {
  try {
    return await act(register);
  } finally {
    register.free();
  }
}
