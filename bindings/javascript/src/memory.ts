/**
 * The module: its memory, the structs of board.h in it, and its calls.
 *
 * Addresses and sizes are 64 bits wide in the module's calls, and so bigints; all are far below 2^53.
 */
import { CHAIRS, MAJORITIES, MEMBERS } from "./names.js";
import { OUT_OF_MEMORY, Refused, sentenceOf } from "./refused.js";
import type { Whole } from "./values.js";

/** The bytes of the structs of board.h. */
export const WORD = 8;
export const COUNTS = WORD * (7 + 3 * CHAIRS);
export const MEMBER = 24;
export const ENTRY = 16;
export const COMMAND = 24;
export const ITEM = 48;
export const ROOM = 65536 * 2 * WORD;
export const SHEET = WORD * (CHAIRS + 2);
const HANDLE = 16;
/** The largest number in 64 bits. */
export const LARGEST = 2n ** 64n - 1n;
/** The bytes of a list of members that each instance has room for. */
const LIST = ENTRY * MEMBERS;

/** An argument of a call: an address or a size is a bigint. */
export type Argument = bigint | number;
type Call = (...given: Argument[]) => number | bigint;

/** A whole number from 0 in 64 bits. One that they don't hold becomes the largest. */
export const wordOf = (value: Whole): bigint => (value > LARGEST ? LARGEST : BigInt(value));

/** Puts a whole number from 0 into 64 bits. */
export function putWord(view: DataView, at: number, value: Whole): void {
  if (typeof value === "number" && value <= Number.MAX_SAFE_INTEGER) {
    view.setUint32(at, value, true);
    view.setUint32(at + 4, value / 2 ** 32, true);
  } else {
    view.setBigUint64(at, wordOf(value), true);
  }
}

/** The number in 64 bits. */
export const wordIn = (view: DataView, at: number): number =>
  view.getUint32(at, true) + 2 ** 32 * view.getUint32(at + 4, true);

/** Puts a code and a 0. All that isn't three ASCII characters becomes zeros, which are no code. */
export function putCode(view: DataView, at: number, code: string): void {
  const isCode = /^[\x01-\x7f]{3}$/.test(code);
  for (let place = 0; place < 4; place++) view.setUint8(at + place, isCode && place < 3 ? code.charCodeAt(place) : 0);
}

/** The code in a struct, or "". */
export function codeIn(view: DataView, at: number): string {
  const first = view.getUint8(at);
  return first === 0 ? "" : String.fromCharCode(first, view.getUint8(at + 1), view.getUint8(at + 2));
}

/** An instance of the module. After a call trapped no other is made. */
export class Instance {
  readonly #memory: WebAssembly.Memory;
  readonly #calls: Record<string, Call>;
  #view: DataView;
  /** What the call that trapped threw, if one did. */
  #trap: { cause: unknown } | undefined;

  constructor(module: WebAssembly.Module) {
    const { memory, ...calls } = instanceOf(module).exports;
    this.#memory = memory as WebAssembly.Memory;
    this.#calls = calls as Record<string, Call>;
    this.#view = new DataView(this.#memory.buffer);
  }

  get isSound(): boolean {
    return this.#trap === undefined;
  }

  /** The memory. It moves when it grows, and so is asked for after each call. */
  get view(): DataView {
    if (this.#view.buffer !== this.#memory.buffer) this.#view = new DataView(this.#memory.buffer);
    return this.#view;
  }

  /** The bytes at an address, until memory grows. */
  bytes(at: number, length: number): Uint8Array {
    return new Uint8Array(this.#memory.buffer, at, length);
  }

  /** Makes a call. */
  call(name: string, ...given: Argument[]): number {
    try {
      if (this.#trap === undefined) return Number(this.#calls[name]!(...given));
    } catch (cause) {
      this.#trap = { cause };
    }
    const { cause } = this.#trap!;
    const why = `a call of the module failed, so the registers in its memory can't be used any more: ${cause}`;
    throw Object.assign(new Error(why), { cause });
  }

  /** Reserves bytes, aligned to 16, whose contents are arbitrary. */
  reserve(bytes: number): number {
    const at = this.call("board_reserve", BigInt(bytes));
    if (at === 0) throw new Refused(OUT_OF_MEMORY);
    return at;
  }

  release(at: number): void {
    this.call("board_release", BigInt(at));
  }

  /** Reserves memory for bytes, and puts them there. */
  put(given: Uint8Array): number {
    const at = this.reserve(given.length);
    this.bytes(at, given.length).set(given);
    return at;
  }
}

function instanceOf(module: WebAssembly.Module): WebAssembly.Instance {
  try {
    return new WebAssembly.Instance(module);
  } catch (cause) {
    if (!(cause instanceof RangeError)) throw cause;
    const why = `${sentenceOf(OUT_OF_MEMORY)}: the module can't have its memory: ${cause.message}`;
    throw new Refused(OUT_OF_MEMORY, why);
  }
}

/** An instance for call after call, with places for what a call takes and gives. */
export class Shared extends Instance {
  readonly counts = this.reserve(COUNTS * MAJORITIES.length);
  readonly struct = this.reserve(SHEET);
  readonly #list = this.reserve(LIST);
  /** What a call that counts takes last: its room, and where it writes the counts. */
  readonly #counted = [BigInt(this.reserve(ROOM)), BigInt(this.counts)];

  /** A handle without a register. */
  handle(): bigint {
    return BigInt(this.put(new Uint8Array(HANDLE)));
  }

  /** Lends a place for a list to a call. */
  lend<Answer>(bytes: number, call: (at: number) => Answer): Answer {
    if (bytes <= LIST) return call(this.#list);
    const at = this.reserve(bytes);
    try {
      return call(at);
    } finally {
      if (this.isSound) this.release(at);
    }
  }

  /** Makes a call that writes counts, and returns its answer. */
  count(name: string, ...given: Argument[]): number {
    return this.call(name, ...given, ...this.#counted);
  }
}
