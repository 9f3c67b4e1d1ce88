/** Inputs of `replay`, read by the module: the members, and the records of the script with their places. */
import { partsIn, KIND_NAMES } from "./commands.js";
import { shared, single } from "./load.js";
import { COMMAND, ENTRY, ITEM, WORD, codeIn, wordIn, type Instance } from "./memory.js";
import { INPUT_BYTES, MAJORITIES, MEMBERS, PUBLISH, READ, READERS, type Kind, type Majority } from "./names.js";
import { OUT_OF_MEMORY, Refused, faultOf, type Fault } from "./refused.js";
import { inputOf, options, readersOf, type Whole } from "./values.js";

/** A record of a script. Parts that its kind doesn't have are null. */
export interface Item {
  /** The number of the record in the input, counted from 1. */
  readonly record: number;
  readonly kind: Kind | "publish" | "read";
  readonly code: string | null;
  readonly chair: number | null;
  readonly votes: number | null;
  /** Of read: the number of the reader, from 1, and the majority. */
  readonly reader: number | null;
  readonly majority: Majority | null;
  /** The record's bytes are those of the input from this offset up to, and without, the one at `to`. */
  readonly from: number;
  readonly to: number;
}

/** Inputs up to this length are read in the memory that registers use, longer ones in memory that is given back. */
const SHORT = 1 << 16;
/** No record with its line end is shorter than this; more records than fit are read again with more room. */
const SHORTEST = 7;

/** An input as the module reads it: its faults are found, and nothing is carried out. @internal */
export class Records {
  readonly members: readonly { readonly code: string; readonly votes: number }[];
  readonly length: number;
  readonly fault: Fault | null;
  /** The structs of the items, in memory of their own. */
  readonly #view: DataView;

  constructor(input: Uint8Array, readers: number) {
    const instance = input.length <= SHORT ? shared() : single();
    const places: number[] = [];
    try {
      const place = (at: number): number => (places.push(at), at);
      const found = scriptIn(instance, input, readers, place);
      this.members = found.members;
      this.length = found.length;
      this.fault = found.fault;
      this.#view = found.items;
    } finally {
      if (instance.isSound) for (const at of places) instance.release(at);
    }
  }

  #word(at: number, place: number): number {
    return this.#view.getUint32(ITEM * at + place, true);
  }

  kind(at: number): number {
    return this.#word(at, 0);
  }

  record(at: number): number {
    return this.#word(at, COMMAND);
  }

  from(at: number): number {
    return this.#word(at, COMMAND + 12);
  }

  to(at: number): number {
    return this.#word(at, COMMAND + 16);
  }

  /** The struct of a command. */
  command(at: number): Uint8Array {
    return new Uint8Array(this.#view.buffer, ITEM * at, COMMAND);
  }

  item(at: number): Item {
    const number = this.kind(at);
    const command = KIND_NAMES[number];
    const parts = command ? partsIn(this.#view, ITEM * at, command) : { code: null, chair: null, votes: null };
    const isRead = number === READ;
    return {
      record: this.record(at),
      kind: command ?? (number === PUBLISH ? "publish" : "read"),
      ...parts,
      reader: isRead ? this.#word(at, COMMAND + 4) : null,
      majority: isRead ? MAJORITIES[this.#word(at, COMMAND + 8)]! : null,
      from: this.from(at),
      to: this.to(at),
    };
  }
}

/** Reads an input in an instance. `place` takes each address that is reserved. */
function scriptIn(instance: Instance, input: Uint8Array, readers: number, place: (at: number) => number) {
  const given = place(instance.put(input));
  const [counts, members] = [place(instance.reserve(3 * WORD)), place(instance.reserve(ENTRY * MEMBERS))];
  for (let room = Math.floor(input.length / SHORTEST) + 1; ; ) {
    const items = place(instance.reserve(ITEM * room));
    const record = counts + 2 * WORD;
    const lists = [members, MEMBERS, counts, items, room, counts + WORD, record].map(BigInt);
    const number = instance.call("board_script", BigInt(given), BigInt(input.length), readers, ...lists);
    if (number === OUT_OF_MEMORY) throw new Refused(OUT_OF_MEMORY);
    const { view } = instance;
    const length = wordIn(view, counts + WORD);
    if (length <= room) {
      const entries = Array.from({ length: Math.min(wordIn(view, counts), MEMBERS) }, (_, at) => ({
        code: codeIn(view, members + ENTRY * at),
        votes: wordIn(view, members + ENTRY * at + WORD),
      }));
      const copied = instance.bytes(items, ITEM * length).slice();
      const fault = faultOf(number, view.getUint32(record, true));
      return { members: entries, length, fault, items: new DataView(copied.buffer) };
    }
    room = length;
  }
}

/** The records of a script. @internal */
export let recordsOf: (script: Script) => Records;

/**
 * An input of `replay` as data: its members, the records of its script with the places of their bytes, and the fault
 * that ends its replay, if there is one; the records are then those before it. Nothing is carried out.
 *
 * @example
 * const script = new Script("member,votes\nAAA,50\nscript\nopen,1\n");
 * script.members; // [{ code: "AAA", votes: 50 }]
 * for (const { record, kind, from, to } of script) console.log(record, kind, from, to); // 4 open 27 33
 */
export class Script implements Iterable<Item> {
  /** The members, in the order of the input. */
  readonly members: readonly { readonly code: string; readonly votes: number }[];
  /** The fault that ends a replay of this input, or null. */
  readonly fault: Fault | null;
  /** The number of records of the script, without the faulty one. */
  readonly length: number;
  readonly #records: Records;

  /** Takes text, or bytes, which are UTF-8. Readers out of range are `Refused` as BadLimit (13). */
  constructor(input: string | Uint8Array, given: { readers?: Whole } = {}) {
    const { readers } = options(given, "readers");
    this.#records = new Records(inputOf(input), readersOf(readers));
    ({ members: this.members, fault: this.fault, length: this.length } = this.#records);
  }

  /** The record at an index from 0; undefined if there is none. */
  item(index: number): Item | undefined {
    return Number.isInteger(index) && index >= 0 && index < this.length ? this.#records.item(index) : undefined;
  }

  *[Symbol.iterator](): Generator<Item, void> {
    for (let at = 0; at < this.length; at++) yield this.#records.item(at);
  }

  static {
    recordsOf = (script) => script.#records;
  }
}

const BEGUN = new TextEncoder().encode("member,votes\nscript\n");
/** The records before those of a piece. */
const BEFORE = 2;

/** A piece of a text: its records, and where they stand in the text. @internal */
export interface Piece {
  readonly records: Records;
  /** How many of its records are carried out; the next piece begins with the others. */
  readonly length: number;
  /** What is added to the number of a record of the piece, and to an offset in it, for those of the text. */
  readonly numbers: number;
  readonly offset: number;
  /** The fault of the text, if the piece has it. */
  readonly fault: Fault | null;
  /** Where the faulty record, or a line end before it, begins in the text; that isn't known of a member's record. */
  readonly faulty: number | undefined;
}

const isLineEnd = (byte: number | undefined): boolean => byte === 10 || byte === 13;

/**
 * The records of a text in pieces, each as long as the module reads. The text is a whole input, or has only records of
 * a script. A record that ends where a piece is cut may be cut itself, and is read again at the start of the next.
 * @internal
 */
export function* pieces(text: Uint8Array, isInput: boolean): Generator<Piece, void> {
  let [at, numbers, begun] = [0, isInput ? 0 : -BEFORE, isInput ? BEGUN.subarray(0, 0) : BEGUN];
  for (let end = 0; end < text.length || begun.length === 0; begun = BEGUN) {
    end = Math.min(text.length, at + INPUT_BYTES - begun.length);
    const input = new Uint8Array(begun.length + end - at);
    input.set(begun);
    input.set(text.subarray(at, end), begun.length);
    const records = new Records(input, READERS);
    const [offset, isCut] = [at - begun.length, end < text.length];
    const last = records.length - 1;
    const isLastCut = isCut && !records.fault && last >= 0 && records.to(last) === input.length;
    const length = records.length - Number(isLastCut);
    // A fault may be that of a cut record, unless no record comes before it.
    const fault = isCut && length > 0 ? null : records.fault;
    const faulty = length > 0 ? offset + records.to(length - 1) : begun.length > 0 ? at : undefined;
    yield { records, length, numbers, offset, fault, faulty };
    if (fault) return;
    numbers += (length > 0 ? records.record(length - 1) : records.members.length + BEFORE) - BEFORE;
    if (isLastCut || records.fault) end = length > 0 ? offset + records.to(length - 1) : offset + records.from(last);
    at = end;
    while (isLineEnd(text[at])) at++;
    end = at;
  }
}
