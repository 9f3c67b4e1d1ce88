/** A register of the module by its handle: the calls of board.h. */
import { allIn, indicesIn, noMajority, type Indices, type Names } from "./indices.js";
import { commandIn, type Command } from "./commands.js";
import { ENTRY, WORD, codeIn, putCode, putWord, wordIn, type Shared } from "./memory.js";
import type { Majority } from "./names.js";
import { BAD_RECORD, NO_REGISTER, Refused } from "./refused.js";
import { majorityNumber, type Whole } from "./values.js";

/** A member with which a register starts. */
export interface Entry {
  readonly code: string;
  readonly votes: Whole;
}

interface Held {
  instance: Shared;
  handle: bigint;
}

function release({ instance, handle }: Held): void {
  if (!instance.isSound) return;
  instance.call("board_register_free", handle);
  instance.release(Number(handle));
}

/** Frees registers that nothing refers to. */
const collected = new FinalizationRegistry(release);

function mustBeDone(answer: number): void {
  if (answer !== 0) throw new Refused(answer);
}

export class Handle {
  readonly #instance: Shared;
  /** The address of the handle; none after the register was freed. */
  #at: bigint | undefined;

  constructor(instance: Shared, begin: (handle: bigint) => number) {
    const handle = instance.handle();
    const answer = begin(handle);
    if (answer !== 0) instance.release(Number(handle));
    mustBeDone(answer);
    this.#instance = instance;
    this.#at = handle;
    collected.register(this, { instance, handle }, this);
  }

  /** A register of these members. */
  static start(instance: Shared, entries: readonly Entry[], journal: number): Handle {
    return instance.lend(ENTRY * entries.length, (list) => {
      entries.forEach(({ code, votes }, at) => {
        putCode(instance.view, list + ENTRY * at, code);
        putWord(instance.view, list + ENTRY * at + WORD, votes);
      });
      const given = [BigInt(list), BigInt(entries.length), journal];
      return new Handle(instance, (handle) => instance.call("board_register_start", ...given, handle));
    });
  }

  get #handle(): bigint {
    if (this.#at === undefined) throw new Refused(NO_REGISTER, "the register was freed");
    return this.#at;
  }

  /** Makes a call that takes the struct of a command; the number of the refusal, or 0. */
  #commanded(name: string, command: Uint8Array, ...given: bigint[]): number {
    const { struct } = this.#instance;
    this.#instance.bytes(struct, command.length).set(command);
    return this.#instance.call(name, this.#handle, BigInt(struct), ...given);
  }

  /** Carries out a command; the number of the refusal, or 0. */
  apply(command: Uint8Array): number {
    return this.#commanded("board_register_apply", command, BigInt(this.#instance.counts));
  }

  check(command: Uint8Array): number {
    return this.#commanded("board_register_check", command);
  }

  publish(): number {
    mustBeDone(this.#instance.call("board_register_publish", this.#handle, BigInt(this.#instance.struct)));
    return this.published;
  }

  get accepted(): number {
    return this.#instance.call("board_register_accepted", this.#handle);
  }

  get published(): number {
    return this.#instance.call("board_register_published", this.#handle);
  }

  /** The structs of a list, one after another. */
  #all<Item>(length: string, name: string, read: (view: DataView, at: number) => Item): Generator<Item, void> {
    return this.#each(0, this.#instance.call(length, this.#handle), name, read);
  }

  *#each<Item>(
    from: number,
    to: number,
    name: string,
    read: (view: DataView, at: number) => Item,
  ): Generator<Item, void> {
    const { struct } = this.#instance;
    for (let at = from; at < to; at++) {
      mustBeDone(this.#instance.call(name, this.#handle, BigInt(at), BigInt(struct)));
      yield read(this.#instance.view, struct);
    }
  }

  members(): Iterable<{ code: string; votes: number; chair: number | null; suspended: boolean }> {
    return this.#all("board_register_members", "board_register_member_at", (view, at) => ({
      code: codeIn(view, at),
      votes: wordIn(view, at + 2 * WORD),
      chair: wordIn(view, at + WORD) || null,
      suspended: view.getUint32(at + 4, true) !== 0,
    }));
  }

  entries(): Iterable<{ code: string; votes: number }> {
    const read = (view: DataView, at: number) => ({ code: codeIn(view, at), votes: wordIn(view, at + WORD) });
    return this.#all("board_register_entries", "board_register_entry_at", read);
  }

  /** The accepted commands, or some of them. */
  commands(from = 0, to = this.accepted): Iterable<Command> {
    return this.#each(from, to, "board_register_command_at", commandIn);
  }

  /** The sheet: for each chair its weight plus 1, or 0 if it is closed; the total; the accepted commands. */
  sheet(): number[] {
    const { struct } = this.#instance;
    mustBeDone(this.#instance.call("board_register_sheet", this.#handle, BigInt(struct)));
    return Array.from({ length: 34 }, (_, at) => wordIn(this.#instance.view, struct + WORD * at));
  }

  /** The indices of the register as it stands, or of what is published. */
  indices(of: "counts" | "read", majority: Majority, names?: Names): Indices {
    const answer = this.#instance.count(`board_register_${of}`, this.#handle, majorityNumber(majority));
    if (answer === BAD_RECORD) throw noMajority(majority);
    mustBeDone(answer);
    return indicesIn(this.#instance, majority, names);
  }

  indicesOfAll(names?: Names): Record<Majority, Indices> {
    mustBeDone(this.#instance.count("board_register_all_counts", this.#handle));
    return allIn(this.#instance, names);
  }

  /** A copy of the register after its first commands. */
  copy(accepted: number): Handle {
    const [instance, from] = [this.#instance, this.#handle];
    return new Handle(instance, (handle) => instance.call("board_register_copy", from, accepted, handle));
  }

  /** Takes the register back to its first commands, of which no more than these are published. It needs no memory. */
  undo(accepted: number, published: number): void {
    mustBeDone(this.#instance.call("board_register_undo", this.#handle, accepted, published));
  }

  /** Frees the register, if it wasn't yet. */
  free(): void {
    if (this.#at === undefined) return;
    const held = { instance: this.#instance, handle: this.#at };
    this.#at = undefined;
    collected.unregister(this);
    release(held);
  }
}
