/** The register: members, their votes, and the chairs that cast them. */
import { ChairNames } from "./chairNames.js";
import { Command, checked, recordOf, refusal, structOf, wrongField, type CommandParts } from "./commands.js";
import { Handle } from "./handle.js";
import type { Indices } from "./indices.js";
import { shared } from "./load.js";
import { CHAIRS, MEMBERS, MEMBER_VOTES, PUBLISH, READ, ALLOWED, type Kind, type Majority } from "./names.js";
import * as refused from "./refused.js";
import { Refused, inRecord, refusedCommand, sentenceOf, type Place } from "./refused.js";
import { pieces, type Piece } from "./script.js";
import { chairNames, rowsOf, wrongCode, type MemberColumns, type MemberRow, type Row } from "./tables.js";
import { bytesOf, inputOf, isList, isWhole, journalOf, options, text, whole, wrongType, type Whole } from "./values.js";

declare global {
  interface SymbolConstructor {
    readonly dispose: unique symbol;
  }
}

/** A member of a register. */
export interface Member {
  /** Its votes, also while they are suspended. */
  readonly votes: number;
  /** The number of its chair, or null for a member in no chair. */
  readonly chair: number | null;
  /** Whether its votes are suspended. */
  readonly suspended: boolean;
}

/** Votes by code: an object, a Map, or a list of pairs. */
export type Votes = Readonly<Record<string, Whole>> | Iterable<readonly [code: string, votes: Whole]>;

/** What `submit` takes: records as text, a command, or a list of these. */
export type Commands = string | CommandParts | readonly (string | CommandParts)[] | Iterable<string | CommandParts>;

/** Options of a register. */
export interface RegisterOptions {
  /** The most commands that it accepts, from 1 to 1,000,000, which it is without this option. */
  readonly journal?: Whole;
}

/** Options of the register of a script. */
export interface ScriptOptions extends RegisterOptions {
  /** The names of chairs that are open at its end, by number, as `chairNames` gives them: a script has none. */
  readonly names?: Readonly<Record<number, string>> | ReadonlyMap<number, string>;
}

/** Whether a value is a table: a list of rows that are no pairs, or an object with a list in it. */
function isTable(members: object): boolean {
  if (members instanceof Map) return false;
  if (isList(members)) return !Array.isArray(Array.from(members)[0]);
  return Object.values(members).some((it) => typeof it === "object" && it !== null);
}

/** The rows of votes by code. Those of an object and a Map have no number. */
function rowsOfVotes(votes: Votes): Row[] {
  const isPairs = isList(votes) && !(votes instanceof Map);
  const pairs: unknown[] = isList(votes) ? Array.from(votes) : Object.entries(votes);
  return pairs.map((it, at) => {
    const [row, place] = isPairs ? [at + 1, `row ${at + 1}: `] : [0, ""];
    if (!Array.isArray(it) || it.length !== 2) throw wrongType(`row ${at + 1} is`, it, "a code and its votes");
    const code = text(it[0], `${place}the code is`, ALLOWED.code);
    const about = isPairs ? `${place}the votes are` : `the votes of ${code} are`;
    const votes = whole(it[1], about, ALLOWED.votes, refused.BAD_RECORD);
    return { row, code, votes, chair: null, name: null, suspended: false };
  });
}

function rowsOfMembers(members: unknown): Row[] {
  if (typeof members !== "object" || members === null) {
    throw wrongType("the members are", members, "votes by code, or a table");
  }
  const list = isList(members) && !(members instanceof Map) ? Array.from(members) : members;
  return isTable(list) ? rowsOf(list, "register") : rowsOfVotes(list as Votes);
}

/** Why a register can't start with these members. */
function whyNotStarted(number: number, rows: readonly Row[]): Refused | undefined {
  if (number === refused.TOO_MANY_MEMBERS) {
    return new Refused(number, `${rows.length} members: a register has at most ${MEMBERS} members`);
  }
  const large = rows.find(({ votes }) => votes > MEMBER_VOTES);
  if (number !== refused.VOTES_TOO_LARGE || !large) return wrongCode(rows);
  const { row, code, votes } = large;
  const about = row ? `row ${row}: the votes are` : `the votes of ${code} are`;
  return new Refused(number, `${about} ${votes}: ${ALLOWED.votes}`, row ? { row } : {});
}

/** The commands that seat the members of a table. */
function seating(rows: readonly Row[]): CommandParts[] {
  const seated = rows.filter(({ chair }) => chair !== null);
  const chairs = [...new Set(seated.map(({ chair }) => chair!))].sort((one, other) => one - other);
  return [
    ...chairs.map((chair) => ({ kind: "open", chair }) as const),
    ...seated.map(({ code, chair }) => ({ kind: "move", code, chair }) as const),
    ...rows.filter(({ suspended }) => suspended).map(({ code }) => ({ kind: "suspend", code }) as const),
  ];
}

const nameOf = (name: unknown): string | null => (name === null ? null : text(name, "the name is", ALLOWED.name));

/** The pairs of an object or a Map of names by chairs. */
function namesOf(names: unknown): (readonly [chair: number, name: string])[] {
  if (typeof names !== "object" || names === null) throw wrongType("the names are", names, "texts by chairs");
  const pairs: [unknown, unknown][] = names instanceof Map ? [...names] : Object.entries(names);
  return pairs.map(([chair, name]) => [Number(chair), text(name, `the name of chair ${chair} is`, ALLOWED.name)]);
}

/** A record to be carried out. Its refusal has the number of the record, unless it is alone. */
interface Order {
  readonly kind: number;
  readonly struct: Uint8Array;
  readonly refusal: (number: number, isAlone?: boolean) => Refused;
}

const decoder = new TextDecoder();
/** The bytes of a faulty record that a message shows. */
const SHOWN = 60;
/** A text of a single line has at most one record. */
const SEVERAL_LINES = /[\r\n][^\r\n]/;

/** The records of a piece of a text. */
function* ordersOf(piece: Piece, bytes: Uint8Array, base: number): Generator<Order, void> {
  const { records, length, numbers, offset, fault } = piece;
  for (let at = 0; at < length; at++) {
    const refusal = (number: number, isAlone = false): Refused => {
      const command = decoder.decode(bytes.subarray(offset + records.from(at), offset + records.to(at)));
      return refusedCommand(number, command, isAlone ? {} : { record: base + numbers + records.record(at) });
    };
    yield { kind: records.kind(at), struct: records.command(at), refusal };
  }
  if (fault) throw refusalOfFault(piece, bytes, base);
}

/** The refusal of a text for its fault, with the first of the text from where the faulty record begins. */
function refusalOfFault({ numbers, fault, faulty }: Piece, bytes: Uint8Array, base: number): Refused {
  const { number, record } = fault!;
  const place = record === 0 ? {} : { record: base + numbers + record };
  if (faulty === undefined) return new Refused(number, inRecord(sentenceOf(number), place), place);
  const [command = ""] = decoder.decode(bytes.subarray(faulty, faulty + SHOWN)).trim().split(/[\r\n]/);
  const { message } = refusedCommand(number, command, place);
  const field = number === refused.BAD_RECORD ? wrongField(command) : "";
  return new Refused(number, message + field, { command, ...place });
}

function orderOf(given: CommandParts, place: Place = {}): Order {
  const command = checked(given);
  return { kind: 0, struct: structOf(command), refusal: (number) => refusal(number, command, place) };
}

/** The records of a text after `base` others; returns how many there are then. */
function* ordersOfText(text: string, base: number): Generator<Order, number> {
  const bytes = bytesOf(text);
  let last = base;
  for (const piece of pieces(bytes, false)) {
    yield* ordersOf(piece, bytes, base);
    if (piece.length > 0) last = base + piece.numbers + piece.records.record(piece.length - 1);
  }
  return last;
}

/** The records of what `submit` takes, one by one. */
function* orders(commands: Commands): Generator<Order, void> {
  if (typeof commands !== "string" && !isList(commands)) {
    yield orderOf(commands as CommandParts);
    return;
  }
  let base = 0;
  for (const it of typeof commands === "string" ? [commands] : Array.from<string | CommandParts>(commands)) {
    if (typeof it === "string") base = yield* ordersOfText(it, base);
    else yield orderOf(it, { record: ++base });
  }
}

/** Carries out records on a register. */
function carryOut(handle: Handle, list: Iterable<Order>, reads: "refused" | "left out"): void {
  for (const { kind, struct, refusal } of list) {
    if (kind === PUBLISH) handle.publish();
    else if (kind !== READ) {
      const number = handle.apply(struct);
      if (number !== 0) throw refusal(number);
    } else if (reads === "refused") throw refusal(refused.BAD_RECORD);
  }
}

/**
 * A register of members, their votes and their chairs. It carries out commands; a refused one throws `Refused` with the
 * number and the name of docs/FORMATS.md, and changes nothing. Votes are whole numbers from 0 to 2^40, codes three
 * ASCII capitals, chairs are numbered from 1 to 32, and there are at most 256 members at any moment.
 *
 * Its state is in the module's memory: `free` gives it back, and so does the end of a block that begins with `using`;
 * otherwise it is given back some time after nothing refers to the register any more.
 *
 * @example
 * const register = new Register({ AAA: 50, BBB: 49, CCC: 1 });
 * [1, 2, 3].forEach((chair) => register.open(chair));
 * Object.keys(register.members).forEach((code, at) => register.move(code, at + 1));
 * String(register.indices("half").chairs[0].share); // "3/5"
 */
export class Register {
  /** `free`, at the end of a block that begins with `using`. */
  declare readonly [Symbol.dispose]: () => void;
  #handle: Handle;
  #names: ChairNames;

  /**
   * A register of these members: their votes by their codes, in which case no chair is open; or a table with the
   * columns `code` and `votes`, and if wanted `chair`, `chair_name` and `suspended`. The chairs of a table are opened
   * by number, its members moved to them in its order, and suspended as it says, by commands that are in the journal.
   *
   * `Refused` with the row: BadMember (15), VotesTooLarge (16), BadRecord (17) for other votes, BadChair (14),
   * DuplicateMember (11), TooManyMembers (12); BadLimit (13) for the journal.
   */
  constructor(members: Iterable<readonly [code: string, votes: Whole]>, options?: RegisterOptions);
  constructor(members: Iterable<MemberRow>, options?: RegisterOptions);
  constructor(members: MemberColumns, options?: RegisterOptions);
  constructor(members: Readonly<Record<string, Whole>>, options?: RegisterOptions);
  constructor(members: unknown, given: RegisterOptions = {}) {
    if (members instanceof Started) {
      [this.#handle, this.#names] = [members.handle, members.names];
    } else {
      const journal = journalOf(options(given, "journal").journal);
      const rows = rowsOfMembers(members);
      const names = chairNames(rows, "register");
      this.#handle = started(rows, journal);
      this.#names = new ChairNames();
      for (const [chair, name] of names) this.rename(chair, name);
    }
    Object.defineProperties(this, VIEWS);
  }

  /**
   * The register of a script, which is text or UTF-8 in bytes, also of more than 4 MiB: its commands and publications
   * are carried out, and its readings left out. `Refused` with the record's number for a refused command or a fault.
   */
  static fromScript(script: string | Uint8Array, given: ScriptOptions = {}): Register {
    const { journal: limit, names = {} } = options(given, "journal", "names");
    const [journal, bytes, named] = [journalOf(limit), inputOf(script), namesOf(names)];
    let handle: Handle | undefined;
    try {
      for (const piece of pieces(bytes, true)) {
        const { length, fault, records } = piece;
        if (!handle && fault && length === 0) throw refusalOfFault(piece, bytes, 0);
        handle ??= Handle.start(shared(), records.members, journal);
        carryOut(handle, ordersOf(piece, bytes, 0), "left out");
      }
      const register = registerOf(handle!);
      for (const [chair, name] of named) register.rename(chair, name);
      return register;
    } catch (why) {
      handle?.free();
      throw why;
    }
  }

  /** Carries out records, all or none: where one is refused, the register is taken back, which needs no memory. */
  #carryOut(list: Iterable<Order>): number {
    const handle = this.#handle;
    const { accepted, published } = handle;
    try {
      carryOut(handle, list, "refused");
    } catch (why) {
      if (handle.accepted !== accepted || handle.published !== published) handle.undo(accepted, published);
      throw why;
    }
    return handle.accepted;
  }

  #command(kind: Kind, code: string | null, chair: Whole | null | undefined, votes: Whole | null): number {
    return this.#carryOut([orderOf({ kind, code, chair, votes })]);
  }

  /** Opens a closed chair, which has this name until it is closed: a chair that is closed and opened again is a new
   * chair, without a name. Each command returns the number of accepted commands. */
  open(chair: Whole, name: string | null = null): number {
    const given = nameOf(name);
    const accepted = this.#command("open", null, chair, null);
    if (given !== null) this.#names.set(accepted, given);
    return accepted;
  }

  /**
   * Gives an open chair another name, or with null none, from when it was opened until it is closed. It is no command:
   * the journal, scripts and `undo` know nothing of it. `Refused` as BadChair (14) or ChairNotOpen (2).
   */
  rename(chair: Whole, name: string | null): void {
    const number = Number(checked({ kind: "open", chair }).chair);
    if (number > CHAIRS) throw new Refused(refused.BAD_CHAIR, `the chair is ${number}: ${ALLOWED.chair}`);
    const [given, opening] = [nameOf(name), this.#names.opening(this.#handle, number)];
    if (opening === undefined) {
      throw new Refused(refused.CHAIR_NOT_OPEN, `no name for chair ${number}: ${sentenceOf(refused.CHAIR_NOT_OPEN)}`);
    }
    this.#names.set(opening, given);
  }

  /** Closes an open chair without members. */
  close(chair: Whole): number {
    return this.#command("close", null, chair, null);
  }

  /** Moves a member to an open chair, or with null to none. */
  move(code: string, chair: Whole | null): number {
    return this.#command("move", code, chair, null);
  }

  /** Sets the votes of a member. */
  setVotes(code: string, votes: Whole): number {
    return this.#command("votes", code, null, votes);
  }

  /** Suspends a member's votes; it stays in its chair. */
  suspend(code: string): number {
    return this.#command("suspend", code, null, null);
  }

  /** Ends a suspension. */
  restore(code: string): number {
    return this.#command("restore", code, null, null);
  }

  /** Adds a member, in no chair. */
  admit(code: string, votes: Whole): number {
    return this.#command("admit", code, null, votes);
  }

  /** Removes a member that is in no chair. */
  withdraw(code: string): number {
    return this.#command("withdraw", code, null, null);
  }

  /**
   * Carries out records of a script as text, a command, or a list of these: all or none. Records `publish` publish.
   * Bad records and records `read` are `Refused` as BadRecord (17). A refusal has the number of its record, from 1.
   *
   * @example
   * register.submit("open,4\nmove,AAA,4\npublish\n");
   * register.submit({ kind: "move", code: "AAA", chair: null });
   */
  submit(commands: Commands): number {
    const isOfLines = typeof commands === "string" && SEVERAL_LINES.test(commands);
    return this.#carryOut(isOfLines ? orders(commands) : [...orders(commands)]);
  }

  #one(command: string | CommandParts): Order {
    const [one, ...others] = orders(command);
    if (one && others.length === 0 && one.kind < PUBLISH) return one;
    throw new Refused(refused.BAD_RECORD, `${sentenceOf(refused.BAD_RECORD)}: one command`);
  }

  /** What would refuse a command, or null; a value that no command has throws. Nothing is carried out. */
  check(command: string | CommandParts): Refused | null {
    const { struct, refusal } = this.#one(command);
    const number = this.#handle.check(struct);
    return number === 0 ? null : refusal(number, true);
  }

  /** Carries out a command. Its refusal is returned, or null. A value that no command has throws. */
  attempt(command: string | CommandParts): Refused | null {
    const { struct, refusal } = this.#one(command);
    const number = this.#handle.apply(struct);
    return number === 0 ? null : refusal(number, true);
  }

  /** Publishes all accepted commands, and returns their number. */
  publish(): number {
    return this.#handle.publish();
  }

  /** The number of accepted commands. */
  get accepted(): number {
    return this.#handle.accepted;
  }

  /** The number of published commands. */
  get published(): number {
    return this.#handle.published;
  }

  /** The voting power as the register stands. */
  indices(majority: Majority): Indices {
    return this.#handle.indices("counts", majority, this.#names.now(this.#handle));
  }

  /** The voting power as the register stands, by each majority. */
  indicesOfAll(): Record<Majority, Indices> {
    return this.#handle.indicesOfAll(this.#names.now(this.#handle));
  }

  /** The voting power after the published commands, which is what readers see: at first that of the opening. */
  read(majority: Majority): Indices {
    return this.#handle.indices("read", majority, this.#names.published(this.#handle));
  }

  /** The members by their codes, in the order of entry. */
  get members(): Record<string, Member> {
    return Object.fromEntries(Array.from(this.#handle.members(), ({ code, ...member }) => [code, member]));
  }

  /** The open chairs by their numbers, each with the codes of its members in the order of entry. */
  get chairs(): Record<number, string[]> {
    const chairs: Record<number, string[]> = {};
    this.#handle.sheet().slice(0, -2).forEach((word, at) => {
      if (word > 0) chairs[at + 1] = [];
    });
    for (const { code, chair } of this.#handle.members()) if (chair !== null) chairs[chair]!.push(code);
    return chairs;
  }

  /** The names of the open chairs that have one, by their numbers: from a table, `open`, `rename` or `fromScript`. */
  get chairNames(): Record<number, string> {
    return Object.fromEntries(this.#names.now(this.#handle));
  }

  /** The votes of the members with which the register started, by code. */
  get opening(): Record<string, number> {
    return Object.fromEntries(Array.from(this.#handle.entries(), ({ code, votes }) => [code, votes]));
  }

  /** The accepted commands. */
  get journal(): Command[] {
    return [...this.#handle.commands()];
  }

  /** The register as a script, which `fromScript` and `replay` take: its opening, its journal, and `publish`. It has no
   * names of chairs, which are in `chairNames`. */
  script(): string {
    const lines = ["member,votes", ...Object.entries(this.opening).map((it) => it.join(",")), "script"];
    const { published } = this;
    let at = 0;
    for (const it of this.#handle.commands()) {
      lines.push(recordOf(it));
      if (++at === published) lines.push("publish");
    }
    return `${lines.join("\n")}\n`;
  }

  /** A copy, which changes independently. */
  copy(): Register {
    return registerOf(this.#handle.copy(this.accepted), this.#names.first(this.accepted));
  }

  /**
   * What a function answers of a copy, which is freed when it ends, so that thousands of questions take the memory of
   * one.
   *
   * @example
   * register.whatIf((copy) => (copy.open(4), copy.indicesOfAll().quorum.leastSize));
   */
  whatIf<Answer>(ask: (copy: Register) => Answer): Answer {
    const copy = this.copy();
    try {
      return ask(copy);
    } finally {
      copy.free();
    }
  }

  /**
   * Goes back to the first `to` commands; without it, the last command is undone. Those of them that were published
   * stay published: if more than `to` were, all that are left are published, and `read` counts the register after them.
   * Another number is `Refused` as BadIndex (35). Returns the number of accepted commands.
   */
  undo(to: Whole = this.accepted - 1): number {
    const { accepted } = this;
    if (!isWhole(to) || to > accepted) {
      if (typeof to !== "number" && typeof to !== "bigint") throw wrongType("the length is", to, ALLOWED.length);
      throw new Refused(refused.BAD_INDEX, `the length is ${to}: ${ALLOWED.length}, ${accepted}`);
    }
    this.#handle.undo(Number(to), Number(to));
    this.#names = this.#names.first(Number(to));
    return Number(to);
  }

  /** Gives the memory back. Later calls are `Refused` as NoRegister (34), but a second `free` does nothing. */
  free(): void {
    this.#handle.free();
  }

  /** What a console shows. */
  toString(): string {
    const [members, chairs] = [Object.keys(this.members).length, Object.keys(this.chairs).length];
    return `Register(members: ${members}, chairs: ${chairs}, accepted: ${this.accepted}, published: ${this.published})`;
  }

  [Symbol.for("nodejs.util.inspect.custom")](): string {
    return this.toString();
  }
}

/** A register that has a handle. */
class Started {
  constructor(
    readonly handle: Handle,
    readonly names: ChairNames,
  ) {}
}

/** The register of a handle. @internal */
export const registerOf = (handle: Handle, names = new ChairNames()): Register =>
  new Register(new Started(handle, names) as never);

/** Starts a register of rows, and seats its members. */
function started(rows: readonly Row[], journal: number): Handle {
  let handle: Handle | undefined;
  try {
    handle = Handle.start(shared(), rows.map(({ code, votes }) => ({ code: code!, votes })), journal);
    carryOut(handle, seating(rows).map((it) => orderOf(it)), "refused");
    return handle;
  } catch (why) {
    handle?.free();
    throw (why instanceof Refused && !handle && whyNotStarted(why.number, rows)) || why;
  }
}

/** What JSON and structuredClone show of a register: these are its own enumerable properties. */
const VIEWS = Object.fromEntries(
  ["members", "chairs", "accepted", "published"].map((name) => {
    const { get } = Object.getOwnPropertyDescriptor(Register.prototype, name)!;
    return [name, { get, enumerable: true }];
  }),
);

// Older browsers don't have the symbol.
const dispose: symbol = Symbol.dispose ?? Symbol.for("Symbol.dispose");
const { free } = Register.prototype;
Object.defineProperty(Register.prototype, dispose, { value: free, configurable: true, writable: true });
