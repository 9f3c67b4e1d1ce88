/** Commands: as objects, as records, and as the module's structs. */
import { COMMAND, WORD, codeIn, putCode, putWord, wordIn } from "./memory.js";
import { ALLOWED, CHAIRS, KINDS, MEMBER_VOTES, type Kind, type Part } from "./names.js";
import { BAD_CHAIR, BAD_MEMBER, BAD_RECORD, Refused, VOTES_TOO_LARGE } from "./refused.js";
import { inRecord, refusedCommand, type Place } from "./refused.js";
import { shown, text, whole, wrongType, type Whole } from "./values.js";

export const KIND_NAMES = Object.keys(KINDS) as Kind[];

/** The parts of a command. Those that its kind doesn't have are null or left out. */
export interface CommandParts {
  readonly kind: Kind;
  /** The code of a member: of all kinds but open and close. */
  readonly code?: string | null;
  /** Of open, close and move: the number of a chair, from 1 to 32; of move also null, for no chair. */
  readonly chair?: Whole | null;
  /** Of votes and admit: a whole number from 0 to 2^40. */
  readonly votes?: Whole | null;
}

/** A command of a register. Parts that its kind doesn't have are null; `String(command)` is its record. */
export class Command {
  readonly kind: Kind;
  readonly code: string | null;
  readonly chair: number | null;
  readonly votes: number | null;

  /**
   * Parts of a wrong type, missing parts and other parts are a TypeError; values that no record has are `Refused`.
   *
   * @example
   * String(new Command({ kind: "move", code: "AAA", chair: null })); // "move,AAA,none"
   */
  constructor(parts: CommandParts) {
    const { kind, code = null, chair = null, votes = null } = parts instanceof Command ? parts : checked(parts);
    this.kind = kind;
    this.code = code;
    this.chair = chair === null ? null : Number(chair);
    this.votes = votes === null ? null : Number(votes);
  }

  /** Whether both commands are the same. */
  equals(other: CommandParts): boolean {
    return this.toString() === recordOf(other);
  }

  /** The command as a record of a script. */
  toString(): string {
    return recordOf(this);
  }
}

/** The record of a command. */
export function recordOf(parts: CommandParts): string {
  const partOf = (name: Part): unknown => (parts[name] ?? null) === null && name === "chair" ? "none" : parts[name];
  return [parts.kind, ...KINDS[parts.kind].map(partOf)].join(",");
}

const PARTS = ["code", "chair", "votes"];

/** The parts of a command, which have the types of its kind. The register judges their values. */
export function checked(parts: CommandParts): Required<CommandParts> {
  if (typeof parts !== "object" || parts === null) throw wrongType("the command is", parts, "an object with a kind");
  const { kind, code = null, chair, votes } = parts;
  const isKind = KIND_NAMES.includes(text(kind, "the kind is", KIND_NAMES.join(", ")) as Kind);
  if (!isKind) throw new Refused(BAD_RECORD, `no kind ${shown(kind)}: ${KIND_NAMES.join(", ")}`);
  const own = KINDS[kind];
  const allowed: readonly string[] = ["kind", ...own];
  const isOther = ([name, part]: [string, unknown]): boolean =>
    !allowed.includes(name) && !(PARTS.includes(name) && (part ?? null) === null);
  const [other] = Object.entries(parts).find(isOther) ?? [];
  if (other) throw new TypeError(`a command '${kind}' has no part '${other}': its parts are ${own.join(" and ")}`);
  if (own.includes("code")) text(parts.code, "the code is", ALLOWED.code);
  if (own.includes("chair") && !(kind === "move" && chair === null)) checkChair(chair, kind);
  if (own.includes("votes")) whole(votes, `the votes of ${code} are`, ALLOWED.votes, BAD_RECORD);
  return { kind, code, chair: chair ?? null, votes: votes ?? null };
}

/** A 0 is no chair to a struct, and so isn't left to the register. */
function checkChair(chair: unknown, kind: Kind): void {
  const allowed = kind === "move" ? ALLOWED.seat : ALLOWED.chair;
  const number = whole(chair, "the chair is", allowed, BAD_CHAIR);
  if (number < 1) throw new Refused(BAD_CHAIR, `the chair is ${chair}: ${allowed}`);
}

/** The struct of a checked command. */
export function structOf({ kind, code, chair, votes }: CommandParts): Uint8Array {
  const view = new DataView(new ArrayBuffer(COMMAND));
  view.setUint32(0, KIND_NAMES.indexOf(kind), true);
  if (code) putCode(view, 4, code);
  if (chair) putWord(view, WORD, chair);
  if (votes) putWord(view, 2 * WORD, votes);
  return new Uint8Array(view.buffer);
}

/** The parts in a struct of a kind. */
export function partsIn(view: DataView, at: number, kind: Kind): Pick<Command, Part> {
  const votes = KINDS[kind].includes("votes") ? wordIn(view, at + 2 * WORD) : null;
  return { code: codeIn(view, at + 4) || null, chair: wordIn(view, at + WORD) || null, votes };
}

/** The command in a struct. */
export function commandIn(view: DataView, at: number): Command {
  const kind = KIND_NAMES[view.getUint32(at, true)]!;
  return Object.assign(Object.create(Command.prototype) as Command, { kind, ...partsIn(view, at, kind) });
}

/** The value of a field of a record, or its text if it is none. */
function valueOf(part: Part, field: string): string | bigint | null {
  if (part === "chair" && field === "none") return null;
  return part !== "code" && /^[0-9]{1,30}$/.test(field) ? BigInt(field) : field;
}

/** What is wrong with a field of a record, in the words of the call of its kind. Empty where it is no field. */
export function wrongField(record: string): string {
  const [word, ...fields] = record.split(",");
  const kind = KIND_NAMES.find((it) => it === word);
  const parts: readonly Part[] = kind ? KINDS[kind] : [];
  if (parts.length === 0 || fields.length !== parts.length) return "";
  const values = parts.map((part, at) => [part, valueOf(part, fields[at]!)]);
  const command = { kind, ...Object.fromEntries(values) } as CommandParts;
  try {
    const { code, chair, votes } = checked(command);
    const number = (chair ?? 0) > CHAIRS ? BAD_CHAIR : (votes ?? 0) > MEMBER_VOTES ? VOTES_TOO_LARGE : 0;
    const isBad = code !== null && !/^[A-Z]{3}$/.test(code);
    return number || isBad ? `: ${refusal(isBad ? BAD_MEMBER : number, command).message}` : "";
  } catch (why) {
    return `: ${(why as Error).message}`;
  }
}

/** The refusal of a command, in the words of the part that is refused. */
export function refusal(number: number, command: CommandParts, place: Place = {}): Refused {
  const { kind, code, chair, votes } = command;
  const record = recordOf(command);
  const about: Record<number, string> = {
    [BAD_CHAIR]: `the chair is ${chair}: ${kind === "move" ? ALLOWED.seat : ALLOWED.chair}`,
    [BAD_MEMBER]: `the code is ${shown(code)}: ${ALLOWED.code}`,
    [VOTES_TOO_LARGE]: `the votes of ${code} are ${votes}: ${ALLOWED.votes}`,
  };
  const message = about[number];
  if (message === undefined) return refusedCommand(number, record, place);
  return new Refused(number, inRecord(message, place), { command: record, ...place });
}
