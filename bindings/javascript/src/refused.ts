/** Refusals: what a call throws, and their messages. */
import { REFUSALS } from "./names.js";

export {
  BAD_CHAIR, BAD_INDEX, BAD_LIMIT, BAD_MEMBER, BAD_RECORD, BAD_SHEET, CHAIR_NOT_OPEN, DUPLICATE_MEMBER, NO_REGISTER,
  OUT_OF_MEMORY, TOO_MANY_MEMBERS, VOTES_TOO_LARGE, WRITE_FAULT,
} from "./names.js";

/** Where a refusal belongs to. */
export interface Place {
  /** The command that was refused, as a record. */
  command?: string;
  /** The number of the record that was refused, counted from 1. */
  record?: number;
  /** The number of the row of a table that was refused, counted from 1. */
  row?: number;
}

/**
 * A call that is refused; then nothing has changed. Its message names the place, the value and what is allowed. All of
 * it is in its own enumerable properties, and again in its `cause`, which survives `structuredClone`.
 *
 * @example
 * try {
 *   indices([50, -1], "half");
 * } catch (why) {
 *   if (why instanceof Refused) console.log(why.code, why.message); // BadSheet weight 2 is -1: votes are ...
 * }
 */
export class Refused extends Error {
  /** The number of the refusal, in docs/FORMATS.md. */
  readonly number: number;
  /** The name of the refusal there, such as "BadSheet". */
  readonly code: string;
  /** The command that was refused, as a record, if one was. */
  declare readonly command?: string;
  /** The number of the record that was refused, counted from 1, if the call took a text or a list of commands. */
  declare readonly record?: number;
  /** The number of the row that was refused, counted from 1, if the call took a table. */
  declare readonly row?: number;

  constructor(number: number, message?: string, place: Place = {}) {
    const [code = "Unknown"] = REFUSALS[number] ?? [];
    super(message ?? sentenceOf(number));
    this.number = number;
    this.code = code;
    Object.assign(this, place);
    Object.defineProperty(this, "message", { enumerable: true });
    Object.defineProperty(this, "cause", { value: { number, code, ...place }, configurable: true, writable: true });
  }
}
Object.defineProperty(Refused.prototype, "name", { value: "Refused", configurable: true, writable: true });

/** A refusal with its reason. */
export function sentenceOf(number: number): string {
  const [name = "Unknown", reason = "no refusal has this number"] = REFUSALS[number] ?? [];
  return `${name} (${number}), ${reason}`;
}

/** A message with the record's number, if there is one. */
export const inRecord = (message: string, { record }: Place): string =>
  record ? `record ${record}: ${message}` : message;

/** The refusal of a command by a register. */
export const refusedCommand = (number: number, command: string, place: Place = {}): Refused =>
  new Refused(number, inRecord(`refused '${command}': ${sentenceOf(number)}`, place), { command, ...place });

/** The fault that ends a replay. */
export interface Fault {
  /** The number of the faulty record, counted from 1; 0 if the fault is of no record. */
  readonly record: number;
  /** Its number and its name in docs/FORMATS.md, and its reason. */
  readonly number: number;
  readonly name: string;
  readonly reason: string;
}

/** The number, the name and the reason of a fault; null for 0. */
export function faultOf(number: number, record: number): Fault | null {
  const [name = "Unknown", reason = ""] = REFUSALS[number] ?? [];
  return number === 0 ? null : { record, number, name, reason };
}
