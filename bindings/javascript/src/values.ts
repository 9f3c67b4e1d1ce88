/** The types of arguments: each value is taken as it is, refused, or of a wrong type. */
import { ALLOWED, COMMANDS, MAJORITIES, READERS, type Majority } from "./names.js";
import { BAD_LIMIT, BAD_SHEET, Refused } from "./refused.js";

/** A whole number: a number such as 5 or 5.0, or a bigint. */
export type Whole = number | bigint;

/** A number that the module has for majorities and kinds that it doesn't have. */
const NONE = 255;
const LONGEST = 60;

/** A value in the form of a message. */
export function shown(value: unknown): string {
  if (typeof value === "string") return `'${value.length > LONGEST ? `${value.slice(0, LONGEST)}..` : value}'`;
  if (typeof value === "object" && value !== null) return Array.isArray(value) ? "a list" : "an object";
  return typeof value === "function" ? "a function" : String(value);
}

/** The error of a value of a wrong type. */
export function wrongType(place: string, value: unknown, allowed: string): TypeError {
  const type = ["number", "bigint", "string", "boolean", "symbol"].includes(typeof value) ? ` (${typeof value})` : "";
  return new TypeError(`${place} ${shown(value)}${type}: ${allowed}`);
}

/** Whether a value is a whole number from 0. */
export const isWhole = (value: unknown): value is Whole =>
  typeof value === "number" ? Number.isInteger(value) && value >= 0 : typeof value === "bigint" && value >= 0n;

/** A whole number from 0. Another number is refused by this number. */
export function whole(value: unknown, place: string, allowed: string, number: number = BAD_SHEET): Whole {
  if (isWhole(value)) return value;
  if (typeof value !== "number" && typeof value !== "bigint") throw wrongType(place, value, allowed);
  throw new Refused(number, `${place} ${value}: ${allowed}`);
}

/** A text, which is all that is checked. */
export function text(value: unknown, place: string, allowed: string): string {
  if (typeof value === "string") return value;
  throw wrongType(place, value, allowed);
}

/** Whether a value can be a list of something: a text is none. */
export const isList = <Item>(value: Iterable<Item> | unknown): value is Iterable<Item> =>
  typeof value === "object" && value !== null && typeof (value as Iterable<unknown>)[Symbol.iterator] === "function";

/** The items of a list. */
export function items<Item>(value: Iterable<Item>, place: string): Item[] {
  if (isList(value)) return Array.from(value);
  throw wrongType(place, value, "a list, such as an array");
}

/** The number of a majority, or a number of none, which the module refuses. */
export function majorityNumber(value: Majority): number {
  const at = MAJORITIES.indexOf(text(value, "the majority is", ALLOWED.majority) as Majority);
  return at < 0 ? NONE : at;
}

/** Options, of which no other names are accepted. */
export function options<Options extends object>(given: Options, ...names: (keyof Options & string)[]): Options {
  if (typeof given !== "object" || given === null) throw wrongType("the options are", given, "an object");
  const other = Object.keys(given).find((name) => !(names as string[]).includes(name));
  if (other === undefined) return given;
  throw new TypeError(`unknown option '${other}': the options are ${names.join(" and ")}`);
}

/** A limit from 1. */
function limit(value: unknown, name: "readers" | "journal", most: number): number {
  if (typeof value !== "number" && typeof value !== "bigint") throw wrongType(`${name} is`, value, ALLOWED[name]);
  if (isWhole(value) && value >= 1 && value <= most) return Number(value);
  throw new Refused(BAD_LIMIT, `${name} is ${value}: ${ALLOWED[name]}`);
}

export const journalOf = (value: unknown = COMMANDS): number => limit(value, "journal", COMMANDS);
export const readersOf = (value: unknown = 1): number => limit(value, "readers", READERS);

/** The bytes of an input, given as bytes or as text. */
export function bytesOf(input: string | Uint8Array): Uint8Array {
  if (ArrayBuffer.isView(input)) return new Uint8Array(input.buffer, input.byteOffset, input.byteLength);
  return new TextEncoder().encode(text(input, "the input is", "text, or bytes as a Uint8Array"));
}

/** The bytes of a whole input. A text of one line without its end is taken for a path. */
export function inputOf(input: string | Uint8Array): Uint8Array {
  if (typeof input === "string" && input !== "" && !/[\r\n]/.test(input)) {
    const allowed = "a script has several lines; replayFile takes the path of a file";
    throw new TypeError(`the input is ${shown(input)}: ${allowed}`);
  }
  return bytesOf(input);
}
