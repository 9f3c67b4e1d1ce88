/** Names in texts: a name with letters that run from right to left must not turn the words and numbers around it. */
import { grouped } from "./fractions";

/** The items that a list in a text names at most. */
const MOST_LISTED = 3;

const CONTROLS = /[\u061c\u200e\u200f\u202a-\u202e\u2066-\u2069]/g;
const RIGHT_TO_LEFT = /[\u0590-\u08ff\ufb1d-\ufdff\ufe70-\ufefc\u{10800}-\u{10fff}\u{1e800}-\u{1efff}]/u;
const [ISOLATE, END] = ["\u2068", "\u2069"];

/** Items of a text; those after the first few are only counted. */
export function listed(items: readonly string[]): string {
  const first = items.slice(0, MOST_LISTED);
  const others = items.length - first.length;
  const last = others ? `${grouped(others)} more` : first.length > 1 ? first.pop() : undefined;
  return first.join(", ") + (last === undefined ? "" : ` and ${last}`);
}

/** A text without controls of direction. */
export function withoutControls(text: string): string {
  return text.replace(CONTROLS, "");
}

/** Whether a text has letters from right to left. */
export function isRightToLeft(text: string): boolean {
  return RIGHT_TO_LEFT.test(text);
}

/** A name for a text, isolated if it has letters from right to left. Controls of direction in it are left out. */
export function isolated(name: string): string {
  const plain = withoutControls(name);
  return isRightToLeft(plain) ? ISOLATE + plain + END : plain;
}

/** A member's code and name. */
export function memberWords(code: string, name: string | undefined): string {
  return name ? `${code} ${isolated(name)}` : code;
}

/** A chair in words. */
export function chairWords(chair: number | null | undefined): string {
  return chair === null || chair === undefined ? "none" : `chair ${chair}`;
}
