/** Numbers as people type them: with marks between thousands, a true minus, a decimal comma, or a sign for per cent. */
import { grouped } from "./fractions";
import { isolated } from "./names";

/** The value of a text, or a sentence that says what is wrong with it and what would be right. */
export type Typed<Value> = { readonly value: Value } | { readonly wrong: string };

/** The sign of a percentage: a change must have one, a share must not, and a step without one has a plus. */
export type PercentKind = "change" | "share" | "step";

/** The most characters of a text that a sentence repeats. */
const LONGEST = 40;
/** The most digits before and after the point of a percentage. */
const MOST_DIGITS = 9;

/** Groups of three digits with one mark between them, and a decimal part after another mark. */
const GROUPED = /^([1-9]\d{0,2}([,.' ])\d{3}(?:\2\d{3})*)(?:([,.])(\d+))?$/;
const PLAIN = /^(\d+)(?:([,.])(\d+))?$/;

interface Digits {
  readonly whole: string;
  readonly part: string;
  /** The point or comma before a single group of three digits, which may also be a decimal mark. */
  readonly lone: string;
}

/** The text without blanks around it, with one kind of blank, minus and apostrophe. */
function plain(text: string): string {
  return text.trim().replace(/[\u00a0\u2007\u2009\u202f]/g, " ").replace(/\u2212/g, "-").replace(/\u2019/g, "'");
}

function quoted(text: string): string {
  const bare = text.trim();
  return `“${isolated(bare.length > LONGEST ? `${bare.slice(0, LONGEST)}…` : bare)}”`;
}

function digitsOf(text: string): Digits | null {
  const found = GROUPED.exec(text);
  const [, groups = "", mark = "", decimalMark, part = ""] = found ?? [];
  if (found && mark !== decimalMark) {
    const isLone = part === "" && /^\d+[,.]\d+$/.test(groups);
    return { whole: groups.replace(/\D/g, ""), part, lone: isLone ? mark : "" };
  }
  const [, whole, , rest = ""] = PLAIN.exec(text) ?? [];
  return whole === undefined ? null : { whole, part: rest, lone: "" };
}

/** The sentence about a text that is no whole number. */
function notWhole(text: string, found: Digits | null): string {
  const said = quoted(text);
  if (text === "") return "There is no number yet: write a whole number, such as 419,166.";
  if (/^[+-]/.test(plain(text))) return `${said} has a sign: write a whole number without one, such as 419,166.`;
  if (text.includes("%")) return `${said} is in per cent: write a number of votes, such as 419,166.`;
  if (found?.lone) return `${said} may have a decimal point: write ${found.whole} if it has none.`;
  if (found) return `${said} has decimals: write a whole number, such as ${grouped(BigInt(found.whole))}.`;
  return `${said} isn't a whole number: write it like 419166 or 419,166.`;
}

/** A whole number up to a limit. A comma before three digits stands between thousands; a point there isn't clear. */
export function wholeNumber(text: string, most: number): Typed<number> {
  const found = digitsOf(plain(text));
  if (!found || found.lone === "." || /[1-9]/.test(found.part)) return { wrong: notWhole(text.trim(), found) };
  if (BigInt(found.whole) > BigInt(most)) return { wrong: `${quoted(text)} is above the limit of ${grouped(most)}.` };
  return { value: Number(found.whole) };
}

/** Why a percentage has the wrong sign; empty if it has the right one. */
function wrongSign(said: string, sign: string, number: string, kind: PercentKind): string {
  if (kind === "change" && !sign) {
    return `${said} has no sign: write +${number} to add per cent, or -${number} to take them away.`;
  }
  if (kind === "share" && sign) return `${said} has a sign: write ${number} for a share of the total.`;
  return "";
}

/** A percentage as a plain decimal with a point, such as `+12.5` for a change and `12.5` for a share. */
export function percentage(text: string, kind: PercentKind): Typed<string> {
  const example = kind === "share" ? "15 or 12.5" : "+40 or -12.5";
  const [, sign = "", number = ""] = /^([+-]?) ?(.*?) ?%?$/.exec(plain(text)) ?? [];
  if (number === "") return { wrong: `There is no percentage yet: write ${example}.` };
  const found = digitsOf(number);
  const said = quoted(text);
  if (!found) return { wrong: `${said} isn't a percentage: write it like ${example}.` };
  const [before = "", after = ""] = number.split(found.lone || " ");
  if (found.lone === ",") {
    const decimal = `${before}.${after}`.replace(/\.?0+$/, "");
    return { wrong: `${said} has two meanings: write ${sign}${decimal} or ${sign}${found.whole}.` };
  }
  const { whole, part } = found.lone ? { whole: before, part: after } : found;
  if (Math.max(whole.length, part.length) > MOST_DIGITS) {
    return { wrong: `${said} has more than ${MOST_DIGITS} digits before or after the point.` };
  }
  const value = part ? `${whole}.${part}` : whole;
  const wrong = wrongSign(said, sign, value, kind);
  return wrong ? { wrong } : { value: (sign || (kind === "step" ? "+" : "")) + value };
}
