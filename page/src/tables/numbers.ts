/** Whole numbers as people print them, and the footnote marks behind numbers and names. */
import { RAISED, valueErrorWords } from "./cells";
import { MOST_LETTERS } from "./limits";

/** The mark between thousands: a comma or a point. Apostrophes and blanks always may be one. */
export type Thousands = "," | ".";

const ALWAYS = " \u00a0\u2009\u202f'\u2019";
/** A decimal number, such as a per cent. */
const DECIMAL = /^[+-]?[0-9]+[.,][0-9]+$/;
const PERCENT = /^[+-]?[0-9]+([.,][0-9]+)?\s*%$/;
/** Any digit of Unicode other than 0 to 9, except raised ones. */
const OTHER_DIGIT = /(?![0-9])\p{Nd}/u;

const MARKS_BEFORE = new RegExp(`^[*†‡§${RAISED}]+\\s*`, "u");
/** Marks such as `*`, a raised 1, ` 1/`, ` a/`, ` 1)`, `(1)` and `[1]`. A `1/` needs a blank before it, or a letter. */
const MARKS_AFTER = [
  /[*†‡§]+$/,
  new RegExp(`[${RAISED}]+[/⁄)]?$`, "u"),
  /\s[0-9]{1,2}(,\s?[0-9]{1,2})*\/$/,
  /\s[a-z]\/$/i,
  /\([0-9]{1,2}\)$/,
  /\[([0-9]{1,2}|[a-z])\]$/i,
];
/** Marks end within as many letters, and stand at most as often behind one another. */
const MARK_LETTERS = 16;
const MOST_MARKS = 16;
/** Cells without any mark. */
const PLAIN = /^[0-9, .A-Za-z]*[0-9A-Za-z]$/;
const MARK_AT_LETTER = /(\p{L})[0-9]{1,2}\/$/u;
const MARK_IN_HALF = /^([^()]*\S)\s+[0-9]{1,2}\)$/;

/** Words on suspended voting rights: they are asked about, wherever they stand. */
export const SUSPENSION = /suspen[ds]/i;

/** A number that was read: its value, and what was passed over. */
export interface Whole {
  readonly value: number;
  readonly hasMarks: boolean;
  readonly hasZeros: boolean;
}

/** A cell without the brackets at its end, if they speak of a suspension. */
function withoutSuspension(cell: string): string {
  const at = /[)\]]$/.test(cell) ? Math.max(cell.lastIndexOf("("), cell.lastIndexOf("[")) : -1;
  return at > 0 && SUSPENSION.test(cell.slice(at)) ? cell.slice(0, at).trimEnd() : cell;
}

/** A cell without a mark at its end, and without the blanks before that. */
function withoutMark(cell: string, mark: RegExp): string {
  const end = cell.slice(-MARK_LETTERS);
  const less = end.replace(mark, "");
  return less === end ? cell : (cell.slice(0, cell.length - end.length) + less).trimEnd() || cell;
}

/** A cell without the footnote marks around it. A cell that is nothing else stays as it is. */
export function withoutMarks(cell: string): string {
  let rest = cell;
  if (cell.length > MOST_LETTERS || PLAIN.test(cell)) return cell;
  for (let [before, many] = ["", 0]; before !== rest && many < MOST_MARKS; many += 1) {
    before = rest;
    rest = rest.replace(MARKS_BEFORE, "") || rest;
    for (const mark of MARKS_AFTER) rest = withoutMark(rest, mark);
    rest = withoutSuspension(rest.replace(MARK_AT_LETTER, "$1").replace(MARK_IN_HALF, "$1"));
  }
  return rest;
}

/** A footnote's mark without what stands around it: `1` for a raised 1, `1/`, `(1)` and `[1]`. */
function plainMark(mark: string): string {
  return mark.normalize("NFKC").replace(/[\s()[\]/.\u2044]/g, "").toLowerCase();
}

const MARK = new RegExp(`[*†‡§]+|[${RAISED}]+|[0-9]{1,2}|\\b[a-z]\\b`, "giu");

/** The footnote marks around a cell. */
export function marksOf(cell: string): string[] {
  const bare = withoutMarks(cell);
  const at = cell.indexOf(bare);
  const around = `${cell.slice(0, at)} ${cell.slice(at + bare.length)}`;
  return (around.match(MARK) ?? []).map(plainMark);
}

const NOTE_MARK = new RegExp(
  `^([*†‡§]+|[${RAISED}]+|[(\\[]?[0-9]{1,2}[)\\]/.]?|[(\\[]?[a-z][)\\]/])\\s*(?=[\\p{L}"'(])`,
  "iu",
);

/** The mark with which a footnote begins, or an empty string. */
export function noteMark(text: string): string {
  return plainMark(NOTE_MARK.exec(text)?.[1] ?? "");
}

function patternOf(thousands: Thousands): RegExp {
  const point = thousands === "." ? "\\." : ",";
  const grouped = `[0-9]{1,3}(?:([${ALWAYS}])[0-9]{3}(?:\\1[0-9]{3})*|(${point})[0-9]{3}(?:${point}[0-9]{3})*)`;
  return new RegExp(`^(?:[0-9]{1,20}|${grouped})([.,]00?)?$`);
}
const PATTERNS = { ",": patternOf(","), ".": patternOf(".") };

/** A whole number without footnote marks, or null: its thousands may be separated, and .0 or .00 may follow. */
export function wholeOf(cell: string, thousands: Thousands): Whole | null {
  const found = PATTERNS[thousands].exec(cell);
  if (!found) return null;
  const [, blank, mark, zeros] = found;
  // The mark between thousands isn't that of the decimals. Where there is none, either may be.
  if (zeros && zeros[0] === mark) return null;
  const digits = (zeros ? cell.slice(0, -zeros.length) : cell).replace(/[^0-9]/g, "");
  return { value: Number(digits), hasMarks: Boolean(blank ?? mark), hasZeros: Boolean(zeros) };
}

/** Whether a cell is a number, even one that is refused. */
export function isNumber(cell: string): boolean {
  const bare = withoutMarks(cell);
  return wholeOf(bare, ",") !== null || wholeOf(bare, ".") !== null || DECIMAL.test(bare) || PERCENT.test(bare);
}

/** The value of a decimal or a per cent, or null. */
export function decimalOf(cell: string): number | null {
  const bare = withoutMarks(cell).replace(/%$/, "").trimEnd();
  return /^[0-9]+([.,][0-9]+)?$/.test(bare) ? Number(bare.replace(",", ".")) : null;
}

/** A per cent with the unit of its last digit, or null. */
export function percentOf(cell: string): { value: number; unit: number } | null {
  const found = /^([0-9]{1,3})(?:[.,]([0-9]{1,15}))?\s*%?$/.exec(withoutMarks(cell));
  if (!found) return null;
  const [, whole = "", digits = ""] = found;
  return { value: Number(`${whole}.${digits || "0"}`), unit: 10 ** -digits.length };
}

/** The whole numbers of four digits or more in a text. */
export function wholesIn(text: string, thousands: Thousands): number[] {
  const found = text.match(/[0-9]{1,3}(?:[,.'\u2019 \u00a0\u2009\u202f][0-9]{3})+(?![0-9])|[0-9]{4,20}/g) ?? [];
  return found.flatMap((it) => wholeOf(it, thousands)?.value ?? []);
}

/** Whether a cell is in per cent, or a decimal number. */
export function isPercent(cell: string): boolean {
  return PERCENT.test(withoutMarks(cell));
}

/** The mark between thousands that some cell proves, by two marks of a kind, by a decimal behind one, or as the mark of
 * decimals elsewhere in the table; else null. */
export function provenThousands(cells: readonly string[]): Thousands | null {
  const proves = (mark: string, other: string) => {
    const proof = new RegExp(`^[0-9]{1,3}(\\${mark}[0-9]{3})+(\\${mark}[0-9]{3}|\\${other}00?)$`);
    return cells.some((cell) => proof.test(cell));
  };
  const isDecimal = (mark: string) => {
    const decimal = new RegExp(`^[0-9]{1,3}\\${mark}([0-9]{1,2}|[0-9]{4,15})\\s*%?$`);
    return cells.some((cell) => decimal.test(cell) && !/[.,]00?$/.test(cell));
  };
  const [comma, point] = [proves(",", "."), proves(".", ",")];
  if (comma !== point) return comma ? "," : ".";
  const [commas, points] = [isDecimal(","), isDecimal(".")];
  return comma || commas === points ? null : commas ? "." : ",";
}

/** Why a cell isn't a number of votes, in words. */
export function votesReason(cell: string): string {
  if (cell === "") return "an empty cell";
  if (valueErrorWords(cell)) return valueErrorWords(cell);
  if (/^[+\-\u2212\u2013]/.test(cell)) return "a sign";
  if (/^\(.*\)$/.test(cell)) return "a number in parentheses, which may mean a negative one";
  if (OTHER_DIGIT.test(cell)) return "digits other than 0 to 9";
  if (/^[0-9.,]+e[+-]?[0-9]+$/i.test(cell)) return "a spreadsheet's scientific format";
  if (PERCENT.test(cell)) return "a per cent";
  if (/^[0-9]{1,3}\.[0-9]{3}$/.test(cell)) {
    return "a decimal point; if it separates thousands, choose 1.000 under Thousands";
  }
  if (/^[0-9]{1,3},[0-9]{3}$/.test(cell)) {
    return "a decimal comma; if it separates thousands, choose 1,000 under Thousands";
  }
  if (DECIMAL.test(cell)) return cell.includes(".") ? "a decimal point" : "a decimal comma";
  if (/^[0-9]+\/$/.test(cell)) return "a footnote's number that can't be told from the votes";
  return "no whole number";
}
