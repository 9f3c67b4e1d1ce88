/** What a cell is besides votes, names and numbers: a missing value, a spreadsheet's error, a raised mark. */
import { BLANKS, ERRORS, FALSE, RAISED_DIGITS, RAISED_LETTERS, TRUE, UNSEEN } from "./words";

const MISSING = new Set(BLANKS);
const ERROR = new RegExp(`^(?:${ERRORS.join("|")})$`, "iu");
const LETTERS = [...RAISED_LETTERS];

const isUnseen = (letter: string | undefined): boolean =>
  letter !== undefined && (UNSEEN.includes(letter) || letter.trim() === "");

/** A cell without blanks and unseen letters around it. Each letter is looked at once. */
function bareCell(cell: string): string {
  const plain = cell.trim();
  let [from, to] = [0, plain.length];
  while (from < to && isUnseen(plain[from])) from += 1;
  while (to > from && isUnseen(plain[to - 1])) to -= 1;
  return plain.slice(from, to);
}

/** A cell without blanks and unseen letters around it; empty if it stands for a missing value. */
export function plainCell(cell: string): string {
  const plain = bareCell(cell);
  return MISSING.has(plain) ? "" : plain;
}

/** Whether a cell, without blanks around it, stands for a missing value. */
export function isMissing(cell: string): boolean {
  return MISSING.has(bareCell(cell));
}

/** Whether a cell is a spreadsheet's true or false: in English, or in capitals. */
function isTruth(cell: string): boolean {
  const small = cell.toLowerCase();
  if (/^(true|false)$/.test(small)) return true;
  return cell === cell.toUpperCase() && [...TRUE, ...FALSE].includes(small);
}

/** Why a cell is no member's, in words; empty if it may be. */
export function errorWords(cell: string): string {
  if (/^##/.test(cell)) return "a number that its column was too narrow to show";
  // A name may begin with a number sign; errors have no small letters behind it.
  if (ERROR.test(cell) && (!cell.startsWith("#") || cell === cell.toUpperCase())) return "a spreadsheet's error";
  return isTruth(cell) ? "a spreadsheet's true or false" : "";
}

/** Why a cell of a number or a code is no member's, in words; empty if it may be. A name may begin like a formula. */
export function valueErrorWords(cell: string): string {
  return /^=\S/.test(cell) ? "a formula without its value: save the file in a spreadsheet" : errorWords(cell);
}

function raisedLetter(letter: string): string {
  if (/[0-9]/.test(letter)) return RAISED_DIGITS[Number(letter)] ?? "";
  if (/[a-z]/i.test(letter)) return LETTERS[letter.toLowerCase().charCodeAt(0) - 97] ?? "";
  return /[\s,;()[\]/.\u2044]/.test(letter) ? " " : letter;
}

/** A text above or below the line, as marks of which no part of a number or a name is made. */
export function raised(text: string): string {
  return [...text].map(raisedLetter).join("").replace(/ +/g, " ").replace(/^ (?=\S)/, "").trimEnd();
}

/** Any raised digit or letter. */
export const RAISED = `${RAISED_DIGITS}${RAISED_LETTERS.replace("q", "")}`;
