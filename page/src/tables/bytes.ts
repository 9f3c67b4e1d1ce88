/** Files by their first bytes: texts with their encoding, workbooks, and what can't be read. */
import { Unreadable } from "./types";

/** A text, and how it was read if it wasn't UTF-8. */
export interface ReadText {
  readonly text: string;
  readonly notices: readonly string[];
}

const COPY = "Copy its table into a spreadsheet, save that as .xlsx or CSV, and open the file.";
/** The first bytes of files that aren't texts, and what they are. */
const KINDS: readonly (readonly [string, string])[] = [
  ["%PDF", `This is a PDF, and this page doesn't read PDFs. ${COPY}`],
  ["\xd0\xcf\x11\xe0", "This is a file of an old Office (.xls, .doc), which this page doesn't read. Save it as .xlsx."],
  ["{\\rtf", `This is a text document (.rtf), which this page doesn't read. ${COPY}`],
  ["\x89PNG", "This is a picture, and this page doesn't read pictures."],
  ["\xff\xd8\xff", "This is a picture, and this page doesn't read pictures."],
  ["GIF8", "This is a picture, and this page doesn't read pictures."],
  ["RIFF", "This is a picture or a recording, which this page doesn't read."],
  ["II*\0", "This is a picture, and this page doesn't read pictures."],
  ["MM\0*", "This is a picture, and this page doesn't read pictures."],
  ["\x1f\x8b", "This file is compressed (.gz). Unpack it, and open the table in it."],
  ["7z\xbc\xaf", "This file is compressed (.7z). Unpack it, and open the table in it."],
  ["Rar!", "This file is compressed (.rar). Unpack it, and open the table in it."],
  ["SQLite", "This is a database, which this page doesn't read. Export its table as CSV."],
  ["PAR1", "This is a Parquet file, which this page doesn't read. Save the table as CSV."],
];

/** The first letters of texts that aren't tables, and what they are. */
const TEXT_KINDS: readonly (readonly [RegExp, string])[] = [
  [/^<\?xml[^>]*>\s*(<!--[^]{0,2000}?-->\s*)?<office:document/,
    "This is an OpenDocument file (.fods, .fodt), which this page doesn't read. Save it as .xlsx or CSV."],
  [/^<\?xml[^>]*>\s*<\?mso-application/,
    "This is a spreadsheet of Excel 2003 (.xml), which this page doesn't read. Save it as .xlsx."],
  [/^<\?xml|^<[a-z][\w:.-]*[^>]*\sxmlns/i, `This is XML, which this page doesn't read. ${COPY}`],
  [/^TABLE\r?\n0,1\r?\n/, "This is a file of the format DIF, which this page doesn't read. Save it as .xlsx or CSV."],
  [/^ID;P/, "This is a file of the format SYLK (.slk), which this page doesn't read. Save it as .xlsx or CSV."],
  [/^[[{]\s*["[{\]}]/, "This is JSON, and no study as this page saves it. Save its table as CSV."],
];

/** Refuses a text that is no table by its first letters. */
export function checkTextKind(text: string): void {
  const kind = TEXT_KINDS.find(([start]) => start.test(text.trimStart()));
  if (kind) throw new Unreadable(kind[1]);
}

/** Whether bytes are a zip file, as .xlsx is. */
export function isZip(bytes: Uint8Array): boolean {
  return bytes[0] === 0x50 && bytes[1] === 0x4b && (bytes[2] === 3 || bytes[2] === 5);
}

/** The sentence on a zip file without a workbook, by the names of its parts. */
export function zipWords(names: readonly string[]): string {
  if (names.some((name) => name.startsWith("word/"))) {
    return `This is a text document (.docx), which this page doesn't read. ${COPY}`;
  }
  if (names.some((name) => name.startsWith("ppt/"))) {
    return `This is a presentation (.pptx), which this page doesn't read. ${COPY}`;
  }
  if (names.includes("content.xml")) {
    return "This is an OpenDocument file (.ods, .odt), which this page doesn't read. Save it as .xlsx or CSV.";
  }
  if (names.some((name) => name.endsWith("workbook.bin"))) {
    return "This is a binary workbook (.xlsb), which this page doesn't read. Save it as .xlsx.";
  }
  return "This is a zip file without a workbook in it. Unpack it, and open the table in it.";
}

/** More letters before and behind a letter aren't its word's. */
const MOST_WORD = 30;

/** Says how a text was read, and its first word that has a letter beyond ASCII. */
function encodingWords(encoding: string, text: string): string {
  const at = text.search(/(?![A-Za-z])\p{L}/u);
  const before = text.slice(Math.max(0, at - MOST_WORD), Math.max(0, at)).split(/[\s,;]/).pop() ?? "";
  const word = at < 0 ? undefined : before + (/^[^\s,;]*/.exec(text.slice(at, at + MOST_WORD))?.[0] ?? "");
  const look = word ? `: look at letters with accents, such as those of '${word}'` : "";
  return `The table was read as ${encoding}${look}`;
}

/** The kind of UTF-16 that bytes are: by their mark, or by zeros in every other place. */
function wideEncodingOf(bytes: Uint8Array): string | null {
  const mark = ((bytes[0] ?? 0) << 8) | (bytes[1] ?? 0);
  if (mark === 0xfffe) return "utf-16le";
  if (mark === 0xfeff) return "utf-16be";
  const start = bytes.subarray(0, 2048);
  const zeros = [0, 0];
  start.forEach((byte, at) => {
    if (byte === 0) zeros[at % 2] += 1;
  });
  const [even = 0, odd = 0] = zeros;
  const most = start.length / 2;
  if (bytes.length % 2 === 0 && odd > 0.4 * most && even < 0.05 * most) return "utf-16le";
  return bytes.length % 2 === 0 && even > 0.4 * most && odd < 0.05 * most ? "utf-16be" : null;
}

/** The text of a file. Throws `Unreadable` with a sentence if it is none. */
export function textOfBytes(buffer: ArrayBuffer): ReadText {
  const bytes = new Uint8Array(buffer);
  const first = String.fromCharCode(...bytes.subarray(0, 8));
  const kind = KINDS.find(([start]) => first.startsWith(start));
  if (kind) throw new Unreadable(kind[1]);
  const wide = wideEncodingOf(bytes);
  if (wide) {
    const text = new TextDecoder(wide).decode(buffer);
    return { text, notices: [encodingWords("utf-16", text)] };
  }
  if (bytes.includes(0)) throw new Unreadable("This isn't a text, and no kind of file that this page reads.");
  try {
    return { text: new TextDecoder("utf-8", { fatal: true }).decode(buffer), notices: [] };
  } catch {
    const text = new TextDecoder("windows-1252").decode(buffer);
    return { text, notices: [encodingWords("cp1252", text)] };
  }
}
