/** Where a table comes from: a text, a web page or a workbook; and what else a file may be. */
import { isData } from "../study/studyData";
import { checkTextKind, textOfBytes } from "./bytes";
import { bare } from "./html";
import { sheetOf } from "./text";
import type { NamedSheet } from "./types";
import { sheetsOfParts, type Parts } from "./xlsx";

/** The sheets to choose from, and what they were read from. */
export interface Source {
  readonly name: string;
  readonly sheets: readonly NamedSheet[];
  /** The text whose cells a delimiter separates, else null. */
  readonly text: string | null;
  readonly notices: readonly string[];
  /** What the hash of the source is of. */
  readonly content: string | Uint8Array;
}

/** What is read: a file's bytes, a text, or the parts of a workbook. */
export type Given = { readonly bytes: ArrayBuffer } | { readonly text: string } | { readonly parts: Parts };

/** What is in it: a study, a script, a web page without all that no table needs, or sheets of a table. */
export type Contents =
  | { readonly kind: "study"; readonly json: string }
  | { readonly kind: "script"; readonly text: string }
  | Pick<Source, "notices"> & { readonly kind: "page"; readonly html: string; readonly content: string }
  | Pick<Source, "sheets" | "text" | "notices"> & { readonly kind: "table" };

/** Whether a text is a web page, or HTML of a clipboard. */
function isHtml(text: string): boolean {
  return /^\ufeff?\s*<(!doctype html|html|head|meta|body|table|\?xml[^>]*>\s*<(!doctype html|html))\b/i.test(text);
}

/** A word of a record, in which quotes may stand anywhere. */
const quotable = (word: string): string => `"*${[...word].join('"*')}"*`;
const HEADER = new RegExp(`^\\ufeff?[\r\n]*${quotable("member,votes")}[\r\n]`);
const MARK = new RegExp(`[\r\n]${quotable("script")}([\r\n]|$)`);

/** Whether a text is meant as a script for `board replay`: it begins like one, and has the mark. */
function isScript(text: string): boolean {
  return HEADER.test(text) && MARK.test(text);
}

/** The study in a page that this page has exported, or null. */
function studyIn(html: string): string | null {
  const [start = "", , after = ""] = html.split(/(<script\b[^<>]*\bid="study-data"[^<>]*>)/, 3);
  return start.length < html.length ? after.slice(0, after.indexOf("</script>")) : null;
}

/** Reads what is given. Throws `Unreadable` with a sentence if it is nothing that the page takes. */
export function contentsOf(given: Given): Contents {
  if ("parts" in given) return { kind: "table", sheets: sheetsOfParts(given.parts), text: null, notices: [] };
  const { text, notices } = "bytes" in given ? textOfBytes(given.bytes) : { ...given, notices: [] };
  if (isHtml(text)) {
    const json = studyIn(text);
    return json === null ? { kind: "page", html: bare(text), content: text, notices } : { kind: "study", json };
  }
  if (isData(text)) return { kind: "study", json: text };
  if (isScript(text)) return { kind: "script", text };
  checkTextKind(text);
  return { kind: "table", sheets: [{ name: "", sheet: sheetOf(text, notices) }], text, notices };
}
