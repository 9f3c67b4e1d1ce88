/** How much of a file is read. What is larger is refused before it is parsed, so that the page never stands still. */
import { counted, grouped } from "../study/fractions";
import { Unreadable } from "./types";

/** Bytes of a file; parts of a workbook, bytes of one part after unpacking, and of all parts together. */
export const MOST_FILE = 32 * 1024 * 1024;
export const MOST_FILES = 2000;
export const MOST_PART = 8 * 1024 * 1024;
export const MOST_PARTS = 32 * 1024 * 1024;
/** Cells that a file gives to one table, with those that merged cells fill. */
export const MOST_CELLS = 100_000;
/** Rows of a table, with totals, notes and empty ones; its columns; and both multiplied. */
export const MOST_TABLE_ROWS = 1000;
export const MOST_COLUMNS = 200;
export const MOST_TABLE_CELLS = 40_000;
/** Tags of a part of a workbook; of a web page, which is parsed on the page's own thread, those that a table needs. */
export const MOST_TAGS = 400_000;
export const MOST_TABLE_TAGS = 20_000;
/** Letters of a text, or of what a table needs of a web page; and lines of a text, with those in quoted cells. */
export const MOST_TEXT = 1024 * 1024;
export const MOST_LINES = 20_000;
/** Cells that the preview of a table shows, and letters of each. */
export const MOST_SHOWN = 10_000;
export const MOST_SHOWN_LETTERS = 200;
/** Letters of a cell that may be a number or a footnote's mark. */
export const MOST_LETTERS = 400;

/** How often a letter stands in a text, counted up to one more than a limit. */
export function countUpTo(text: string, letter: string, most: number): number {
  let count = 0;
  for (let at = text.indexOf(letter); at >= 0 && count <= most; at = text.indexOf(letter, at + 1)) count += 1;
  return count;
}

/** Refuses XML or HTML with very many tags, before a document is made of it. */
export function checkTags(text: string, what: string, most = MOST_TAGS): void {
  if (countUpTo(text, "<", most) > most) {
    throw new Unreadable(`${what} has more than ${grouped(most)} tags, and a table of members has far fewer.`);
  }
}

/** Refuses a text by its characters. */
export function checkLetters(text: string, what: string): void {
  if (text.length > MOST_TEXT) {
    const many = counted(text.length, "character");
    throw new Unreadable(`${what} has ${many}, and at most ${grouped(MOST_TEXT)} are read.`);
  }
}

/** Refuses a table by its columns. */
export function checkColumns(columns: number): void {
  if (columns > MOST_COLUMNS) throw new Unreadable(`This table has more than ${MOST_COLUMNS} columns.`);
}

/** Refuses a table by its cells. */
export function checkCells(cells: number, most = MOST_TABLE_CELLS): void {
  if (cells > most) {
    throw new Unreadable(`This table has more than ${grouped(most)} cells, and a board at most 256 members.`);
  }
}

/** Refuses a file by its size. */
export function checkSize(bytes: number): void {
  if (bytes > MOST_FILE) {
    throw new Unreadable(`This file has ${counted(bytes, "byte")}, and at most ${grouped(MOST_FILE)} are read.`);
  }
}

/** Refuses a zip file by the entries of its directory, each of which begins with PK and the bytes 1 and 2. */
export function checkEntries(bytes: Uint8Array): void {
  let entries = 0;
  for (let at = bytes.indexOf(0x50); at >= 0 && entries <= MOST_FILES; at = bytes.indexOf(0x50, at + 1)) {
    if (bytes[at + 1] === 0x4b && bytes[at + 2] === 1 && bytes[at + 3] === 2) entries += 1;
  }
  if (entries > MOST_FILES) throw new Unreadable(`This zip file or workbook has more than ${MOST_FILES} files in it.`);
}

/** Counts cells as they are read, and refuses more than the most. */
export class CellCount {
  count = 0;

  add(cells: number): void {
    this.count += cells;
    checkCells(this.count, MOST_CELLS);
  }
}
