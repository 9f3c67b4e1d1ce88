/** Cells of several lines, as web pages print a whole chair in one row: each line becomes a row. */
import { isNumber } from "./numbers";

/** Rows of cells, and how many of them were split into how many. */
export interface Split {
  readonly rows: readonly (readonly string[])[];
  readonly from: number;
  readonly to: number;
  /** The row of which each row was a part, from 0. */
  readonly origins: readonly number[];
}

function linesOf(cell: string): string[] {
  return cell.split(/\r\n|\r|\n/).map((line) => line.trim());
}

/** Whether a row has a list of numbers in a cell, and a list of as many texts in another one. */
function hasLists(row: readonly string[]): boolean {
  const lists = row.map(linesOf).filter((lines) => lines.length > 1);
  const numbers = lists.filter((lines) => lines.every(isNumber));
  return numbers.some(({ length }) =>
    lists.some((lines) => lines.length === length && !lines.some(isNumber))
      && lists.every((lines) => lines.length <= length)
  );
}

/** Whether a row has one number in each of its cells of numbers, and two lines in a cell of names. */
function hasPair(row: readonly string[]): boolean {
  const counts = row.map((cell) => linesOf(cell).length);
  return row.some(isNumber) && Math.max(...counts) === 2;
}

/** Splits rows whose cells have lists in them. Where some have, a Director over an alternate is split, too. */
export function splitLines(rows: readonly (readonly string[])[]): Split {
  const isList = rows.map(hasLists);
  if (!isList.includes(true)) return { rows, from: 0, to: 0, origins: rows.map((_, at) => at) };
  const parts = rows.map((row, at) => {
    if (!isList[at] && !hasPair(row)) return [row];
    const cells = row.map(linesOf);
    const high = Math.max(...cells.map(({ length }) => length));
    return Array.from({ length: high }, (_, line) => cells.map((it) => it[line] ?? ""));
  });
  const split = parts.filter(({ length }) => length > 1);
  const origins = parts.flatMap((part, at) => part.map(() => at));
  return { rows: parts.flat(), from: split.length, to: split.flat().length, origins };
}
