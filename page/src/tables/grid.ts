/** Cells that span several rows or columns, laid out as a grid. */
import { CellCount, checkColumns, MOST_COLUMNS } from "./limits";

/** A cell of a row, how many rows and columns it spans, and its text in the rows below if that is another one. */
export interface SpanningCell {
  readonly text: string;
  readonly below?: string;
  readonly rows: number;
  readonly columns: number;
}

/** A grid, and the number of cells into which a cell above was filled down. */
export interface Grid {
  readonly cells: readonly (readonly string[])[];
  readonly filled: number;
}

/** More rows than this are no table of members. */
export const MOST_ROWS = 5000;

/** Lays out rows of cells as a web page does. A cell over several rows is in each of them, at its first column. */
export function gridOf(rows: readonly (readonly SpanningCell[])[]): Grid {
  const grid: string[][] = rows.map(() => []);
  const count = new CellCount();
  let filled = 0;
  rows.forEach((cells, top) => {
    let left = 0;
    for (const { text, below = text, rows: high, columns: wide } of cells) {
      while (grid[top]?.[left] !== undefined) left += 1;
      checkColumns(left + 1);
      count.add(Math.min(high, grid.length - top) * Math.min(wide, MOST_COLUMNS));
      for (let row = top; row < Math.min(top + high, grid.length); row += 1) {
        for (let column = left; column < Math.min(left + wide, MOST_COLUMNS); column += 1) {
          const line = grid[row];
          if (line) line[column] = column > left ? "" : row > top ? below : text;
        }
        if (row > top && below !== "") filled += 1;
      }
    }
  });
  return { cells: grid.map((row) => Array.from(row, (cell) => cell ?? "")), filled };
}

/** The notice on cells that were filled down. */
export function filledNotice(filled: number): string[] {
  return filled > 0 ? [`Merged cells were filled down into ${filled === 1 ? "1 cell" : `${filled} cells`}`] : [];
}
