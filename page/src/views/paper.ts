/** The size of letters that fits wide tables to a sheet of paper. */

/** The smallest and the largest size, in points. */
const [SMALLEST, LARGEST] = [4.5, 7];
/** The characters that fill a line of A4 or Letter paper at a size of one point. */
const LINE = 880;
/** Those that would fill the padding and the border of a cell, which don't depend on the size. */
const AROUND = 6.25;
/** The size of headings, as a part of the size of cells: that of page.css. */
const HEADING = 0.85;

/** The characters of a cell that stay on one line: those of a number, or of the longest word. */
function widthOf(cell: HTMLTableCellElement, isHeading: boolean): number {
  const text = cell.textContent ?? "";
  const words = isHeading || cell.classList.contains("text") ? text.split(/\s+/) : [text];
  return (isHeading ? HEADING : 1) * Math.max(1, ...words.map((it) => it.length));
}

/** The size at which a table's widest line fills the paper. */
function sizeOf(table: HTMLTableElement): number {
  const widest: number[] = [];
  for (const row of table.rows) {
    const isHeading = row.parentElement === table.tHead;
    [...row.cells].forEach((cell, at) => (widest[at] = Math.max(widest[at] ?? 0, widthOf(cell, isHeading))));
  }
  return (LINE - AROUND * widest.length) / widest.reduce((sum, it) => sum + it, 1);
}

/** Gives each table the size that fits. If that is too small to read, its numbers go over several lines instead. */
export function fitTables(): void {
  for (const table of document.querySelectorAll<HTMLTableElement>("#panel table, #scenarios")) {
    const size = sizeOf(table);
    table.classList.toggle("broken", size < SMALLEST);
    table.style.setProperty("--print-size", `${Math.min(LARGEST, Math.max(SMALLEST, size)).toFixed(2)}pt`);
  }
}
