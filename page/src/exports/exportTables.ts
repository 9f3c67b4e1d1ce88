/** Tables for exports: CSV, a workbook, LaTeX, and text with tabs. */
import type { App, Shown } from "../views/app";
import { chairCells, shownCell, withVetoes, type Cell, type ChairTable } from "./chairCells";
import { columnsOf, type Columns } from "../engine/columns";
import { csvOf, plainCell, plainLine, tableOf, type Cell as CsvCell } from "./csv";
import { textFile } from "./exportFile";
import { fractionText, rounded } from "../study/fractions";
import { firstLines, provenanceOf, type Source } from "../study/provenance";
import { columnSources, registers } from "./registers";
import type { View } from "../study/study";
import { texTable } from "./tex";
import { KIND_WORDS } from "../views/chairTable";
import { workbookOf, type Sheet, type Value } from "./workbook";

/** The table of all registers as CSV. */
export async function csvFile(app: App): Promise<Blob> {
  const shown = await app.whole();
  const { all, sources } = registers(app, shown);
  const head = firstLines(await provenanceOf(app, shown, sources)).map((it) => `# ${plainLine(it)}\n`).join("");
  return textFile(head + csvOf(all), "text/csv");
}

/** The decimal places that give the nearest floating number to any fraction of a study. */
const PLACES = 60;

/** A cell's number; a whole number that no floating one equals stays a text. */
function valueOf(cell: CsvCell): Value {
  if (typeof cell === "bigint") return Number.isSafeInteger(Number(cell)) ? Number(cell) : String(cell);
  return cell !== null && typeof cell === "object" ? Number(rounded(cell, PLACES)) : cell;
}

/** A cell's value in a column. The values of a sweep are numbers, though CSV has them as texts. */
function valueIn(cell: CsvCell, column: CsvCell | undefined): Value {
  const isNumber = column === "sweep_percent" && typeof cell === "string" && /^[0-9.]+$/.test(cell);
  return isNumber ? Number(cell) : valueOf(cell);
}

/** The columns of the table that say what a row is, and those that are fractions. */
const ROW_COLUMNS = ["scenario", "sweep", "sweep_percent", "majority", "chair", "name"];

/** The fractions of a table as texts, with what each row is. */
function fractionRows([heads = [], ...rows]: readonly CsvCell[][]): Value[][] {
  const isFraction = (cell: CsvCell | undefined) => typeof cell === "object" && cell !== null;
  const columns = heads.map((_, at) => at).filter((at) =>
    ROW_COLUMNS.includes(String(heads[at])) || rows.some((row) => isFraction(row[at])));
  const textOf = (row: readonly CsvCell[]) => (at: number) => {
    const cell = row[at] ?? null;
    return cell !== null && typeof cell === "object" ? fractionText(cell) : valueIn(cell, heads[at]);
  };
  return [columns.map((at) => String(heads[at])), ...rows.map((row) => columns.map(textOf(row)))];
}

/** The version, the hashes and the scripts: what each row is, and its text. */
async function sourceRows(app: App, shown: Shown, sources: readonly Source[]): Promise<Value[][]> {
  const found = await provenanceOf(app, shown, sources);
  const scripts = sources.flatMap(({ of, script }) =>
    script.split("\n").map((line) => [of ? `script of ${of}` : "script", line]));
  return [
    ["what", "text"],
    ...firstLines(found).map((it) => ["source", it]),
    ["majorities", shown.counted.majorities.join(", ")],
    ...scripts,
  ];
}

/** The widths of the columns of the table: names are longer. */
const WIDTHS = Array.from({ length: 13 }, (_, at) => (at === 11 ? 34 : 14));

/** A workbook with the table as it is shown, that of all registers, the exact fractions, and the source. */
export async function workbookFile(app: App): Promise<Blob> {
  const shown = await app.whole();
  const { all, sources } = registers(app, shown);
  const table = tableOf(all);
  const numbers = table.map((row) => row.map((cell, at) => valueIn(cell, table[0]?.[at])));
  const cells = withVetoes(chairCells(columnsOf(app, shown), app.view));
  const sheets: Sheet[] = [
    { name: "Shown", rows: shownRows(cells, app.view), widths: [8, 34, 18] },
    { name: "Table", rows: numbers, widths: WIDTHS },
    { name: "Fractions", rows: fractionRows(table), widths: [14, 14, 14, 10, 8, 30, 34] },
    { name: "Source", rows: await sourceRows(app, shown, sources), widths: [24, 110] },
  ];
  return workbookOf(app.counter.boards, sheets);
}

/** The table of chairs as it is shown. */
async function shownTable(app: App): Promise<{ shown: Shown; columns: Columns; table: ChairTable }> {
  const shown = await app.whole();
  const columns = columnsOf(app, shown);
  return { shown, columns, table: withVetoes(chairCells(columns, app.view)) };
}

/** That table for LaTeX. */
export async function texText(app: App): Promise<string> {
  const { shown, columns, table: { heads, lines, sums } } = await shownTable(app);
  const written = (it: Cell | null) => (it ? shownCell(it, app.view) : "");
  const rows = lines.map(({ line, cells }) => ({
    chair: String(line.chair), name: line.name, note: KIND_WORDS[line.kind], cells: cells.map(written),
  }));
  const all = { chair: "", name: "All chairs", note: "", cells: sums.map(written) };
  return texTable(heads, rows, all, firstLines(await provenanceOf(app, shown, columnSources(app, shown, columns))));
}

/** That table as text with tabs, as a spreadsheet takes it. */
export async function shownText(app: App): Promise<string> {
  const { table: { heads, lines, sums } } = await shownTable(app);
  const plain = (text: string) => plainCell(text.replace(/\s+/g, " "));
  const written = (it: Cell | null) => (it ? shownCell(it, app.view).replace(/,| %$/g, "") : "");
  const rows = lines.map(({ line, cells }) => [String(line.chair), plain(line.name), ...cells.map(written)]);
  const head = ["Chair", "Name", ...heads.map((it) => plain(it.words))];
  return [head, ...rows, ["", "All chairs", ...sums.map(written)]].map((it) => `${it.join("\t")}\n`).join("");
}

/** A cell's number in the unit of its head, with as many places as are shown. */
function shownValue(cell: Cell | null, view: View): Value {
  if (cell?.isText) return cell.decimal;
  if (!cell?.value) return null;
  const { value, decimal, unit } = cell;
  const places = /\.([0-9]+)( %)?$/.exec(decimal)?.[1]?.length ?? 0;
  const isPercent = decimal.endsWith(" %");
  const digits = places ? `0.${"0".repeat(places)}` : isPercent ? "0" : "#,##0";
  const isPoints = unit !== "" && !view.fractions;
  const own = isPoints ? { ...value, numerator: 100n * value.numerator } : value;
  return { number: Number(rounded(own, PLACES)), format: `${digits}${isPercent ? "%" : ""}` };
}

/** That table as numbers for a sheet of a workbook. */
function shownRows({ heads, lines, sums }: ChairTable, view: View): Value[][] {
  const value = (it: Cell | null) => shownValue(it, view);
  const rows = lines.map(({ line, cells }): Value[] => [line.chair, line.name, ...cells.map(value)]);
  const all: Value[] = [null, "All chairs", ...sums.map(value)];
  return [["Chair", "Name", ...heads.map((it) => it.words)], ...rows, all];
}
