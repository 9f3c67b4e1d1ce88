/** Workbooks of Excel (.xlsx) as sheets, from their unpacked parts. */
import { raised } from "./cells";
import { filledNotice, MOST_ROWS } from "./grid";
import { CellCount, MOST_COLUMNS } from "./limits";
import { NOTHING, struckIn, textOfRuns, type Text } from "./struck";
import { sheetOfCells } from "./text";
import { Unreadable, type NamedSheet } from "./types";
import { xmlOf, type Element } from "./xml";

/** The sheets of the workbook that the page exports. */
const OWN_SHEETS = "Shown,Table,Fractions,Source";
/** The built-in formats of numbers that are dates, times and per cent. */
const DATES = new Set([14, 15, 16, 17, 18, 19, 20, 21, 22, 45, 46, 47]);
const PERCENTS = new Set([9, 10]);
const DAY = 86_400_000;

type Format = "date" | "percent" | "plain";

/** A part of a text, and its own font if it has one. */
type FontRun = readonly [text: string, font: Element | undefined];

/** What the cells of all sheets refer to. */
interface Shared {
  readonly texts: readonly (readonly FontRun[])[];
  readonly formats: readonly Format[];
  /** The font of each format. */
  readonly fonts: readonly (Element | undefined)[];
  /** Days between 1970 and the day 0 of the workbook's dates. */
  readonly epoch: number;
}

/** The parts of a string with formats in it, without what says how it is pronounced. */
function runsOf(node: Element): FontRun[] {
  const elements = node.children.flatMap((it) => (typeof it === "string" ? [] : [it]));
  const font = elements.find(({ name }) => name === "rPr");
  return elements.flatMap((it): FontRun[] => {
    if (it.name === "rPh") return [];
    return it.name === "t" ? [[it.text(), font]] : runsOf(it);
  });
}

function isStruck(font: Element): boolean {
  return font.all("strike").some((it) => !/^(0|false)$/.test(it.attribute("val") ?? "1"));
}

function isRaised(font: Element): boolean {
  return font.all("vertAlign").some((it) => /^(super|sub)script$/.test(it.attribute("val") ?? ""));
}

/** The text of a cell with a font of its own. What is raised is a mark, unless nothing stands on the line. */
function textOf(runs: readonly FontRun[], own: Element | undefined): Text {
  const is = (font: Element | undefined, so: (font: Element) => boolean) => font !== undefined && so(font);
  const isAllRaised = runs.every(([text, font = own]) => text.trim() === "" || is(font, isRaised));
  return textOfRuns(runs.map(([text, font = own]) =>
    [!isAllRaised && is(font, isRaised) ? raised(text) : text, is(font, isStruck)]));
}

function formatOf(id: number, custom: ReadonlyMap<number, string>): Format {
  const code = (custom.get(id) ?? "").replace(/"[^"]*"|\\.|\[[^\]]*\]/g, "");
  if (PERCENTS.has(id) || code.includes("%")) return "percent";
  return DATES.has(id) || /[dmyhs]/i.test(code.replace(/general/i, "")) ? "date" : "plain";
}

function formatsOf(styles: Element): Format[] {
  const custom = new Map(styles.all("numFmt").map((it) =>
    [Number(it.attribute("numFmtId")), it.attribute("formatCode") ?? ""] as const));
  const formats = styles.all("cellXfs")[0]?.all("xf") ?? [];
  return formats.map((it) => formatOf(Number(it.attribute("numFmtId")), custom));
}

/** The font of each format of cells. */
function fontsOf(styles: Element): (Element | undefined)[] {
  const fonts = styles.all("fonts")[0]?.all("font") ?? [];
  const formats = styles.all("cellXfs")[0]?.all("xf") ?? [];
  return formats.map((it) => fonts[Number(it.attribute("fontId") ?? "0")]);
}

/** A date as year, month and day. */
function dateText(serial: number, epoch: number): string {
  const date = new Date(Math.round((Math.floor(serial) + epoch) * DAY));
  return Number.isNaN(date.getTime()) ? String(serial) : date.toISOString().slice(0, 10);
}

/** A number as text: a per cent with its sign, a date as a date, and others with the digits that a person sees. */
function numberText(text: string, format: Format, epoch: number): string {
  const value = Number(text);
  if (text === "" || !Number.isFinite(value)) return text;
  if (format === "date") return dateText(value, epoch);
  if (format === "percent") return `${Number((value * 100).toPrecision(12))}%`;
  return Number.isInteger(value) && Math.abs(value) < 2 ** 53 ? String(value) : String(Number(value.toPrecision(15)));
}

function cellText(cell: Element, { texts, formats, fonts, epoch }: Shared): Text {
  const style = Number(cell.attribute("s") ?? "0");
  const font = fonts[style];
  const plain = (text: string) => textOf([[text, undefined]], font);
  const value = cell.all("v")[0]?.text() ?? "";
  switch (cell.attribute("t")) {
    case "s": return textOf(texts[Number(value)] ?? [], font);
    case "inlineStr": return textOf(cell.all("is").flatMap(runsOf), font);
    case "b": return plain(value === "1" ? "true" : "false");
    case "str":
    case "e":
    case "d": return plain(value);
    default: return plain(numberText(value, formats[style] ?? "plain", epoch));
  }
}

/** The row and column of a reference such as B7, from 0. */
function placeOf(reference: string): { row: number; column: number } {
  const [, letters = "", digits = ""] = /^\$?([A-Z]+)\$?([0-9]+)$/.exec(reference) ?? [];
  const column = [...letters].reduce((sum, letter) => 26 * sum + letter.charCodeAt(0) - 64, 0) - 1;
  return { row: Number(digits) - 1, column };
}

function isInside({ row, column }: { row: number; column: number }): boolean {
  return row >= 0 && column >= 0 && row < MOST_ROWS && column < MOST_COLUMNS;
}

/** Fills merged cells down in a grid, without what is struck out. Returns into how many cells. */
function fillMerged(grid: Text[][], sheet: Element): number {
  let filled = 0;
  const count = new CellCount();
  for (const merged of sheet.all("mergeCell")) {
    const [first = "", last = ""] = (merged.attribute("ref") ?? "").split(":");
    const [from, to] = [placeOf(first), placeOf(last)];
    const text = grid[from.row]?.[from.column]?.left ?? "";
    for (let row = from.row + 1; text !== "" && isInside(from) && row <= Math.min(to.row, grid.length - 1); row += 1) {
      const line = grid[row];
      if (line) line[from.column] = { all: text, left: text, out: "" };
      filled += 1;
      count.add(1);
    }
  }
  return filled;
}

function hiddenNotice(sheet: Element): string[] {
  const hidden = sheet.all("row").filter((row) => /^(1|true)$/.test(row.attribute("hidden") ?? ""));
  const rows = hidden.map((row) => row.attribute("r")).join(", ");
  return hidden.length ? [`Hidden rows were read like the others: ${rows}`] : [];
}

/** The cells of a sheet as they are laid out. */
function gridOf(sheet: Element, shared: Shared): Text[][] {
  const grid: Text[][] = [];
  const count = new CellCount();
  sheet.all("row").forEach((row, at) => {
    const number = Number(row.attribute("r") ?? grid.length + 1) - 1;
    row.all("c").forEach((cell, place) => {
      const reference = cell.attribute("r");
      const to = reference ? placeOf(reference) : { row: Math.max(number, at), column: place };
      if (!isInside(to)) throw new Unreadable(`This sheet has more than ${MOST_ROWS} rows or ${MOST_COLUMNS} columns.`);
      count.add(1);
      while (grid.length <= to.row) grid.push([]);
      const line = grid[to.row];
      if (line) line[to.column] = cellText(cell, shared);
    });
  });
  return grid;
}

/** More ranges of cells than this aren't named. */
const MOST_RANGES = 3;

/** Whether a program wrote the formula of a cell and left its value to a spreadsheet. */
function lacksValue(cell: Element): boolean {
  const [value] = cell.all("v");
  const isText = cell.attribute("t") === "str" && value !== undefined;
  return cell.all("f").length > 0 && !isText && (value?.text() ?? "") === "";
}

/** Refuses a sheet with formulas that have no values. */
function checkFormulas(sheet: Element): void {
  const found = sheet.all("c").filter(lacksValue).map((it) => it.attribute("r") ?? "");
  if (!found.length) return;
  const ranges: { first: string; last: string }[] = [];
  for (const reference of [...found].sort((one, other) => placeOf(one).column - placeOf(other).column)) {
    const range = ranges[ranges.length - 1];
    const [last, own] = [placeOf(range?.last ?? ""), placeOf(reference)];
    if (range && last.column === own.column && last.row + 1 === own.row) range.last = reference;
    else ranges.push({ first: reference, last: reference });
  }
  const words = ranges.slice(0, MOST_RANGES).map(({ first, last }) => (first === last ? first : `${first} to ${last}`));
  const cells = found[0] === "" ? "Cells" : `${found.length === 1 ? "Cell" : "Cells"} ${words.join(", ")}`;
  const more = ranges.length > MOST_RANGES ? " and others" : "";
  throw new Unreadable(`${cells}${more} ${found.length === 1 ? "has a formula without its value" :
    "have formulas without values"}: open the workbook in a spreadsheet, save it there, and open that file here.`);
}

/** The unpacked parts of a workbook by their paths; null for one that is larger than a table of members. */
export type Parts = Readonly<Record<string, string | null>>;

const FOLDER = "xl/";

function partOf(parts: Parts, path: string): Element {
  const text = parts[path] ?? "";
  if (parts[path] !== null) return xmlOf(text);
  throw new Unreadable(`This workbook is too large: its part ${path} has more than a table of members.`);
}

/** What the sheets refer to. */
function sharedOf(parts: Parts, workbook: Element): Shared {
  const [strings, styles] = [partOf(parts, `${FOLDER}sharedStrings.xml`), partOf(parts, `${FOLDER}styles.xml`)];
  const is1904 = workbook.all("workbookPr").some((it) => /^(1|true)$/.test(it.attribute("date1904") ?? ""));
  const epoch = is1904 ? -24107 : -25569;
  return { texts: strings.all("si").map(runsOf), formats: formatsOf(styles), fonts: fontsOf(styles), epoch };
}

/** The path of each sheet's part by its relation. */
function targetsOf(parts: Parts): Map<string, string> {
  return new Map(partOf(parts, `${FOLDER}_rels/workbook.xml.rels`).all("Relationship").map((it) => {
    const target = it.attribute("Target") ?? "";
    return [it.attribute("Id") ?? "", target.startsWith("/") ? target.slice(1) : FOLDER + target];
  }));
}

/** A sheet by its entry in the workbook and its cells. */
function sheetOf(entry: Element, sheet: Element, shared: Shared): NamedSheet {
  checkFormulas(sheet);
  const grid = gridOf(sheet, shared);
  const struck = struckIn(grid);
  const filled = fillMerged(grid, sheet);
  // Of a row that is struck out as a whole its texts are kept: it may count.
  const cells = grid.map((row, at) => Array.from(row, (it = NOTHING) => (struck.get(at) === "" ? it.all : it.left)));
  const isHidden = (entry.attribute("state") ?? "visible") !== "visible";
  const name = `${entry.attribute("name") ?? ""}${isHidden ? " (hidden)" : ""}`;
  return { name, sheet: sheetOfCells(cells, "", [...filledNotice(filled), ...hiddenNotice(sheet)], struck) };
}

/** The sheets of a workbook that have cells. Throws `Unreadable` with a sentence if there are none. */
export function sheetsOfParts(parts: Parts): NamedSheet[] {
  const workbook = partOf(parts, `${FOLDER}workbook.xml`);
  const [shared, targets] = [sharedOf(parts, workbook), targetsOf(parts)];
  const entries = workbook.all("sheet");
  if (entries.map((it) => it.attribute("name") ?? "").join() === OWN_SHEETS) {
    throw new Unreadable("This is the workbook of results that this page exports: it has chairs and their power, and " +
      "no members. Open the exported script or page, or a table of members.");
  }
  const sheets: NamedSheet[] = [];
  const unread: string[] = [];
  for (const it of entries) {
    const [, relation = ""] = [...it.attributes].find(([name]) => /:id$/.test(name)) ?? [];
    try {
      const named = sheetOf(it, partOf(parts, targets.get(relation) ?? ""), shared);
      if (named.sheet.rows.length) sheets.push(named);
    } catch (why) {
      if (!(why instanceof Unreadable)) throw why;
      unread.push(`The sheet '${it.attribute("name") ?? ""}' wasn't read. ${why.message}`);
    }
  }
  if (!sheets.length) throw new Unreadable(unread[0] ?? "There is nothing in this workbook.");
  return sheets.map(({ name, sheet }) => ({ name, sheet: { ...sheet, notices: [...sheet.notices, ...unread] } }));
}
