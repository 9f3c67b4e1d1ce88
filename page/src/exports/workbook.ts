/** Workbooks (.xlsx) that are written: texts stay texts, and numbers have all their digits. */
import type { Boards } from "../engine/pool";

/** A number with the format in which a spreadsheet shows it, such as `0.00%`. */
export interface Formatted {
  readonly number: number;
  readonly format: string;
}

/** A cell: a text, a number, or nothing. */
export type Value = string | number | Formatted | null;

export interface Sheet {
  readonly name: string;
  /** The headings, and the rows under them. */
  readonly rows: readonly (readonly Value[])[];
  /** The widths of the columns, in characters. The others are as wide as the last. */
  readonly widths: readonly number[];
}

const XML = '<?xml version="1.0" encoding="UTF-8" standalone="yes"?>\n';
const FORMATS = "http://schemas.openxmlformats.org";
const MAIN = `${FORMATS}/spreadsheetml/2006/main`;
const OFFICE = `${FORMATS}/officeDocument/2006/relationships`;
const PACKAGE = `${FORMATS}/package/2006`;
const KIND = "application/vnd.openxmlformats-officedocument.spreadsheetml";
const BLOB = `${KIND}.sheet`;

/** The most rows of a sheet, and the most characters of a cell, that spreadsheets read. */
const [MOST_ROWS, MOST_CHARACTERS] = [2 ** 20, 32_767];

const HEAD_STYLE = 1;
/** The format of texts, in which a text that is typed again stays one, too. */
const TEXT_STYLE = 2;
/** The first of the formats of numbers, which stand behind those styles; and the number of the first one for a file. */
const [NUMBER_STYLE, OWN_FORMAT] = [3, 164];

/** The fonts and formats of cells: heads, which are broken into lines, texts, and numbers in some formats. */
function stylesOf(formats: readonly string[]): string {
  const font = (bold: string) => `<font>${bold}<sz val="11"/><name val="Calibri"/></font>`;
  const fill = (kind: string) => `<fill><patternFill patternType="${kind}"/></fill>`;
  const own = formats.map((code, at) => `<numFmt numFmtId="${OWN_FORMAT + at}" formatCode="${escaped(code)}"/>`);
  const xf = (format: number, fontId: number, more: string) =>
    `<xf numFmtId="${format}" fontId="${fontId}" fillId="0" borderId="0" xfId="0"${more}`;
  const isFormat = ' applyNumberFormat="1"';
  const xfs = [
    xf(0, 0, "/>"),
    xf(49, 1, `${isFormat} applyFont="1" applyAlignment="1"><alignment vertical="top" wrapText="1"/></xf>`),
    xf(49, 0, ` quotePrefix="1"${isFormat}/>`),
    ...formats.map((_, at) => xf(OWN_FORMAT + at, 0, `${isFormat}/>`)),
  ];
  const codes = own.length ? `<numFmts count="${own.length}">${own.join("")}</numFmts>` : "";
  return `${XML}<styleSheet xmlns="${MAIN}">${codes}` +
    `<fonts count="2">${font("")}${font("<b/>")}</fonts><fills count="2">${fill("none")}${fill("gray125")}</fills>` +
    '<borders count="1"><border><left/><right/><top/><bottom/><diagonal/></border></borders>' +
    '<cellStyleXfs count="1"><xf numFmtId="0" fontId="0" fillId="0" borderId="0"/></cellStyleXfs>' +
    `<cellXfs count="${xfs.length}">${xfs.join("")}</cellXfs>` +
    '<cellStyles count="1"><cellStyle name="Normal" xfId="0" builtinId="0"/></cellStyles></styleSheet>';
}

const ENTITIES: Readonly<Record<string, string>> = { "&": "&amp;", "<": "&lt;", ">": "&gt;", '"': "&quot;" };

/** A text for XML. A character that XML doesn't have is written as workbooks write it, by its number. */
function escaped(text: string): string {
  const coded = (it: string) => `_x${it.charCodeAt(0).toString(16).toUpperCase().padStart(4, "0")}_`;
  return text
    .replace(/_(?=x[0-9A-Fa-f]{4}_)/g, coded)
    .replace(/[\u0000-\u0008\u000b-\u001f\ufffe\uffff]/g, coded)
    .replace(/[\ud800-\udbff][\udc00-\udfff]|[\ud800-\udfff]/g, (it) => (it.length === 1 ? coded(it) : it))
    .replace(/[&<>"]/g, (it) => ENTITIES[it] ?? it);
}

/** The letters of a column, from 0. */
function letters(column: number): string {
  const last = String.fromCharCode(65 + (column % 26));
  return column < 26 ? last : letters(Math.floor(column / 26) - 1) + last;
}

/** What the cells of all sheets refer to: formats of numbers, and each text with its place. */
interface Shared {
  readonly formats: readonly string[];
  readonly texts: ReadonlyMap<string, number>;
}

function sharedOf(sheets: readonly Sheet[]): Shared {
  const values = sheets.flatMap(({ rows }) => rows.flat());
  const texts = [...new Set(values.flatMap((it) => (typeof it === "string" && it !== "" ? it : [])))];
  const formats = [...new Set(values.flatMap((it) => (it !== null && typeof it === "object" ? it.format : [])))];
  return { formats, texts: new Map(texts.map((it, at) => [it, at])) };
}

/** The part with all texts: R's openxlsx and Perl's Spreadsheet::XLSX read those of cells as they are written. */
function textsOf({ texts }: Shared): string {
  // Both take the attribute for a part of the text, so only a text that needs it has it.
  const space = (text: string) => (/^\s|\s$|[\t\n]/.test(text) ? ' xml:space="preserve"' : "");
  const items = [...texts.keys()].map((it) => `<si><t${space(it)}>${escaped(it)}</t></si>`);
  return `${XML}<sst xmlns="${MAIN}" uniqueCount="${items.length}">${items.join("")}</sst>`;
}

function cellOf(value: Value, place: string, isHead: boolean, { formats, texts }: Shared): string {
  if (value === null || value === "") return "";
  if (typeof value === "number") return `<c r="${place}"><v>${value}</v></c>`;
  if (typeof value === "object") {
    return `<c r="${place}" s="${NUMBER_STYLE + formats.indexOf(value.format)}"><v>${value.number}</v></c>`;
  }
  const style = isHead ? HEAD_STYLE : TEXT_STYLE;
  return `<c r="${place}" s="${style}" t="s"><v>${texts.get(value) ?? 0}</v></c>`;
}

/** The characters of the longest word of a head, which isn't broken. */
function longest(head: Value | undefined): number {
  return typeof head === "string" ? Math.max(...head.split(/\s+/).map(({ length }) => length)) : 0;
}

function sheetOf({ rows, widths }: Sheet, shared: Shared): string {
  const columns = Math.max(...rows.map((it) => it.length));
  const sizes = Array.from({ length: columns }, (_, at) => {
    const width = Math.max(widths[at] ?? widths[widths.length - 1] ?? 12, longest(rows[0]?.[at]) + 2);
    return `<col min="${at + 1}" max="${at + 1}" width="${width}" customWidth="1"/>`;
  });
  const lines = rows.map((row, at) => {
    const cells = row.map((value, column) => cellOf(value, `${letters(column)}${at + 1}`, at === 0, shared));
    return `<row r="${at + 1}">${cells.join("")}</row>`;
  });
  const pane = '<pane ySplit="1" topLeftCell="A2" activePane="bottomLeft" state="frozen"/>';
  return `${XML}<worksheet xmlns="${MAIN}"><sheetViews><sheetView workbookViewId="0">${pane}</sheetView></sheetViews>` +
    `<cols>${sizes.join("")}</cols><sheetData>${lines.join("")}</sheetData></worksheet>`;
}

/** The parts of a workbook by their paths. */
function partsOf(sheets: readonly Sheet[]): Record<string, string> {
  const numbers = sheets.map((_, at) => at + 1);
  const shared = sharedOf(sheets);
  const part = (path: string, kind: string) =>
    `<Override PartName="/xl/${path}.xml" ContentType="${KIND}.${kind}+xml"/>`;
  const types = [part("workbook", "sheet.main"), part("styles", "styles"), part("sharedStrings", "sharedStrings"),
    ...numbers.map((it) => part(`worksheets/sheet${it}`, "worksheet"))];
  const relation = (id: number, kind: string, target: string) =>
    `<Relationship Id="rId${id}" Type="${OFFICE}/${kind}" Target="${target}"/>`;
  const relations = [...numbers.map((it) => relation(it, "worksheet", `worksheets/sheet${it}.xml`)),
    relation(sheets.length + 1, "styles", "styles.xml"),
    relation(sheets.length + 2, "sharedStrings", "sharedStrings.xml")];
  const names = sheets.map(({ name }, at) =>
    `<sheet name="${escaped(name)}" sheetId="${at + 1}" r:id="rId${at + 1}"/>`);
  const open = `<Relationships xmlns="${PACKAGE}/relationships">`;
  return {
    "[Content_Types].xml": `${XML}<Types xmlns="${PACKAGE}/content-types"><Default Extension="rels" ContentType="` +
      `application/vnd.openxmlformats-package.relationships+xml"/>${types.join("")}</Types>`,
    "_rels/.rels": `${XML}${open}${relation(1, "officeDocument", "xl/workbook.xml")}</Relationships>`,
    "xl/workbook.xml":
      `${XML}<workbook xmlns="${MAIN}" xmlns:r="${OFFICE}"><sheets>${names.join("")}</sheets></workbook>`,
    "xl/_rels/workbook.xml.rels": `${XML}${open}${relations.join("")}</Relationships>`,
    "xl/styles.xml": stylesOf(shared.formats),
    "xl/sharedStrings.xml": textsOf(shared),
    ...Object.fromEntries(sheets.map((it, at) => [`xl/worksheets/sheet${at + 1}.xml`, sheetOf(it, shared)])),
  };
}

/** Throws a sentence if a spreadsheet wouldn't read all of a sheet. */
function checkSize({ name, rows }: Sheet): void {
  const most = "so no workbook was made: export CSV and the script";
  if (rows.length > MOST_ROWS) {
    throw new Error(`The sheet ${name} would have ${rows.length} rows of at most ${MOST_ROWS}, ${most}.`);
  }
  if (rows.some((row) => row.some((cell) => typeof cell === "string" && cell.length > MOST_CHARACTERS))) {
    throw new Error(`A cell of the sheet ${name} would have more than ${MOST_CHARACTERS} characters, ${most}.`);
  }
}

/** The file of a workbook, which a worker packs. */
export async function workbookOf(boards: Boards, sheets: readonly Sheet[]): Promise<Blob> {
  sheets.forEach(checkSize);
  return new Blob([await boards.ask("pack", partsOf(sheets)).answer], { type: BLOB });
}
