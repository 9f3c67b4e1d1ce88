/** Texts with tabs, semicolons or commas between cells, as sheets. */
import { dsvFormat } from "d3-dsv";
import { counted } from "../study/fractions";
import { isMissing, plainCell } from "./cells";
import { checkCells, checkColumns, checkLetters, countUpTo, MOST_LINES, MOST_TABLE_ROWS } from "./limits";
import { splitLines } from "./lines";
import { Unreadable, type Sheet } from "./types";

/** What may separate the cells of a text. */
export const DELIMITERS = ["\t", ";", ","] as const;
export const DELIMITER_WORDS: Readonly<Record<string, string>> = { "\t": "tab", ";": "semicolon", ",": "comma" };

/** A text with its quoted cells emptied. */
function emptied(text: string, delimiters: string): string {
  const quoted = new RegExp(`(^|[${delimiters}])"[^"]*(?:""[^"]*)*"(?=[${delimiters}]|$)`, "gm");
  return text.replace(quoted, "$1");
}

/** A number whose thousands commas separate. */
const GROUPED = /(^|[^0-9])[0-9]{1,3}(?:,[0-9]{3})+(?![0-9])/g;

/** Whether commas may separate cells: most rows with numbers have one outside of a number, or are numbers alone. */
function mayCommasSeparate(lines: readonly string[]): boolean {
  const numbered = lines.filter((line) => /[0-9]/.test(line));
  const apart = numbered.filter((line) => /^[0-9,]+$/.test(line) || line.replace(GROUPED, "$1").includes(","));
  return 2 * apart.length >= numbered.length;
}

/** The delimiter of cells: a tab if most rows have one; else the semicolon or comma that more rows have. */
function delimiterOf(text: string): string {
  const lines = emptied(text, "\t;,").split(/\r\n|\r|\n/).filter((line) => line.trim() !== "");
  const rows = (delimiter: string) => lines.filter((line) => line.includes(delimiter)).length;
  const cells = (delimiter: string) => lines.join("\n").split(delimiter).length;
  if (2 * rows("\t") > lines.length) return "\t";
  const [semicolons, commas] = [rows(";"), rows(",")];
  if (rows("\t") > Math.max(semicolons, commas)) return "\t";
  if (semicolons > commas || (semicolons === commas && cells(";") >= cells(",") && semicolons > 0)) return ";";
  if (commas > 0 && !mayCommasSeparate(lines)) {
    throw new Unreadable(
      "The commas of this text separate thousands, and no tabs, semicolons or commas separate its cells: copy the " +
        "table from the web page or a spreadsheet.",
    );
  }
  return ",";
}

/** Checks that each quoted cell is closed, and that no text follows its quotes. */
function checkQuotes(text: string, delimiter: string): void {
  const bare = emptied(text, delimiter);
  const at = bare.search(new RegExp(`(^|${delimiter})"`, "m"));
  if (at < 0) return;
  const row = bare.slice(0, at).split(/\r\n|\r|\n/).length;
  const isSpaced = /^("[^"]*" )+("[^"]*")$/m.test(text);
  const words = ": cells with blanks between them, as R's write.table has, aren't read: write.csv has commas";
  const blanks = isSpaced ? words : "";
  throw new Unreadable(`row ${row}: a quoted cell isn't closed, or something follows its quotes${blanks}`);
}

/** The notice on words for missing values. */
function missingNotice(cells: readonly (readonly string[])[]): string[] {
  const many = new Map<string, number>();
  for (const cell of cells.flat()) {
    const word = isMissing(cell) ? cell.trim() : "";
    if (word) many.set(word, (many.get(word) ?? 0) + 1);
  }
  const words = [...many].map(([word, times]) => `'${word}' in ${counted(times, "cell")}`);
  return words.length ? [`Missing values were taken as blanks: ${words.join("; ")}`] : [];
}

/** Cells without blanks around them, and without empty rows at the end, as a sheet. What is struck out has its row,
 * which counts from 0. */
export function sheetOfCells(
  cells: readonly (readonly string[])[],
  delimiter = "",
  notices: readonly string[] = [],
  struck: ReadonlyMap<number, string> = new Map(),
): Sheet {
  const trimmed = cells.map((row) => row.map(plainCell));
  const { rows: split, from, to, origins } = splitLines(trimmed);
  const became = `${counted(from, "row")} became ${counted(to, "row")}, one for each line`;
  const said = [...missingNotice(cells), ...(from ? [`Cells of several lines: ${became}`] : [])];
  const rows = [...split];
  while (rows.length > 0 && rows[rows.length - 1]?.every((cell) => cell === "")) rows.pop();
  if (rows.length > MOST_TABLE_ROWS) {
    throw new Unreadable(`This table has ${counted(rows.length, "row")}, and a board has at most 256 members.`);
  }
  // Empty columns at the right end aren't counted.
  const width = rows.reduce((most, row) => {
    const more = row.slice(most).reverse().findIndex((cell) => cell !== "");
    return more < 0 ? most : row.length - more;
  }, 0);
  checkColumns(width);
  checkCells(width * rows.length);
  const out = origins.flatMap((origin, at) => {
    const words = struck.get(origin);
    return words === undefined ? [] : [{ row: at + 1, words }];
  });
  return { rows, width, delimiter, notices: [...notices, ...said], ...(out.length ? { struck: out } : {}) };
}

/** Refuses what this page and board-figures export, and what has no columns. */
function checkKind(text: string): void {
  const lines = text.split(/\r\n|\r|\n/).filter((line) => line !== "" && !line.startsWith("#"));
  if (/^\ufeff?"?(scenario|reading)"?[,;\t].*majority.*[,;\t]"?chair"?[,;\t]/.test(lines[0] ?? "")) {
    const whose = /^\ufeff?# /.test(text) ? "this page exports" : "board-study or board-figures writes";
    throw new Unreadable(
      `This is the table of results that ${whose}: it has chairs and their power, and no members. ` +
        "Open the exported script or page, or a table of members.",
    );
  }
  if (text.trim() === "") throw new Unreadable("There is nothing in it.");
}

/** Refuses a text that is no table. */
function checkTable({ rows }: Sheet): void {
  if (rows.every((row) => row.length < 2)) {
    throw new Unreadable("This text has no columns: no tabs, semicolons or commas separate cells in it.");
  }
  if (!rows.some((row) => row.some((cell) => /\p{Nd}/u.test(cell)))) {
    throw new Unreadable("There are no numbers in this text, and a table of members has votes.");
  }
}

/** The cells of a text, separated as it seems or by the delimiter that is given. */
export function sheetOf(text: string, notices: readonly string[] = [], given?: string): Sheet {
  const plain = text.replace(/^\ufeff/, "");
  checkLetters(plain, "This text");
  if (countUpTo(plain, "\n", MOST_LINES) > MOST_LINES) {
    throw new Unreadable(`This text has more than ${counted(MOST_LINES, "line")}; a board has at most 256 members.`);
  }
  checkKind(plain);
  const delimiter = given ?? delimiterOf(plain);
  checkQuotes(plain, delimiter);
  const sheet = sheetOfCells(dsvFormat(delimiter).parseRows(plain), delimiter, notices);
  if (given === undefined) checkTable(sheet);
  return sheet;
}
