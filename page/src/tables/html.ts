/** Tables of web pages, and of the HTML that spreadsheets put on the clipboard, as sheets. */
import { raised } from "./cells";
import { filledNotice, gridOf, MOST_ROWS, type SpanningCell } from "./grid";
import { checkLetters, checkTags, MOST_TABLE_TAGS } from "./limits";
import { NOTHING, strikes, struckIn, StyledTags, textOfRuns, type Run, type Text } from "./struck";
import { sheetOfCells } from "./text";
import { Unreadable, type NamedSheet } from "./types";

/** Makes a document of a text: the browser's DOMParser. */
export type Parse = (text: string, type: "text/html") => Document;

/** Tables in one another at most. */
const MOST_DEEP = 20;

/** HTML with what is raised as marks, so that a footnote's number doesn't become part of a number; entities stay. */
function withMarks(html: string): string {
  const marks = (text: string) =>
    text.replace(/<[^>]*>|&[^;\s]{1,9};|[^<&]+|[<&]/g, (it) => (/^[<&]/.test(it) ? it : raised(it)));
  const ended = /<sup>([^]*?)(?:<\/sup>|(?=<\/?(?:table|caption|t(?:head|body|foot|r|d|h))\b))/gi;
  return html.replace(ended, (_, text) => marks(String(text))).replace(/<\/?sup>/g, "");
}

/** The mark of an element of a table that is struck out, and all elements that are. */
const STRUCK = "data-struck";
const STRUCK_ONES = `s, del, strike, [${STRUCK}]`;

/** The parts of a cell's text. A tag that has `<` in an attribute still has its style. */
function runsOf(node: Node, isOut: boolean): Run[] {
  if (node.nodeType === 3) return [[(node.textContent ?? "").replace(/[ \t\r\n]+/g, " "), isOut]];
  if (node.nodeName === "BR") return [["\n", isOut]];
  if (node.nodeType !== 1) return [];
  const element = node as Element;
  const isAllOut = isOut || element.matches(STRUCK_ONES) || strikes(element.getAttribute("style") ?? "");
  return [...node.childNodes].flatMap((it) => runsOf(it, isAllOut));
}

function textOf(cell: Element): Text {
  const { all, left, out } = textOfRuns(runsOf(cell, cell.closest(STRUCK_ONES) !== null));
  return { all: all.trim(), left: left.replace(/ {2,}/g, " ").trim(), out: out.trim() };
}

function spanOf(cell: Element, name: string): number {
  const span = Number(cell.getAttribute(name) ?? "1");
  return Number.isInteger(span) && span > 0 ? Math.min(span, MOST_ROWS) : 1;
}

/** A cell with its text, or with what is left of it where something else of its row isn't struck out. */
function cellOf(cell: Element, { all, left }: Text, isRowOut: boolean): SpanningCell {
  const [rows, columns] = [spanOf(cell, "rowspan"), spanOf(cell, "colspan")];
  return { text: isRowOut ? all : left, below: left, rows, columns };
}

function sheetOfTable(table: Element, place: number, notices: readonly string[]): NamedSheet {
  const own = [...table.querySelectorAll("tr")].filter((row) => row.closest("table") === table);
  const rows = own.slice(0, MOST_ROWS).map((row) => [...row.children].filter((it) => /^T[DH]$/.test(it.nodeName)));
  const texts = rows.map((row) => row.map(textOf));
  const struck = struckIn(texts);
  const spanning = rows.map((row, at) =>
    row.map((it, column) => cellOf(it, texts[at]?.[column] ?? NOTHING, struck.get(at) === "")));
  const { cells, filled } = gridOf(spanning);
  const caption = table.querySelector("caption")?.textContent?.trim();
  const sheet = sheetOfCells(cells, "", [...notices, ...filledNotice(filled)], struck);
  return { name: caption || `Table ${place + 1}`, sheet };
}

/** HTML without the parts between a start and its end; what has no end goes on to the last letter. */
function without(html: string, start: RegExp, endOf: (start: string) => string): string {
  const kept: string[] = [];
  let from = 0;
  for (let found = start.exec(html); found; found = start.exec(html)) {
    kept.push(html.slice(from, found.index));
    const end = new RegExp(endOf(found[0] ?? ""), "gi");
    end.lastIndex = start.lastIndex;
    from = end.test(html) ? end.lastIndex : html.length;
    start.lastIndex = from;
  }
  return kept.join("") + html.slice(from);
}

/** A tag, if a table needs it: without styles and scripts, which the page's policy forbids. */
function bareTag(tag: string, name: string, styled: StyledTags): string {
  const isEnd = tag.startsWith("</");
  if (/^(table|caption|t(head|body|foot|r|d|h)|br)$/i.test(name)) {
    if (!/^br$/i.test(name)) styled.cut();
    const own = tag.replace(/\s(style|on[a-z]+)\s*=\s*("[^"]*"|'[^']*')/gi, "");
    return !isEnd && styled.isStruck(tag, name) ? own.replace(/^<[a-z]+/i, `$& ${STRUCK}`) : own;
  }
  const around = styled.around(tag, name);
  return isEnd && /^(p|div|li)$/i.test(name) ? `${around}<br>` : around;
}

/** HTML without all that no table needs. Each letter is looked at a few times at most. */
export function bare(html: string): string {
  const told = without(html, /<!--/g, () => "-->");
  const plain = without(told, /<(style|script)\b/gi, (start) => `</${start.slice(1)}\\s*>`);
  const styled = new StyledTags(html);
  const left = withMarks(plain.replace(/<\/?([a-z][a-z0-9:-]*)\b(?:[^"'<>]|"[^"<]*"|'[^'<]*')*>/gi,
    (tag: string, name: string) => bareTag(tag, name, styled)));
  checkTables(left);
  return left;
}

/** Refuses what a browser takes long to read: very many tags or letters, and tables in tables. */
function checkTables(html: string): void {
  checkTags(html, "This page", MOST_TABLE_TAGS);
  checkLetters(html, "This page");
  let deep = 0;
  for (const [tag = ""] of html.matchAll(/<\/?table\b/gi)) {
    deep = Math.max(0, deep + (tag.startsWith("</") ? -1 : 1));
    if (deep > MOST_DEEP) throw new Unreadable(`This page has more than ${MOST_DEEP} tables in one another.`);
  }
}

/** The tables of a page that have several rows and columns. The page is bare, and was read with these notices. */
export function sheetsOfHtml(html: string, parse: Parse, notices: readonly string[] = []): NamedSheet[] {
  const tables = [...parse(html, "text/html").querySelectorAll("table")];
  const sheets = tables.map((it, place) => sheetOfTable(it, place, notices));
  const large = sheets.filter(({ sheet }) => sheet.width > 1 && sheet.rows.length > 1);
  if (!large.length) throw new Unreadable("There is no table in this page.");
  return large;
}

/** Whether HTML has a table. */
export function hasTable(html: string): boolean {
  return /<table\b/i.test(html);
}
