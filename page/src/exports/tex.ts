/** Tables for LaTeX: a tabular with the rules of booktabs. */
import { isRightToLeft, withoutControls } from "../study/names";

const MARKS: Readonly<Record<string, string>> = {
  "\\": "\\textbackslash{}",
  "~": "\\textasciitilde{}",
  "^": "\\textasciicircum{}",
  "<": "\\textless{}",
  ">": "\\textgreater{}",
  "|": "\\textbar{}",
  "`": "\\textasciigrave{}",
  // Some languages of babel take a quote as the beginning of a command.
  '"': "\\symbol{34}",
};

/** A text for LaTeX: each mark stands for itself. */
export function texText(text: string): string {
  return text.replace(/[\\~^<>|`"]|[&%$#_{}]/g, (it) => MARKS[it] ?? `\\${it}`);
}

/** A text for BibTeX, where a brace counts even after a backslash. */
export function bibText(text: string): string {
  return texText(text).replace(/\\\{/g, "\\textbraceleft{}").replace(/\\\}/g, "\\textbraceright{}");
}

/** A name for LaTeX, on one line. One with letters from right to left is the argument of a command. */
function texName(name: string): string {
  const plain = texText(withoutControls(name).replace(/[\s\u0000-\u001f\u007f]+/g, " ").trim());
  return isRightToLeft(plain) ? `\\righttoleft{${plain}}` : plain;
}

/** A number without its unit, and with a true sign. */
function texNumber(cell: string): string {
  const number = cell.replace(/ %$/, "");
  return number === "-" ? "--" : number.replace(/^[+-]/, (sign) => `$${sign}$`);
}

/** A column of numbers: what it has in common with those beside it, and its own words. */
export interface TexHead {
  readonly group: string;
  readonly own: string;
}

/** Columns side by side under one heading. The first is counted from 0. */
interface Group {
  readonly words: string;
  readonly from: number;
  readonly many: number;
}

function groupsOf(heads: readonly TexHead[]): Group[] {
  const found: Group[] = [];
  heads.forEach(({ group }, at) => {
    const last = found[found.length - 1];
    if (last?.words === group) found[found.length - 1] = { ...last, many: last.many + 1 };
    else found.push({ words: group, from: at, many: 1 });
  });
  return found;
}

/** A row of a table: the chair's number, its name, and its numbers as they are shown. */
export interface TexRow {
  readonly chair: string;
  readonly name: string;
  /** Words after the name. */
  readonly note: string;
  readonly cells: readonly string[];
}

function texRow({ chair, name, note, cells }: TexRow): string {
  // A name from right to left ends its line, or an editor would reverse the numbers after it.
  const label = `${texName(name)}${note}`;
  const space = isRightToLeft(label) ? "\n " : "";
  return `${[chair, label + space, ...cells.map(texNumber)].join(" & ")} \\\\`;
}

/** Words in lines that are no longer than needed. A name from right to left stays on one. */
function linesOf(words: string, most: number): string[] {
  const plain = withoutControls(words).trim();
  if (isRightToLeft(plain)) return [plain];
  const lines: string[] = [];
  for (const word of plain.split(/\s+/)) {
    const last = lines[lines.length - 1];
    if (last !== undefined && last.length + 1 + word.length <= most) lines[lines.length - 1] = `${last} ${word}`;
    else lines.push(word);
  }
  return lines;
}

/** The rows of cells whose lines stand above one another, with those of fewer lines at the bottom. */
function stacked(cells: readonly (readonly string[])[]): string[][] {
  const high = Math.max(...cells.map(({ length }) => length));
  return Array.from({ length: high }, (_, row) => cells.map((it) => it[row - high + it.length] ?? ""));
}

/** The lines of the groups' headings, and those of the columns', which have their units. */
interface Heading {
  readonly groups: readonly (readonly string[])[];
  readonly own: readonly (readonly string[])[];
}

/** The headings in lines of as many characters. */
function headLines(heads: readonly TexHead[], rows: readonly TexRow[], most: number): Heading {
  const unit = (at: number) => (rows.some(({ cells }) => cells[at]?.endsWith(" %")) ? " (%)" : "");
  const groups = groupsOf(heads).map(({ words, many }) => linesOf(words, most * many));
  return { groups, own: heads.map((it, at) => linesOf(it.own + unit(at), most)) };
}

/** The heading: the groups with a rule under each, and the heads of the columns. The first two have no group. */
function heading(heads: readonly TexHead[], { groups, own }: Heading): string[] {
  const found = groupsOf(heads);
  const cells = (lines: readonly string[]) =>
    lines.map((it, at) => `\\multicolumn{${found[at]?.many ?? 1}}{c}{${texName(it)}}`);
  const rules = found.map(({ from, many }) => `\\cmidrule(lr){${from + 3}-${from + many + 2}}`);
  const above = stacked(groups).map((it) => `${["", "", ...cells(it)].join(" & ").trimStart()} \\\\`);
  const below = stacked([["Chair"], ["Name"], ...own]).map((it) => `${it.map(texName).join(" & ").trimStart()} \\\\`);
  return [...above, rules.join(""), ...below];
}

/** The widths of letters in Computer Modern, in points at 10 points; the others are as wide as a capital. */
const WIDTHS = [
  [2.8, " !',.:;[]`il|"], [3.9, "fj-I()rst"], [4.7, "cez?"], [5.3, "$*/0123456789ago{}Jkqvxy"], [5.6, "Sbdhnpu"],
  [6.8, "Z^~LFEP"],
] as const;
const WIDTH = new Map(WIDTHS.flatMap(([width, letters]) => [...letters].map((it) => [it, width] as const)));

function widthOf(text: string): number {
  const plain = withoutControls(text).normalize("NFD").replace(/\p{M}/gu, "");
  return [...plain].reduce((sum, it) => sum + (WIDTH.get(it) ?? 7.8), 0);
}

/** How a table is made narrower: characters of a line of a heading, the size of type, how wide its letters are beside
 * those of 10 points, and the space beside a column. */
const WAYS = [
  [13, "", 1, 6], [9, "", 1, 6], [9, "\\small", 0.93, 5], [9, "\\footnotesize", 0.86, 4], [9, "\\scriptsize", 0.8, 3],
  [9, "\\scriptsize", 0.8, 2],
] as const;
/** The width of the text of LaTeX's article, in points. */
const TEXT_WIDTH = 345;

/** A table's heading and size, and how wide it is. */
interface Fit {
  readonly heading: Heading;
  readonly size: string;
  readonly space: number;
  readonly width: number;
}

/** The first way in which a table fits the text of article, or the last one. */
function fitted(heads: readonly TexHead[], rows: readonly TexRow[]): Fit {
  const widest = (texts: readonly string[]) => Math.max(0, ...texts.map(widthOf));
  const cells = heads.map((_, at) => widest(rows.map((it) => it.cells[at] ?? "")));
  const label = widest(rows.map(({ name, note }) => name + note));
  const all = WAYS.map(([most, size, part, space]): Fit => {
    const lines = headLines(heads, rows, most);
    const columns = cells.map((it, at) => Math.max(it, widest(lines.own[at] ?? [])));
    groupsOf(heads).forEach(({ from, many }, at) => {
      const spanned = columns.slice(from, from + many).reduce((sum, it) => sum + it, 0);
      columns[from] = (columns[from] ?? 0) + Math.max(0, widest(lines.groups[at] ?? []) - spanned);
    });
    const letters = [widthOf("Chair"), label, ...columns];
    const width = Math.ceil(letters.reduce((sum, it) => sum + it * part, 2 * space * letters.length));
    return { heading: lines, size, space, width };
  });
  return all.find(({ width }) => width <= TEXT_WIDTH) ?? all[all.length - 1] as Fit;
}

/** A sentence on a width. */
function widthWords(width: number): string {
  const fits = `The table is about ${width} pt wide, and the text of article ${TEXT_WIDTH} pt`;
  const what = "it needs a page on its side (sidewaystable of rotating), or fewer columns, which Display hides";
  return `${fits}${width <= TEXT_WIDTH ? "" : `: ${what}`}.`;
}

const WORDS = [
  "A table for \\input. It needs \\usepackage{booktabs}.",
  "The numbers of a column have the same places after the point, so that alignment to the right aligns the points.",
];
/** What pdfLaTeX prints with the encoding T1, and what of it needs that encoding. */
const KNOWN = new RegExp(
  "[\\u0000-\\u0125\\u0128-\\u0137\\u0139-\\u013e\\u0141-\\u0148\\u014a-\\u0165\\u0168-\\u017e\\u0192" +
    "\\u01c4-\\u01d4\\u01e2\\u01e3\\u01e6-\\u01eb\\u01f0\\u01f4\\u01f5\\u0218-\\u021b\\u0232\\u0233" +
    "\\u0237\\u1e02\\u1e03\\u1e0d\\u1e1e-\\u1e21\\u1e25\\u1e30\\u1e31\\u1e37\\u1e43\\u1e45\\u1e47\\u1e5b" +
    "\\u1e63\\u1e6d\\u1e8e-\\u1e91\\u1e9e\\u1ef2\\u1ef3\\u200c\\u2010-\\u2016\\u2018-\\u201a" +
    "\\u201c-\\u201e\\u2020-\\u2022\\u2026\\u2030\\u2031\\u2039-\\u203b\\u2044\\u20a1\\u20a4\\u20a6" +
    "\\u20a9\\u20ab\\u20ac\\u20b1\\u2116\\u2122]",
);
const OF_T1 = /[«»ÐÞðþĄąĐđĘęĮįŊŋŲųǪǫ‚„‹›]/;

/** The sentences on letters that LaTeX needs more for. */
function letterWords(names: readonly string[]): string[] {
  const letters = [...new Set(names.flatMap((it) => [...withoutControls(it).normalize("NFC")]))];
  const unknown = letters.filter((it) => !KNOWN.test(it)).sort();
  const hasT1 = letters.some((it) => OF_T1.test(it));
  return [
    ...(unknown.length ? [
      `Names have letters that pdfLaTeX lacks (${unknown.join(" ")}): use LuaLaTeX or XeLaTeX, and a font with them.`,
    ] : []),
    ...(hasT1 ? ["Names have letters that pdfLaTeX prints only with \\usepackage[T1]{fontenc}."] : []),
  ];
}

const RIGHT_TO_LEFT_WORDS =
  "Names from right to left are in \\righttoleft: define it before as your engine writes them, such as " +
  "\\newcommand{\\righttoleft}[1]{\\foreignlanguage{hebrew}{#1}}.";

/** A comment on one line. */
function comment(line: string): string {
  return `% ${line.replace(/[\s\u0000-\u001f\u007f]+/g, " ")}`;
}

/** The table, with the sums in its last row. Its columns' words are those of the page. */
export function texTable(
  heads: readonly TexHead[],
  rows: readonly TexRow[],
  sums: TexRow,
  source: readonly string[],
): string {
  const names = [...heads.flatMap((it) => [it.group, it.own]), ...rows.map((it) => it.name)];
  const hasTurned = names.some(isRightToLeft);
  const notes = [...letterWords(names), ...(hasTurned ? [RIGHT_TO_LEFT_WORDS] : [])];
  const { heading: found, size, space, width } = fitted(heads, [...rows, sums]);
  const comments = [...WORDS, widthWords(width), ...notes, ...source].map(comment);
  return [
    ...comments,
    ...(hasTurned ? ["\\providecommand{\\righttoleft}[1]{#1}"] : []),
    ...(size ? [`{${size}\\setlength{\\tabcolsep}{${space}pt}\\relax`] : []),
    `\\begin{tabular}{rl*{${heads.length}}{r}}`,
    "\\toprule",
    ...heading(heads, found),
    "\\midrule",
    ...rows.map(texRow),
    "\\midrule",
    texRow(sums),
    "\\bottomrule",
    "\\end{tabular}",
    ...(size ? ["}"] : []),
    "",
  ].join("\n");
}
