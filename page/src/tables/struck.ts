/** Text that is struck out in a cell of a workbook or a web page: it isn't read, and its row is asked about. And the
 * tags of a web page that strike out, or lift off the line. */

/** The text of a cell, what is left of it, and what is struck out of it. */
export interface Text {
  readonly all: string;
  readonly left: string;
  readonly out: string;
}

export const NOTHING: Text = { all: "", left: "", out: "" };

/** A part of a text, and whether it is struck out. */
export type Run = readonly [text: string, isOut: boolean];

export function textOfRuns(runs: readonly Run[]): Text {
  const joined = (some: readonly Run[]) => some.map(([text]) => text).join("");
  const [left, out] = [runs.filter(([, isOut]) => !isOut), runs.filter(([, isOut]) => isOut)];
  return { all: joined(runs), left: joined(left), out: joined(out) };
}

/** What is struck out of each row that has something struck out; nothing where all of it is. Rows count from 0. */
export function struckIn(grid: readonly (readonly Text[])[]): Map<number, string> {
  return new Map(grid.flatMap((row, at) => {
    const cells = Array.from(row, (it) => it ?? NOTHING);
    const out = cells.flatMap((it) => (it.out.trim() ? [it.out.trim()] : []));
    if (!out.length) return [];
    return [[at, cells.some(({ left }) => left.trim() !== "") ? out.join(", ") : ""]];
  }));
}

/** Whether declarations of styles strike a text out: the last one counts. */
export function strikes(style: string): boolean {
  const lines = style.split(";").filter((it) => /^\s*text-decoration(-line)?\s*:/i.test(it));
  return /line-through/i.test(lines.pop() ?? "");
}

/** Whether declarations of styles lift a text off the line. */
function lifts(style: string): boolean {
  const lines = style.split(";").filter((it) => /^\s*(vertical-align|mso-text-raise)\s*:/i.test(it));
  return lines.some((it) => /:\s*(super|sub|-?[0-9.]*[1-9][0-9.]*\s*(px|pt|em|ex|rem|%))/i.test(it));
}

/** What a style does with a text: the element that stands for it, those that do so by themselves, and declarations. */
interface Look {
  readonly element: "s" | "sup";
  readonly own: RegExp;
  readonly isSo: (style: string) => boolean;
}
const STRIKES: Look = { element: "s", own: /^(s|del|strike)$/i, isSo: strikes };
const LIFTS: Look = { element: "sup", own: /^(sup|sub)$/i, isSo: lifts };

/** The classes whose styles look so. */
function classesOf(html: string, isSo: Look["isSo"]): ReadonlySet<string> {
  const classes = new Set<string>();
  const piece = /[^{}]*[{}]/y;
  let selector = "";
  for (let [found] = piece.exec(html) ?? []; found !== undefined; [found] = piece.exec(html) ?? []) {
    const isRule = selector !== "" && found.endsWith("}") && isSo(found.slice(0, -1));
    for (const [, name = ""] of isRule ? selector.matchAll(/\.([a-z_][\w-]*)/gi) : []) classes.add(name);
    selector = found.endsWith("{") ? found : "";
  }
  return classes;
}

/** The values of a tag's attributes `class` and `style`. */
function attributesOf(tag: string): { classes: string; style: string } {
  const values = new Map<string, string>();
  const found = tag.matchAll(/([^\s"'<>/=]+)(?:\s*=\s*("[^"]*"|'[^']*'|[^\s"'>]+))?/g);
  for (const [, name = "", value = ""] of /class|style/i.test(tag) ? found : []) {
    const key = name.toLowerCase();
    if (!values.has(key)) values.set(key, value.replace(/^["']|["']$/g, ""));
  }
  return { classes: values.get("class") ?? "", style: values.get("style") ?? "" };
}

/** Elements that have no end. */
const EMPTY = /^(area|base|br|col|embed|hr|img|input|link|meta|source|track|wbr)$/i;

/** Follows the tags of a web page, and knows which of them begin and end a look. */
class LookTags {
  readonly #look: Look;
  readonly #classes: ReadonlySet<string>;
  /** By the names of open elements: the piece in which each begins that looks so, and 0 for another one. */
  readonly #open = new Map<string, number[]>();
  /** The tags of tables cut a page into pieces. How many elements that look so are open in the last one. */
  #piece = 1;
  #many = 0;

  constructor(html: string, look: Look) {
    this.#look = look;
    this.#classes = classesOf(html, look.isSo);
  }

  /** Whether a tag gives what is in its element the look. */
  isSo(tag: string, name: string): boolean {
    const { classes, style } = attributesOf(tag);
    const { own, isSo } = this.#look;
    return own.test(name) || isSo(style) || classes.split(/\s+/).some((it) => this.#classes.has(it));
  }

  /** Begins a piece at a tag of a table. */
  cut(): void {
    this.#piece += 1;
    this.#many = 0;
  }

  /** What stands for a tag that no table needs: the look's element, its end or nothing. None is in another one. */
  around(tag: string, name: string): string {
    const key = name.toLowerCase();
    const open = this.#open.get(key) ?? [];
    this.#open.set(key, open);
    if (tag.startsWith("</")) return this.#end(open.pop());
    if (EMPTY.test(key)) return "";
    // A paragraph ends where the next one begins.
    const before = key === "p" ? this.#end(open.pop()) : "";
    const isSo = this.isSo(tag, key);
    open.push(isSo ? this.#piece : 0);
    if (isSo) this.#many += 1;
    return before + (isSo && this.#many === 1 ? `<${this.#look.element}>` : "");
  }

  #end(piece = 0): string {
    if (piece === this.#piece) this.#many -= 1;
    return piece > 0 && (piece < this.#piece || this.#many === 0) ? `</${this.#look.element}>` : "";
  }
}

/** The tags of a web page that strike out, and those that lift off the line. */
export class StyledTags {
  readonly #struck: LookTags;
  readonly #lifted: LookTags;

  constructor(html: string) {
    [this.#struck, this.#lifted] = [new LookTags(html, STRIKES), new LookTags(html, LIFTS)];
  }

  isStruck(tag: string, name: string): boolean {
    return this.#struck.isSo(tag, name);
  }

  cut(): void {
    this.#struck.cut();
    this.#lifted.cut();
  }

  /** What stands for a tag that no table needs: `<s>`, `<sup>`, their ends or nothing. */
  around(tag: string, name: string): string {
    const [struck, lifted] = [this.#struck.around(tag, name), this.#lifted.around(tag, name)];
    return tag.startsWith("</") ? lifted + struck : struck + lifted;
  }
}
