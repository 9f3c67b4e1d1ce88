/** The XML of workbooks as a tree, read without a browser, so that a worker can do it. */
import { checkTags } from "./limits";
import { Unreadable } from "./types";

/** An element: its name without a prefix, its attributes by their whole names, and what is in it. */
export class Element {
  readonly children: (Element | string)[] = [];

  constructor(readonly name: string, readonly attributes: ReadonlyMap<string, string> = NONE) {}

  attribute(name: string): string | undefined {
    return this.attributes.get(name);
  }

  /** All elements of a name below this one. */
  all(name: string): Element[] {
    return this.children.flatMap((it) => {
      if (typeof it === "string") return [];
      return it.name === name ? [it, ...it.all(name)] : it.all(name);
    });
  }

  text(): string {
    return this.children.map((it) => (typeof it === "string" ? it : it.text())).join("");
  }
}

const DAMAGED = "This workbook is damaged.";
/** Elements in one another; those of workbooks are a few. */
const MOST_DEEP = 100;
const NAMED: Readonly<Record<string, string>> = { lt: "<", gt: ">", amp: "&", quot: '"', apos: "'" };

function decoded(text: string): string {
  return text.replace(/&(?:#x([0-9a-f]{1,6})|#([0-9]{1,7})|([a-z]+));/gi, (whole, hex, decimal, name) => {
    if (name) return NAMED[String(name)] ?? String(whole);
    const point = hex ? parseInt(String(hex), 16) : Number(decimal);
    return point <= 0x10ffff ? String.fromCodePoint(point) : "";
  });
}

/** The end of what begins with `<!` or `<?`, which has no element in it; and its text if it is a CDATA section. */
function skipped(text: string, at: number): { end: number; data: string } {
  const [start, close] = ([["<!--", "-->"], ["<![CDATA[", "]]>"], ["<", ">"]] as const)
    .find(([it]) => text.startsWith(it, at)) ?? ["<", ">"];
  const end = text.indexOf(close, at + start.length);
  if (end < 0) throw new Unreadable(DAMAGED);
  return { end: end + close.length, data: close === "]]>" ? text.slice(at + start.length, end) : "" };
}

const bareName = (name: string): string => name.slice(name.indexOf(":") + 1);

const NONE: ReadonlyMap<string, string> = new Map();

function attributesOf(words: string): ReadonlyMap<string, string> {
  if (!words.includes("=")) return NONE;
  const found = words.matchAll(/([^\s=]+)\s{0,9}=\s{0,9}("[^"]*"|'[^']*')/g);
  return new Map([...found].map(([, name = "", value = ""]) => [name, decoded(value.slice(1, -1))]));
}

/** Reads XML. Entities of its own, which may unpack to very much, are refused, and so are very many tags. */
export function xmlOf(text: string): Element {
  if (/<!(DOCTYPE|ENTITY)/i.test(text)) throw new Unreadable("This workbook is damaged: it defines entities.");
  checkTags(text, "This workbook");
  const open = [new Element("")];
  const tag = /<(\/?)([^\s<>/!?]+)((?:[^"'<>]|"[^"<]*"|'[^'<]*')*)>/y;
  let at = 0;
  while (at < text.length) {
    const parent = open[open.length - 1];
    if (!parent) throw new Unreadable(DAMAGED);
    const next = text.indexOf("<", at);
    const end = next < 0 ? text.length : next;
    if (end > at) parent.children.push(decoded(text.slice(at, end)));
    tag.lastIndex = end;
    const [whole, closing, name = "", words = ""] = tag.exec(text) ?? [];
    if (whole === undefined) {
      const { end: after, data } = next < 0 ? { end, data: "" } : skipped(text, end);
      parent.children.push(data);
      at = after;
      continue;
    }
    at = end + whole.length;
    take(open, parent, closing === "/", bareName(name), words);
  }
  if (open.length !== 1) throw new Unreadable(DAMAGED);
  return open[0] ?? new Element("");
}

/** Opens or closes an element. */
function take(open: Element[], parent: Element, isEnd: boolean, name: string, words: string): void {
  if (isEnd && parent.name !== name) throw new Unreadable(DAMAGED);
  if (isEnd) {
    open.pop();
    return;
  }
  const made = new Element(name, attributesOf(words));
  parent.children.push(made);
  if (words.endsWith("/")) return;
  open.push(made);
  if (open.length > MOST_DEEP) throw new Unreadable(DAMAGED);
}
