/** Typefaces of figures: their names in SVG, the width of texts in them, and texts that fit into a width. */
import type { Typed } from "../study/amounts";

export interface Typeface {
  /** The list of fonts, as CSS has it. */
  readonly family: string;
  /** The width of a text at a size. */
  width(text: string, size: number): number;
}

/** The width of a letter on the screen at a size of one, about; measuring each text would take too long. */
const LETTER = 0.55;

/** The typeface of the page. */
export const SCREEN: Typeface = {
  family: "system-ui, sans-serif",
  width: (text, size) => LETTER * size * text.length,
};

/** Fonts that systems have, and a generic one at the end. */
export const FAMILIES = {
  sans: { words: "Sans serif", family: "Helvetica, Arial, sans-serif" },
  serif: { words: "Serif", family: "Times, 'Times New Roman', serif" },
  mono: { words: "Monospace", family: "Courier, 'Courier New', monospace" },
} as const;
export type Family = keyof typeof FAMILIES;

/** The name of an installed font. Marks that end a name in CSS aren't part of one. */
export function fontName(text: string): Typed<string> {
  const name = text.trim().replace(/\s+/g, " ");
  if (name === "") return { wrong: "There is no name yet: write the name of a font, such as Palatino." };
  const isName = name.length <= 80 && /^[\p{L}\p{N}][\p{L}\p{M}\p{N} ._+-]*$/u.test(name);
  return isName ? { value: name } : { wrong: "A font's name has letters, digits, blanks, and . _ + - only." };
}

/** An installed font, with a sans serif where it isn't installed. */
export function namedFamily(name: string): string {
  return `'${name}', sans-serif`;
}

const pens: CanvasRenderingContext2D[] = [];

/** The width of a text at a size of 100 in a list of fonts, as this browser draws it. */
function measured(text: string, family: string): number {
  const pen = pens[0] ?? document.createElement("canvas").getContext("2d");
  if (!pen) return 100 * LETTER * text.length;
  pens[0] = pen;
  pen.font = `100px ${family}`;
  return pen.measureText(text).width;
}

/** The typeface of a list of fonts, measured in this browser. */
export function typeface(family: string): Typeface {
  return { family, width: (text, size) => (measured(text, family) * size) / 100 };
}

/** Whether this browser finds a font: else a text in it is as wide as in the font that is named next. */
export function isInstalled(name: string): boolean {
  const text = "Quota 0123456789 Wmil";
  return ["serif", "monospace"].some((it) => measured(text, `'${name}', ${it}`) !== measured(text, it));
}

/** A text that fits into a width: its end is left out if it is too long. */
export function fitted(text: string, room: number, face: Typeface, size: number): string {
  if (face.width(text, size) <= room) return text;
  const letters = [...text];
  const cut = (many: number) => `${letters.slice(0, many).join("")}…`;
  let [least, most] = [2, Math.max(2, letters.length - 1)];
  while (least < most) {
    const middle = Math.ceil((least + most) / 2);
    if (face.width(cut(middle), size) <= room) least = middle;
    else most = middle - 1;
  }
  return cut(least);
}

/** The parts of a word that each fit into a width. */
function parts(word: string, fits: (text: string) => boolean): string[] {
  const found = [""];
  for (const letter of word) {
    const last = found[found.length - 1] ?? "";
    if (last === "" || fits(last + letter)) found[found.length - 1] = last + letter;
    else found.push(letter);
  }
  return found;
}

/** The lines of a text that fit into a width. A word that is longer is broken. */
export function wrapped(text: string, room: number, face: Typeface, size: number): string[] {
  const fits = (it: string) => face.width(it, size) <= room;
  const lines: string[] = [];
  for (const word of text.split(" ")) {
    const last = lines[lines.length - 1];
    if (last !== undefined && fits(`${last} ${word}`)) lines[lines.length - 1] = `${last} ${word}`;
    else lines.push(...(fits(word) ? [word] : parts(word, fits)));
  }
  return lines.filter((it) => it !== "");
}
