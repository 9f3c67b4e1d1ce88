/** Sizes of figures: widths and heights in millimetres, and the resolution of pictures. A unit is a CSS pixel. */
import type { Typed } from "../study/amounts";
import type { Family } from "./typeface";

export const WIDTHS = {
  single: { words: "Single column, 84 mm", width: 84, most: 200 },
  double: { words: "Double column, 174 mm", width: 174, most: 200 },
  slide: { words: "Slide of 16 by 9, 254 mm", width: 254, most: 142.875 },
} as const;
/** The height that figures of other widths have at most: that of a column of text. */
export const MOST_HEIGHT = 230;
export type Width = keyof typeof WIDTHS;

const [NARROWEST, WIDEST] = [75, 500];
const [COARSEST, FINEST] = [72, 1200];
export const RESOLUTION = 300;

/** What is chosen and typed for a figure. */
export interface FigureChosen {
  width: Width | "own";
  ownWidth: string;
  typeface: Family | "own";
  font: string;
  resolution: string;
  hasTitle: boolean;
}

export const FIRST_FIGURE: Readonly<FigureChosen> = {
  width: "double", ownWidth: "120 mm", typeface: "sans", font: "", resolution: String(RESOLUTION), hasTitle: true,
};

const INCH = 25.4;
/** CSS pixels in an inch. */
const PIXELS = 96;

/** The units of a drawing in some millimetres. */
export function unitsOf(millimetres: number): number {
  return (millimetres * PIXELS) / INCH;
}

/** The millimetres of a drawing's units, to a hundredth. */
export function millimetresOf(units: number): number {
  return Math.round((100 * units * INCH) / PIXELS) / 100;
}

/** The points of a picture on some millimetres. */
export function pointsOf(millimetres: number, resolution: number): number {
  return Math.round((millimetres * resolution) / INCH);
}

/** A width in millimetres, or in centimetres if the text says so. */
export function widthOf(text: string): Typed<number> {
  const [, digits, unit = "mm"] = /^([0-9]{1,3}(?:[.,][0-9]{1,2})?) ?(mm|cm)?$/i.exec(text.trim()) ?? [];
  if (digits === undefined) return { wrong: "Write a width in millimetres or centimetres, such as 120 mm or 12 cm." };
  const number = Number(digits.replace(",", "."));
  const width = unit.toLowerCase() === "cm" ? Math.round(1000 * number) / 100 : number;
  const isRight = width >= NARROWEST && width <= WIDEST;
  return isRight ? { value: width } : { wrong: `A figure is from ${NARROWEST} to ${WIDEST} mm wide.` };
}

/** A resolution in points an inch. */
export function resolutionOf(text: string): Typed<number> {
  const number = /^[0-9]{1,5}$/.test(text.trim()) ? Number(text) : NaN;
  const isRight = number >= COARSEST && number <= FINEST;
  return isRight ? { value: number } : { wrong: `Write a resolution from ${COARSEST} to ${FINEST} dpi, such as 300.` };
}
