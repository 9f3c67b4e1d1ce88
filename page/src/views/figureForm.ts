/** The choices of a figure for an export: its width, its typeface, its title, and the resolution of a picture. */
import { choice, h, type Child } from "./dom";
import type { FigureChoice } from "../exports/exportFigure";
import { MOST_HEIGHT, resolutionOf, WIDTHS, widthOf, type FigureChosen } from "../exports/figureSize";
import { FAMILIES, fontName, isInstalled, namedFamily } from "../exports/typeface";
import { readField, type Field } from "./field";

export interface FigureForm {
  readonly children: Child;
  /** The choice, or null after what is wrong was said; if it is asked for, the wrong field has the focus then. */
  read(isAsked: boolean): FigureChoice | null;
  /** The resolution of a picture, or null after what is wrong was said. */
  readResolution(): number | null;
}

type Options = Readonly<Record<string, { readonly words: string }>>;

function optionsOf(all: Options, own: string): [string, string][] {
  return [...Object.entries(all).map(([key, { words }]): [string, string] => [key, words]), ["own", own]];
}

/** A field under a list, which is there if the list's own entry is chosen. */
function fieldBox<Value>({ label, input, wrong }: Field<Value>, isShown: boolean): HTMLElement {
  return h("div", { class: "own", hidden: !isShown }, label, input, wrong);
}

function valueOf<Value>(field: Field<Value>, isAsked: boolean): Value | null {
  return isAsked ? field.read() : field.check();
}

/** A part of the form, and how it is read. */
interface Part<Value> {
  readonly children: Child;
  read(isAsked: boolean): Value | null;
}

/** The list of widths, and the field of another one. */
function widthPart(kept: FigureChosen, changed: () => void): Part<number> {
  const field = readField("own-width", "Width, in mm or cm", widthOf, { value: kept.ownWidth, size: 8 });
  const box = fieldBox(field, kept.width === "own");
  field.input.addEventListener("change", () => {
    kept.ownWidth = field.input.value;
    changed();
  });
  const list = choice("figure-width", "Width", optionsOf(WIDTHS, "Another width"), kept.width, (it) => {
    kept.width = it as FigureChosen["width"];
    box.hidden = kept.width !== "own";
    changed();
  });
  const read = (isAsked: boolean) => (kept.width === "own" ? valueOf(field, isAsked) : WIDTHS[kept.width].width);
  return { children: [list, box], read };
}

/** The list of typefaces, and the field for the name of an installed font. */
function typefacePart(kept: FigureChosen, changed: () => void): Part<string> {
  const field = readField("font-name", "Name of an installed font", fontName, { value: kept.font, size: 14 });
  const box = fieldBox(field, kept.typeface === "own");
  const missing = h("p", { id: "font-missing", class: "note", role: "status" });
  field.input.addEventListener("change", () => {
    kept.font = field.input.value;
    changed();
  });
  const list = choice("typeface", "Typeface", optionsOf(FAMILIES, "An installed font"), kept.typeface, (it) => {
    kept.typeface = it as FigureChosen["typeface"];
    box.hidden = kept.typeface !== "own";
    changed();
  });
  const read = (isAsked: boolean) => {
    missing.textContent = "";
    if (kept.typeface !== "own") return FAMILIES[kept.typeface].family;
    const name = valueOf(field, isAsked);
    if (name === null) return null;
    if (!isInstalled(name)) {
      missing.textContent = `This browser finds no font “${name}”. It draws with a sans serif; the SVG names the font.`;
    }
    return namedFamily(name);
  };
  return { children: [list, box, missing], read };
}

/** The form for what is kept. A function is called when a choice has changed. */
export function figureForm(kept: FigureChosen, changed: () => void): FigureForm {
  const [width, face] = [widthPart(kept, changed), typefacePart(kept, changed)];
  const resolution = readField("resolution", "Resolution of a PNG, dpi", resolutionOf, {
    value: kept.resolution, inputmode: "numeric", size: 5,
  });
  resolution.input.addEventListener("change", () => (kept.resolution = resolution.input.value));
  const title: HTMLInputElement = h("input", {
    type: "checkbox", id: "with-title", checked: kept.hasTitle, onchange: () => {
      kept.hasTitle = title.checked;
      changed();
    },
  });
  const read = (isAsked: boolean): FigureChoice | null => {
    const [millimetres, family] = [width.read(isAsked), face.read(isAsked)];
    if (millimetres === null || family === null) return null;
    const most = kept.width === "own" ? MOST_HEIGHT : WIDTHS[kept.width].most;
    return { width: millimetres, most, family, hasTitle: title.checked };
  };
  const children = [
    h("div", { class: "choices" }, width.children, face.children),
    h("div", { class: "choices" },
      h("label", {}, title, "with its title"),
      h("div", { class: "own" }, resolution.label, resolution.input, resolution.wrong),
    ),
  ];
  return { children, read, readResolution: () => resolution.read() };
}
