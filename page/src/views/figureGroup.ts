/** The figure of the tab in the dialog of exports: its choices, a preview, and its files. */
import type { App, Shown } from "./app";
import { h, paint, save, type Child } from "./dom";
import { fileName, textFile } from "../exports/exportFile";
import { figureOfTab, hasFigure, svgText, type DrawnFigure, type FigureChoice } from "../exports/exportFigure";
import { pngOf } from "../exports/png";
import { printFigure } from "../exports/printFigure";
import { figureForm } from "./figureForm";

/** A function that makes a button of an export. */
export type Exporter = (
  words: string,
  id: string,
  act: () => Promise<string | void>,
  attributes?: { readonly disabled: boolean },
) => HTMLElement;

const NO_FIGURE = "There is no figure on this tab now: Power, Change and Curve have one.";
const PDF_WORDS =
  "PDF: the browser's print dialog opens with this figure alone. Choose “Save as PDF”; the page has the figure's size.";

function sizeWords({ width, height, most }: DrawnFigure): string {
  const high = height > most + 0.5 ? ` It is higher than ${most.toFixed(0)} mm: fewer majorities make it lower.` : "";
  return `${width} mm wide, ${height} mm high; the text has 9 points at every width.${high}`;
}

/** The group. */
export function figureGroup(app: App, shown: Shown, make: Exporter): Child {
  if (!hasFigure(app, shown)) {
    const none = (words: string, id: string) => make(words, id, async () => {}, { disabled: true });
    const buttons = [none("SVG", "export-svg"), none("PNG", "export-png"), none("PDF", "export-pdf")];
    return [h("p", { id: "figure-words" }, NO_FIGURE), h("div", { class: "buttons" }, buttons)];
  }
  const name = `${fileName(app)}-${app.view.tab}`;
  const preview = h("div", { id: "figure-preview", tabindex: 0, role: "region", "aria-label": "Preview" });
  const words = h("p", { id: "figure-words", class: "note" });
  const drawing = figureOfTab(app);
  const show = (figure: DrawnFigure) => {
    paint(preview, figure.svg);
    words.textContent = sizeWords(figure);
  };
  const redraw = () => {
    const choice = form.read(false);
    paint(preview);
    words.textContent = "";
    if (choice) drawing.then((draw) => show(draw(choice)), (why: unknown) => (words.textContent = String(why)));
  };
  const form = figureForm(app.open.figure, redraw);
  redraw();
  const withFigure = (act: (figure: DrawnFigure) => string | void | Promise<void>) => async () => {
    const choice: FigureChoice | null = form.read(true);
    return choice ? act((await drawing)(choice)) : undefined;
  };
  const svg = withFigure((it) => save(`${name}.svg`, textFile(svgText(it), "image/svg+xml")));
  const png = withFigure(async (it) => {
    const resolution = form.readResolution();
    if (resolution !== null) save(`${name}.png`, await pngOf(it, resolution));
  });
  const pdf = withFigure((it) => {
    printFigure(it, name);
    return `The page for the PDF is ${it.width} mm wide and ${it.height} mm high.`;
  });
  const buttons = [make("SVG", "export-svg", svg), make("PNG", "export-png", png), make("PDF…", "export-pdf", pdf)];
  return [form.children, h("div", { class: "buttons" }, buttons), words, h("p", { class: "note" }, PDF_WORDS), preview];
}
