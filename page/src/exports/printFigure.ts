/** A figure as PDF: the browser prints that figure alone, on a page of exactly its size. */
import { h } from "../views/dom";
import type { DrawnFigure } from "./exportFigure";

const ALONE = "figure-alone";

/** Adds rules to the page's style, which a policy allows that forbids further styles. Returns what removes them. */
function withRules(rules: readonly string[]): () => void {
  const [sheet] = document.styleSheets;
  if (!sheet) throw new Error("the page has no style");
  const first = sheet.cssRules.length;
  for (const rule of rules) sheet.insertRule(rule, sheet.cssRules.length);
  return () => rules.forEach(() => sheet.deleteRule(first));
}

/** Shows a figure for paper alone. The title is the name of the file that browsers offer. Returns what ends it. */
function begin({ svg, width, height }: DrawnFigure, name: string): () => void {
  const size = `${width}mm ${height}mm`;
  const box = `width: ${width}mm; height: ${height}mm;`;
  const removeRules = withRules([
    `@page { size: ${size}; margin: 0; }`,
    `@media print { html, body, #print-figure { ${box} margin: 0; overflow: hidden; } }`,
  ]);
  const place = h("div", { id: "print-figure", "aria-hidden": "true" }, svg);
  const { title } = document;
  document.body.append(place);
  document.documentElement.classList.add(ALONE);
  document.title = name;
  return () => {
    if (!place.isConnected) return;
    removeRules();
    place.remove();
    document.documentElement.classList.remove(ALONE);
    document.title = title;
  };
}

/** Has the browser print a figure, from where a person saves it as PDF. */
export function printFigure(figure: DrawnFigure, name: string): void {
  if (typeof print !== "function") throw new Error("This browser can't print: save the figure as SVG.");
  // Ends an earlier figure, if its browser didn't.
  if (document.getElementById("print-figure")) dispatchEvent(new Event("afterprint"));
  const end = begin(figure, name);
  // Some browsers come back at once from printing, and some don't say when it has ended: then the next touch does.
  for (const kind of ["afterprint", "pointerdown", "keydown"]) addEventListener(kind, end, { once: true });
  print();
}
