/** How charts look on the page, and the data of the charts of chairs. */
import type { App } from "../views/app";
import { DARK, LIGHT, type Look } from "./charts";
import type { Columns } from "../engine/columns";
import type { ChairModel } from "./chairChart";
import { SCREEN } from "../exports/typeface";

const LEAST_WIDTH = 280;
/** The width between the margins of a sheet of A4 or Letter paper, and the height that it has for a chart. */
const [PAPER_WIDTH, PAPER_HEIGHT] = [700, 780] as const;

/** The look of charts on the screen, and on the page's own paper. */
export function screenLook(app: App, place: HTMLElement): Look {
  const common = { title: "", source: [], typeface: SCREEN, isTight: false } as const;
  if (app.open.isPrinting) return { ...common, width: PAPER_WIDTH, palette: LIGHT, most: PAPER_HEIGHT };
  const isDark = matchMedia("(prefers-color-scheme: dark)").matches;
  const width = Math.max(LEAST_WIDTH, place.clientWidth);
  return { ...common, width, palette: isDark ? DARK : LIGHT, most: Infinity };
}

/** The data of the charts of chairs. */
export function chairModel(app: App, { list, lines, isOne }: Columns): ChairModel {
  const { majorities, measure, against } = app.view;
  const winning = majorities.filter((it) => list.some(({ readings }) => (readings.get(it)?.winning ?? 0) > 0));
  return {
    lines,
    panels: list.map((it) => (isOne ? "" : it.short)),
    majorities: winning,
    measure,
    isChanged: !isOne || (app.shown?.counted.isChanged ?? false),
    compared: isOne || against === "base" ? "base" : "the one before",
  };
}
