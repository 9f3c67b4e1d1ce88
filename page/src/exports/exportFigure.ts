/** The figure of the tab for exports: at a chosen width, in a chosen typeface, light, with its source. */
import type { App, Shown } from "../views/app";
import { LIGHT, type Look } from "../charts/charts";
import { drawGains, drawPower } from "../charts/chairChart";
import { columnsOf, hasGains } from "../engine/columns";
import { drawCurve } from "../charts/curveChart";
import { curveModel, sweepTitle } from "../charts/curveModel";
import { millimetresOf, unitsOf } from "./figureSize";
import { chairModel } from "../charts/look";
import { isolated } from "../study/names";
import { firstLines, provenanceOf, studySource, type Provenance, type Source } from "../study/provenance";
import { columnSources } from "./registers";
import { sizesModel } from "../engine/sizes";
import { drawSizes } from "../charts/sizesChart";
import type { Tab } from "../study/study";
import { typeface } from "./typeface";
import { boardWords } from "../views/coalitionParts";
import { MAJORITY, MEASURE } from "../study/words";

/** How a figure is drawn: its width and its greatest height in millimetres, its fonts, and whether it has a title. */
export interface FigureChoice {
  readonly width: number;
  readonly most: number;
  readonly family: string;
  readonly hasTitle: boolean;
}

/** A figure that was drawn, with its size in millimetres. */
export interface DrawnFigure {
  readonly svg: SVGSVGElement;
  readonly width: number;
  readonly height: number;
  /** The height that it should have at most. */
  readonly most: number;
  readonly title: string;
  /** Where its numbers come from, and how it was drawn: a line each. */
  readonly lines: readonly string[];
}

/** A figure for an export: its title, the script that gives its numbers, and how it is drawn. */
interface Figure {
  readonly title: string;
  readonly sources: readonly Source[];
  draw(place: Element, look: Look): void;
}

function chairFigure(app: App, shown: Shown, draw: typeof drawPower): Figure {
  const { measure, majorities } = app.view;
  const columns = columnsOf(app, shown);
  const model = chairModel(app, columns);
  const title = `${MEASURE[measure].label}, ${majorities.map((it) => MAJORITY[it].label).join(", ")}`;
  return { title, sources: columnSources(app, shown, columns), draw: (place, look) => draw(place, model, look) };
}

/** The figure of the winning coalitions by number of chairs; null if no chair is open. */
function sizesFigure(shown: Shown): Figure | null {
  const model = sizesModel(shown.counted.after);
  const title = `Winning coalitions by number of chairs, ${boardWords(shown)}`;
  if (model.all.length === 1) return null;
  return { title, sources: [studySource(shown)], draw: (place, look) => drawSizes(place, model, look) };
}

/** The figures of the tabs, or null where there is none. */
const FIGURE: Readonly<Record<Tab, (app: App, shown: Shown) => Figure | null>> = {
  power: (app, shown) => chairFigure(app, shown, drawPower),
  change: (app, shown) => (hasGains(app, shown) ? chairFigure(app, shown, drawGains) : null),
  curve: (app) => {
    const [model, { curve }] = [curveModel(app), app];
    if (!model || !curve) return null;
    const source = { of: `sweep ${sweepTitle(curve.asked)}`, script: curve.script };
    return { title: model.name, sources: [source], draw: (place, look) => drawCurve(place, model, look) };
  },
  table: () => null,
  coalition: (_, shown) => sizesFigure(shown),
};

/** Whether the tab has a figure. */
export function hasFigure(app: App, shown: Shown): boolean {
  return FIGURE[app.view.tab](app, shown) !== null;
}

/** The study once it is counted; its sweep and its scenarios are counted for the tab Curve alone. */
async function countedStudy(app: App): Promise<Shown> {
  if (app.view.tab === "curve") return app.whole();
  await app.counting;
  if (!app.shown) throw app.fault ?? new Error("there is no count yet");
  return app.shown;
}

/** The figure of the tab, which is drawn by choices; its numbers are those of the moment it is asked for. */
export async function figureOfTab(app: App): Promise<(choice: FigureChoice) => DrawnFigure> {
  const shown = await countedStudy(app);
  const found = FIGURE[app.view.tab](app, shown);
  if (!found) throw new Error("this tab has no figure now");
  const title = `${isolated(app.study.name)}: ${found.title}`;
  const provenance = await provenanceOf(app, shown, found.sources);
  return (choice) => drawn({ ...found, title }, choice, provenance);
}

function drawn(figure: Figure, { width, most, family, hasTitle }: FigureChoice, found: Provenance): DrawnFigure {
  const place = document.createElement("div");
  const scripts = found.scripts.filter((it) => it.startsWith("script"));
  const source = [`Source: ${found.counted}; ${found.date}`, ...scripts, found.module];
  const title = hasTitle ? figure.title : "";
  const style = { palette: LIGHT, typeface: typeface(family), isTight: true, most: unitsOf(most) };
  figure.draw(place, { width: unitsOf(width), title, source, ...style });
  const svg = place.firstElementChild as SVGSVGElement;
  const height = millimetresOf(Number(svg.getAttribute("height")));
  svg.setAttribute("width", `${width}mm`);
  svg.setAttribute("height", `${height}mm`);
  const words = `figure ${width} mm wide, ${height} mm high, text of 9 points, fonts ${family}`;
  return { svg, width, height, most, title: figure.title, lines: [...firstLines(found), words] };
}

/** The text of a drawing with lines in a comment. LibreOffice looks for the tag of the drawing at the beginning of the
 * file, so the comment is inside of it. */
export function withComment(drawing: string, lines: readonly string[]): string {
  const comment = lines.map((it) => it.replace(/--+/g, "-")).join("\n");
  const end = drawing.indexOf(">") + 1;
  return `${drawing.slice(0, end)}\n<!--\n${comment}\n-->\n${drawing.slice(end)}\n`;
}

/** The text of a figure's file. */
export function svgText({ svg, lines }: DrawnFigure): string {
  return withComment(new XMLSerializer().serializeToString(svg), lines);
}
