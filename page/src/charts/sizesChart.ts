/** The chart of winning coalitions by their number of chairs: how many there are, and which share of them wins. */
import { axisBottom, axisLeft } from "d3-axis";
import { scaleLinear, type Linear } from "d3-scale";
import type { Selection } from "d3-selection";
import {
  caption, dot, ended, framed, legendBar, majorityItems, onAxis, tinted, type Frame, type LegendItem, type Look,
} from "./charts";
import { DASHES } from "./curveChart";
import { shareOfSize, type SizesModel } from "../engine/sizes";
import type { Majority } from "../study/words";

/** The heights of the two panels, and of the space above each. */
const [COUNTS, SHARES, SPACE] = [130, 210, 34] as const;
const [LEFT, RIGHT] = [58, 14] as const;

/** One of the two panels: where it stands, and its scales. */
interface Panel {
  readonly top: number;
  readonly bottom: number;
  readonly x: Linear;
  readonly y: Linear;
}

function panelOf(top: number, height: number, most: number, x: Linear): Panel {
  const bottom = top + height;
  return { top, bottom, x, y: scaleLinear().domain([0, most]).range([bottom, top]) };
}

/** Draws the axis of a panel, with lines across it, and its words. */
function drawAxis({ root }: Frame, { top, x, y }: Panel, words: string, look: Look): void {
  const [low, high] = x.domain();
  const axis = root.append("g").attr("transform", `translate(${x(low)},0)`);
  const [, most] = y.domain();
  const ticks = axisLeft(y).ticks(Math.min(4, most)).tickFormat(shortened);
  axis.call(ticks.tickSizeInner(x(low) - x(high)).tickSizeOuter(0));
  tinted(axis, look.palette);
  caption(root, words, 8, top - 10, look.palette);
}

/** A number on an axis: thousands and millions by letter. */
function shortened(value: number): string {
  if (value >= 1e6) return `${value / 1e6}M`;
  return value >= 1e3 ? `${value / 1e3}k` : String(value);
}

/** Draws bars of all coalitions, one for each size. */
function drawBars({ all }: SizesModel, { bottom, x, y }: Panel, groups: readonly Selection[], look: Look): void {
  const width = 0.7 * (x(1) - x(0));
  all.forEach((many, size) => {
    const bar = groups[size]?.append("rect").attr("x", x(size) - width / 2).attr("width", width);
    bar?.attr("y", y(many)).attr("height", bottom - y(many)).attr("fill", look.palette.paper);
    bar?.attr("stroke", look.palette.bar);
  });
}

/** Draws the values of a majority: a dot for each size, and lines between them. */
function drawValues(
  { root }: Frame,
  { x, y }: Panel,
  groups: readonly Selection[],
  majority: Majority,
  values: readonly number[],
  look: Look,
): void {
  const path = values.map((it, size) => `${size ? "L" : "M"}${x(size).toFixed(2)},${y(it).toFixed(2)}`).join("");
  const line = root.append("path").attr("d", path).attr("fill", "none").attr("pointer-events", "none");
  line.attr("stroke", look.palette.of[majority]).attr("stroke-dasharray", DASHES[majority]);
  const small = Math.min(0.85, (x(1) - x(0)) / 11);
  values.forEach((it, size) => {
    const place = groups[size]?.append("g").attr("transform", `translate(${x(size)},${y(it)}) scale(${small})`);
    if (place) dot(place, majority, false, look.palette);
  });
}

/** The groups of the sizes, each with its number of chairs in `data-size` and a band to point at. */
function groupsOf({ root }: Frame, { all }: SizesModel, { x, top }: Panel, { bottom }: Panel): Selection[] {
  const width = x(1) - x(0);
  return all.map((_, size) => {
    const group = root.append("g").attr("data-size", size);
    const band = group.append("rect").attr("x", x(size) - width / 2).attr("width", width).attr("y", top);
    band.attr("height", bottom - top).attr("fill", "none").attr("pointer-events", "all");
    return group;
  });
}

function legend(majorities: readonly Majority[]): LegendItem[] {
  const bar: LegendItem = {
    words: "all coalitions",
    draw: (at, { bar: stroke, paper }) => void legendBar(at).attr("fill", paper).attr("stroke", stroke),
  };
  return [bar, ...majorityItems(majorities)];
}

/** Draws the chart into a place. */
export function drawSizes(place: Element, model: SizesModel, look: Look): void {
  const majorities = [...model.winning.keys()];
  const most = model.all.length - 1;
  const name = `Winning coalitions by number of chairs, of ${most}; the table of this chart has its numbers`;
  const frame = framed(place, look, legend(majorities), name);
  const x = scaleLinear().domain([-0.5, most + 0.5]).range([LEFT, look.width - RIGHT]);
  const above = panelOf(frame.top + SPACE, COUNTS, Math.max(...model.all), x);
  const below = panelOf(above.bottom + SPACE, SHARES, 100, x);
  drawAxis(frame, above, "number of coalitions, made here", look);
  drawAxis(frame, below, "of these win, per cent, made here", look);
  const groups = groupsOf(frame, model, above, below);
  drawBars(model, above, groups, look);
  for (const majority of majorities) {
    drawValues(frame, above, groups, majority, model.winning.get(majority) ?? [], look);
    const shares = model.all.map((_, size) => shareOfSize(model, majority, size));
    drawValues(frame, below, groups, majority, shares.map((it) => (it ? onAxis(it, "share") : 0)), look);
  }
  const axis = frame.root.append("g").attr("transform", `translate(0,${below.bottom})`);
  axis.call(axisBottom(x).ticks(Math.min(look.width < 480 ? 8 : 16, most + 1)).tickSizeOuter(0));
  tinted(axis, look.palette);
  const middle = (LEFT + look.width - RIGHT) / 2;
  caption(frame.root, "chairs in the coalition", middle, below.bottom + 34, look.palette, "middle");
  ended(frame, look, below.bottom + 38);
}
