/** The chart of a sweep: a dot for each point that was counted, straight lines between them, marks at thresholds. */
import { axisBottom, axisLeft, axisRight } from "d3-axis";
import { scaleLinear, type Linear } from "d3-scale";
import type { Selection } from "d3-selection";
import {
  axisText, caption, captionBlock, dot, ended, framed, majorityItems, onAxis, tinted, type LegendItem, type Look,
} from "./charts";
import type { Ratio } from "../study/fractions";
import { chairIn, measureOf, voteShare, type Readings } from "../engine/reading";
import { MEASURE, type Majority, type Measure } from "../study/words";

export interface CurvePoint {
  readonly x: number;
  readonly readings: Readings;
}

/** A threshold: its place, what is written beside it, and all of it in words. */
interface CurveMark {
  readonly x: number;
  readonly majority: Majority;
  readonly label: string;
  readonly words: string;
}

export interface CurveModel {
  readonly points: readonly CurvePoint[];
  readonly marks: readonly CurveMark[];
  /** Where the chair is now, on the axis. */
  readonly now: number;
  readonly chair: number;
  readonly majorities: readonly Majority[];
  readonly measure: Measure;
  readonly hasVotes: boolean;
  readonly xWords: string;
  readonly name: string;
}

const HEIGHT = 340;
/** The dots that show the shape of a line, however many points it has. */
const SHAPES = 14;

function yOf(ratio: Ratio | null, measure: Measure): number | null {
  return ratio && onAxis(ratio, measure);
}

function votesAt(point: CurvePoint, chair: number): number | null {
  const [reading] = point.readings.values();
  const line = chairIn(reading, chair);
  return reading && line ? yOf(voteShare(reading, line), "share") : null;
}

function measureAt({ readings }: CurvePoint, { chair, measure }: CurveModel, majority: Majority): number | null {
  const line = chairIn(readings.get(majority), chair);
  return line ? yOf(measureOf(line, measure), measure) : null;
}

/** The path through points; it is broken at a point without a value. */
function pathOf(points: readonly (readonly [number, number | null])[]): string {
  let isOpen = false;
  return points
    .map(([x, y]) => {
      if (y === null) isOpen = false;
      else {
        const part = `${isOpen ? "L" : "M"}${x.toFixed(2)},${y.toFixed(2)}`;
        isOpen = true;
        return part;
      }
      return "";
    })
    .join("");
}

export const DASHES: Readonly<Record<Majority, string>> = { half: "", "70": "7 3", "85": "2 3", quorum: "9 3 2 3" };

/** A chart that is being drawn: the place of its plot, and the scales. */
interface Plot {
  readonly root: Selection;
  readonly model: CurveModel;
  readonly look: Look;
  readonly left: number;
  readonly right: number;
  readonly top: number;
  readonly bottom: number;
  readonly x: Linear;
}

/** Draws the chart into a place. */
export function drawCurve(place: Element, model: CurveModel, look: Look): void {
  const bar: LegendItem = {
    words: "share of votes (right axis)",
    draw: (at, { bar: stroke }) =>
      void at.append("line").attr("x1", -7).attr("x2", 7).attr("stroke", stroke).attr("stroke-width", 4),
  };
  const items = [...majorityItems(model.majorities), ...(model.hasVotes ? [bar] : [])];
  const frame = framed(place, look, items, model.name);
  const [left, right] = [58, look.width - (model.hasVotes ? 52 : 16)];
  const [top, bottom] = [frame.top + 22, frame.top + 22 + HEIGHT];
  const xs = model.points.map((it) => it.x);
  const x = scaleLinear().domain([Math.min(...xs), Math.max(...xs)]).range([left, right]);
  const plot = { root: frame.root, model, look, left, right, top, bottom, x };
  const values = model.majorities.map((it) => model.points.map((point) => measureAt(point, model, it)));
  const y = drawAxes(plot, values.flat());
  if (model.hasVotes) drawVotes(plot);
  drawMarks(plot);
  model.majorities.forEach((majority, at) => drawLine(plot, majority, values[at] ?? [], y));
  ended(frame, look, bottom + 38 + captionBelow(plot));
}

/** Writes the caption of the lower axis. Returns the height of its lines after the first. */
function captionBelow({ root, model, look, left, right, bottom }: Plot): number {
  const x = (left + right) / 2;
  const room = 2 * Math.min(x, look.width - x) - 16;
  return captionBlock(root, model.xWords, { x, y: bottom + 34, room, anchor: "middle" }, look);
}

/** Draws the axes of the plot, and returns the scale of the measure, with a little room around its values. */
function drawAxes(
  { root, model, look, left, right, top, bottom, x }: Plot,
  values: readonly (number | null)[],
): Linear {
  const { measure } = model;
  const all = values.filter((it): it is number => it !== null);
  const room = (Math.max(...all) - Math.min(...all) || 1) * 0.05;
  const most = measure === "swings" || measure === "ratio" ? Infinity : measure === "share" ? 100 : 1;
  const ends: [number, number] = [Math.max(0, Math.min(...all) - room), Math.min(most, Math.max(...all) + room)];
  const y = scaleLinear().domain(ends).range([bottom, top]).nice(6);
  const across = root.append("g").attr("transform", `translate(${left},0)`);
  across.call(axisLeft(y).ticks(6).tickFormat(axisText).tickSizeInner(-(right - left)).tickSizeOuter(0));
  tinted(across, look.palette);
  const along = root.append("g").attr("transform", `translate(0,${bottom})`);
  along.call(axisBottom(x).ticks(look.width < 480 ? 4 : 8).tickFormat(axisText).tickSizeOuter(0));
  tinted(along, look.palette);
  const words = measure === "share" ? "share of power, per cent" : MEASURE[measure].label;
  const [from] = y.domain();
  caption(root, from > 0 ? `${words} (the axis begins at ${from})` : words, 8, top - 12, look.palette);
  return y;
}

/** Draws the chair's share of the votes, with a separate axis. */
function drawVotes({ root, model, look, right, top, bottom, x }: Plot): void {
  const { palette, width } = look;
  const votes = model.points.map((it) => votesAt(it, model.chair));
  const most = Math.max(0, ...votes.map((it) => it ?? 0)) || 1;
  const y = scaleLinear().domain([0, most]).range([bottom, top]).nice(6);
  const axis = root.append("g").attr("transform", `translate(${right},0)`);
  axis.call(axisRight(y).ticks(6).tickSizeOuter(0));
  tinted(axis, palette);
  caption(root, "votes, per cent", width - 8, top - 12, palette, "end");
  const line = root.append("path").attr("d", pathOver(model.points, votes, x, y)).attr("fill", "none");
  line.attr("stroke", palette.bar).attr("stroke-width", 4).attr("stroke-opacity", 0.7);
}

/** The lines below each other that labels of marks are written on. */
const LABEL_LINES = 5;

/** Writes a label beside a line of the plot, on the side that has more room. */
function label({ root, look, left, right, top }: Plot, words: string, x: number, line: number): void {
  const isLeft = x > (left + right) / 2;
  caption(root, words, x + (isLeft ? -7 : 7), top + 12 + 14 * line, look.palette, isLeft ? "end" : "start");
}

/** Draws a mark at each threshold, with its words, and a line where the chair is now. */
function drawMarks(plot: Plot): void {
  const { root, model, look, top, bottom, x } = plot;
  const across = (at: number) => {
    return root.append("line").attr("x1", x(at)).attr("x2", x(at)).attr("y1", top).attr("y2", bottom);
  };
  const [low, high] = x.domain();
  if (model.now >= low && model.now <= high) {
    across(model.now).attr("stroke", look.palette.ink).attr("stroke-opacity", 0.5);
    label(plot, "now", x(model.now), LABEL_LINES);
  }
  [...model.marks].sort((one, other) => one.x - other.x).forEach(({ x: at, majority, label: short, words }, place) => {
    across(at).attr("stroke", look.palette.of[majority]).attr("stroke-dasharray", DASHES[majority]);
    const head = root.append("g").attr("transform", `translate(${x(at)},${top})`);
    dot(head, majority, true, look.palette).append("title").text(words);
    label(plot, short, x(at), place % LABEL_LINES);
  });
}

function pathOver(points: readonly CurvePoint[], values: readonly (number | null)[], x: Linear, y: Linear): string {
  return pathOf(points.map((it, at) => {
    const value = values[at] ?? null;
    return [x(it.x), value === null ? null : y(value)];
  }));
}

/** Draws a measure: straight lines between its points, and dots at some of them. */
function drawLine(
  { root, model, look, x }: Plot,
  majority: Majority,
  values: readonly (number | null)[],
  y: Linear,
): void {
  const line = root.append("path").attr("d", pathOver(model.points, values, x, y)).attr("fill", "none");
  line.attr("stroke", look.palette.of[majority]).attr("stroke-dasharray", DASHES[majority]);
  const many = model.points.length;
  const large = Math.ceil(many / SHAPES);
  model.points.forEach((point, at) => {
    const value = values[at] ?? null;
    if (value === null || (at % large && at < many - 1)) return;
    const here = root.append("g").attr("transform", `translate(${x(point.x)},${y(value)}) scale(0.85)`);
    dot(here.attr("data-point", at), majority, false, look.palette);
  });
}
