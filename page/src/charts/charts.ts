/** The shared parts of all charts: colours for light and dark, the shapes of majorities, the frame with its legend. */
import { select, type Selection } from "d3-selection";
import { symbol, symbolCircle, symbolDiamond, symbolSquare, symbolTriangle, type SymbolType } from "d3-shape";
import { drawn, type Ratio } from "../study/fractions";
import type { Tag } from "../engine/kinds";
import { isolated } from "../study/names";
import { fitted, wrapped, type Typeface } from "../exports/typeface";
import { MAJORITIES, MAJORITY, type Majority, type Measure } from "../study/words";

export interface Palette {
  readonly ink: string;
  readonly faint: string;
  readonly rule: string;
  readonly paper: string;
  readonly band: string;
  readonly bar: string;
  readonly of: Readonly<Record<Majority, string>>;
}

export const LIGHT: Palette = {
  ink: "#1b1b1b",
  faint: "#555555",
  rule: "#cfcfcf",
  paper: "#ffffff",
  band: "#f3f4f6",
  bar: "#8a8f98",
  of: { half: "#00568a", "70": "#b34700", "85": "#00694c", quorum: "#8a2f78" },
};

export const DARK: Palette = {
  ink: "#ececec",
  faint: "#b4b4b4",
  rule: "#454a53",
  paper: "#16181c",
  band: "#1f2228",
  bar: "#8f96a3",
  of: { half: "#6cb8f0", "70": "#ffa45c", "85": "#4fd0a5", quorum: "#e39ad3" },
};

/** The style of a chart. A title and a source line are drawn if they are given. */
export interface Look {
  readonly width: number;
  readonly palette: Palette;
  readonly title: string;
  readonly source: readonly string[];
  readonly typeface: Typeface;
  /** Whether it is a figure for a paper or a slide, and the height that it has at most. */
  readonly isTight: boolean;
  readonly most: number;
}

const SHAPES: Readonly<Record<Majority, SymbolType>> = {
  half: symbolCircle,
  "70": symbolSquare,
  "85": symbolTriangle,
  quorum: symbolDiamond,
};

/** A value on its axis: shares in per cent. */
export function onAxis(ratio: Ratio, measure: Measure): number {
  return (measure === "share" ? 100 : 1) * drawn(ratio);
}

/** The size of the charts' text, and of their titles, captions and source lines. */
export const TEXT = 12;
const [TITLE, CAPTION, SOURCE] = [15, 11, 10] as const;
const LINE = 14;
const MOST_TITLES = 4;
/** The part of a figure's width on paper that its names may take. */
const [MOST_LABEL, MOST_TAGGED] = [0.4, 0.6] as const;

/** The paths of the majorities' dots, each made once. */
const PATHS = new Map(MAJORITIES.map((it) => [it, symbol().type(SHAPES[it]).size(44)()]));

/** The path of a majority's dot. */
export function markPath(majority: Majority): string {
  return PATHS.get(majority) ?? "";
}

/** A drawing: its root, and the height that is used so far. */
export interface Frame {
  readonly root: Selection;
  readonly top: number;
}

export interface LegendItem {
  readonly words: string;
  draw(place: Selection, palette: Palette): void;
}

/** The size of dots beside that of the legend's. */
export function dotScale({ isTight }: Look): number {
  return isTight ? 0.8 : 1;
}

/** A dot of a majority, hollow for the base. */
export function dot(place: Selection, majority: Majority, isHollow: boolean, palette: Palette): Selection {
  return place
    .append("path")
    .attr("d", PATHS.get(majority) ?? "")
    .attr("fill", isHollow ? palette.paper : palette.of[majority])
    .attr("stroke", palette.of[majority])
    .attr("stroke-width", 1.5);
}

/** The legend's bar. */
export function legendBar(place: Selection): Selection {
  return place.append("rect").attr("x", -7).attr("y", -4).attr("width", 14).attr("height", 8);
}

/** The legend's items for majorities: the dot, filled. */
export function majorityItems(majorities: readonly Majority[]): LegendItem[] {
  return majorities.map((majority) => ({
    words: MAJORITY[majority].label,
    draw: (place, palette) => void dot(place, majority, false, palette),
  }));
}

/** The lines of a title; the last one is cut off if there are too many. */
function titleLines({ title, width, typeface }: Look): string[] {
  const lines = title ? wrapped(title, width - 16, typeface, TITLE) : [];
  const rest = lines.slice(MOST_TITLES - 1).join(" ");
  return rest ? [...lines.slice(0, MOST_TITLES - 1), fitted(rest, width - 16, typeface, TITLE)] : lines;
}

/** Begins a drawing: title, then the legend in as many lines as it takes. */
export function framed(place: Element, look: Look, items: readonly LegendItem[], name: string): Frame {
  const { width, palette, typeface } = look;
  const root = select(place).append("svg").attr("xmlns", "http://www.w3.org/2000/svg");
  root.attr("font-family", typeface.family).attr("font-size", TEXT).attr("width", width);
  root.attr("role", "img").attr("aria-label", name);
  root.append("rect").attr("width", "100%").attr("height", "100%").attr("fill", palette.paper);
  const titles = titleLines(look);
  titles.forEach((title, at) => {
    const text = root.append("text").attr("x", 8).attr("y", 20 + 18 * at).attr("fill", palette.ink);
    text.attr("font-size", TITLE).text(title);
  });
  let top = titles.length ? 14 + 18 * titles.length : 6;
  let left = 8;
  for (const item of items) {
    const room = 26 + typeface.width(item.words, TEXT);
    if (left > 8 && left + room > width) [left, top] = [8, top + 18];
    const at = root.append("g").attr("transform", `translate(${left + 7},${top + 9})`);
    item.draw(at, palette);
    at.append("text").attr("x", 11).attr("y", 4).attr("fill", palette.ink).text(item.words);
    left += room;
  }
  return { root, top: top + 24 };
}

function sourceLines({ source, width, typeface }: Look): string[] {
  return source.flatMap((it) => wrapped(it, width - 16, typeface, SOURCE));
}

/** The height of the source lines. */
export function footHeight(look: Look): number {
  return 12 + 14 * sourceLines(look).length;
}

/** The least height of a row, and the greatest in figures and on the page's own paper. */
const [LEAST_ROW, MOST_ROW, PAPER_ROW] = [11, 18, 26] as const;

/** The height of each of some rows: what the rest of a figure leaves, as long as letters fit. */
export function rowHeight({ most, isTight }: Look, many: number, rest: number): number {
  return Math.max(LEAST_ROW, Math.min(isTight ? MOST_ROW : PAPER_ROW, (most - rest) / many));
}

/** A number of an axis: large ones are short. */
export function axisText(value: number): string {
  return Math.abs(value) < 10_000
    ? String(Number(value.toPrecision(6))).replace("-", "−")
    : new Intl.NumberFormat("en", { notation: "compact" }).format(value).replace("-", "−");
}

/** Ends a drawing: the source lines, and the height. */
export function ended({ root }: Frame, look: Look, bottom: number): void {
  let height = bottom + 6;
  for (const line of sourceLines(look)) {
    height += 14;
    const text = root.append("text").attr("x", 8).attr("y", height).attr("fill", look.palette.faint);
    text.attr("font-size", SOURCE).text(line);
  }
  height += 6;
  // The axes of d3 name another typeface.
  root.selectAll("g").attr("font-family", null);
  root.attr("height", height).attr("viewBox", `0 0 ${look.width} ${height}`);
}

/** The panels of a chart, from left to right: where each begins and ends. */
export interface Panels {
  readonly places: readonly (readonly [number, number])[];
  /** The width of the whole chart: more than was asked for if its panels would be too narrow. */
  readonly width: number;
  readonly isWide: boolean;
}

const [LEAST_PANEL, BETWEEN, EDGE] = [96, 14, 18] as const;

/** Panels beside each other to the right of the names. On paper they are as narrow as the figure's width asks for. */
export function panelsOf(count: number, left: number, { width, isTight }: Look): Panels {
  const room = (width - left - EDGE - BETWEEN * (count - 1)) / count;
  const each = Math.max(count === 1 || isTight ? 1 : LEAST_PANEL, room);
  const places = Array.from({ length: count }, (_, at) => {
    const start = left + at * (each + BETWEEN);
    return [start, start + each] as const;
  });
  const whole = (places[count - 1]?.[1] ?? 0) + EDGE;
  return { places, width: Math.max(width, whole), isWide: whole > width + 1 };
}

/** The ticks of an axis that fit into a panel. */
export function ticksOf({ places: [first] }: Panels): number {
  const width = first ? first[1] - first[0] : 0;
  return width < 70 ? 1 : width < 160 ? 2 : width < 400 ? 4 : 7;
}

/** Writes what is drawn, and a panel's name above each; returns where the axes are. */
export function headed(frame: Frame, names: readonly string[], panels: Panels, look: Look, words: string): number {
  const { root, top } = frame;
  const [[left] = [0, 0]] = panels.places;
  if (panels.isWide) root.attr("class", "wide");
  const axes = top + 32 + captionBlock(root, words, { x: left, y: top + 10, room: look.width - left - 8 }, look);
  if (!names.some((it) => it)) return axes;
  names.forEach((name, at) => {
    const [start, end] = panels.places[at] ?? [0, 0];
    const text = root.append("text").attr("x", start).attr("y", axes - 4).attr("fill", look.palette.ink);
    const words = fitted(name, end - start + BETWEEN - 4, look.typeface, TEXT);
    text.text(isolated(words)).append("title").text(isolated(name));
  });
  return axes + 20;
}

/** The width of the longest name with its tags. */
function longestOf(rows: readonly Named[], look: Look): number {
  return Math.max(0, ...rows.map((row) => look.typeface.width(nameOf(row), TEXT) + tagRoom(row, look))) + 18;
}

/** Whether no name beside its tags is cut. */
export function haveRoom(rows: readonly Named[], look: Look): boolean {
  return !look.isTight || longestOf(rows, look) <= look.width * MOST_TAGGED;
}

/** Where rows begin: names are to the left of them, or above them if there is little room. */
export function labelRoom(rows: readonly Named[], look: Look): { left: number; head: number } {
  const { width, isTight } = look;
  const longest = longestOf(rows, look);
  const most = rows.some((it) => it.tags?.length) ? MOST_TAGGED : MOST_LABEL;
  if (isTight) return { left: Math.max(30, Math.min(longest, width * most)), head: 0 };
  return width < 480 || longest > width / 2 ? { left: 10, head: 17 } : {
    left: Math.max(60, Math.min(longest, width / 3)),
    head: 0,
  };
}

interface Named {
  readonly chair: number;
  readonly name: string;
  readonly tags?: readonly Tag[];
}

function nameOf({ chair, name }: Named): string {
  return `${chair} ${isolated(name)}`;
}

/** The group of a row: with its chair's number in `data-chair`, and a band under every second one. */
export function rowGroup(
  { root }: Frame,
  row: Named,
  look: Look,
  top: number,
  height: number,
  isOnBand: boolean,
): Selection {
  const group = root.append("g").attr("transform", `translate(0,${top})`).attr("data-chair", row.chair);
  const band = group.append("rect").attr("width", look.width).attr("height", height);
  band.attr("fill", isOnBand ? look.palette.band : "none").attr("fill-opacity", 0.55);
  return group;
}

/** The width of a row's tags, with the room before each. */
function tagRoom({ tags = [] }: Named, { typeface }: Look): number {
  const rooms = tags.map(({ words, majorities }) => 12 + typeface.width(words, CAPTION) + 11 * majorities.length);
  return rooms.reduce((sum, it) => sum + it, 0);
}

/** Writes a row's name, and what is said of its power in kind. */
export function labelled(group: Selection, row: Named, look: Look, head: number, left: number, height: number): void {
  const { palette, typeface } = look;
  const tags = tagRoom(row, look);
  const room = (head ? look.width - 20 : left - 10) - tags - typeface.width(`${row.chair} `, TEXT);
  const name = `${row.chair} ${isolated(fitted(row.name, room, typeface, TEXT))}`;
  const y = head ? 13 : height / 2 + 4;
  const label = group.append("text").attr("fill", palette.ink).attr("y", y).text(name);
  if (head) label.attr("x", 8);
  else label.attr("x", left - 10 - tags).attr("text-anchor", "end");
  let x = head ? 8 + typeface.width(name, TEXT) : left - 10 - tags;
  for (const { words, majorities } of row.tags ?? []) {
    caption(group, words, x + 8, y, palette);
    x += 8 + typeface.width(words, CAPTION);
    for (const majority of majorities) {
      dot(group, majority, false, palette).attr("transform", `translate(${x + 6},${y - 4}) scale(0.7)`);
      x += 11;
    }
  }
}

/** A small text next to an axis. */
export function caption(
  root: Selection,
  words: string,
  x: number,
  y: number,
  palette: Palette,
  anchor = "start",
): void {
  const text = root.append("text").attr("x", x).attr("y", y).attr("text-anchor", anchor);
  text.attr("fill", palette.faint).attr("font-size", CAPTION).text(words);
}

/** Where the caption of an axis is written, and the width that it has. */
interface CaptionPlace {
  readonly x: number;
  readonly y: number;
  readonly room: number;
  readonly anchor?: string;
}

/** Writes the caption of an axis in as many lines as it takes. Returns the height of the lines after the first. */
export function captionBlock(root: Selection, words: string, place: CaptionPlace, look: Look): number {
  const { x, y, room, anchor } = place;
  const lines = wrapped(words, room, look.typeface, CAPTION);
  lines.forEach((line, at) => caption(root, line, x, y + LINE * at, look.palette, anchor));
  return LINE * (lines.length - 1);
}

/** Colours of an axis, whose lines and texts d3 draws. */
export function tinted(axis: Selection, { faint, rule }: Palette): void {
  axis.selectAll("text").attr("fill", faint).attr("font-size", CAPTION);
  axis.selectAll("line").attr("stroke", rule);
  axis.selectAll("path").attr("stroke", rule);
}
