/** The charts of chairs on paper: a row for each, with a thin bar of votes and all marks on one line. */
import { axisTop } from "d3-axis";
import { scaleLinear, type Linear } from "d3-scale";
import type { Selection } from "d3-selection";
import {
  axisText, caption, dot, dotScale, ended, footHeight, framed, haveRoom, headed, labelled, labelRoom, legendBar,
  majorityItems, onAxis, panelsOf, rowGroup, rowHeight, TEXT, ticksOf, tinted, type LegendItem, type Look, type Panels,
} from "./charts";
import type { Line } from "../engine/columns";
import type { ChairRow } from "../engine/compare";
import { difference, type Ratio } from "../study/fractions";
import { fullWords, lettered, meanings, tagsOf, type Tag } from "../engine/kinds";
import { measureOf, type ChairReading } from "../engine/reading";
import { MEASURE, type Majority, type Measure } from "../study/words";

export interface ChairModel {
  readonly lines: readonly Line[];
  /** The names of the columns, of which each has a panel; the name of an only one is empty. */
  readonly panels: readonly string[];
  readonly majorities: readonly Majority[];
  readonly measure: Measure;
  readonly isChanged: boolean;
  /** What each panel is compared with, in words. */
  readonly compared: string;
}

/** The value at a majority, before and after. */
interface Mark {
  readonly majority: Majority;
  readonly before: number | null;
  readonly after: number | null;
}

/** What a chart draws of a chair in a panel. */
interface Drawn {
  readonly votes: number | null;
  readonly votesBefore: number | null;
  readonly marks: readonly Mark[];
}

/** A chart of values, or of what is added to them. */
interface Kind {
  readonly isGain: boolean;
  drawn(row: ChairRow | undefined, model: ChairModel): Drawn;
}

const place = (ratio: Ratio | null | undefined, measure: Measure) => (ratio ? onAxis(ratio, measure) : null);

const POWER: Kind = {
  isGain: false,
  drawn: (row, { measure, majorities, isChanged }) => {
    const value = (chair: ChairReading | undefined) => (chair ? place(measureOf(chair, measure), measure) : null);
    const isShare = measure === "share";
    return {
      votes: isShare ? place(row?.votesAfter ?? row?.votesBefore, "share") : null,
      votesBefore: isShare && isChanged ? place(row?.votesBefore, "share") : null,
      marks: majorities.map((majority) => {
        const at = row?.at.get(majority);
        return { majority, before: isChanged ? value(at?.before) : null, after: value(at?.after) };
      }),
    };
  },
};

const GAIN: Kind = {
  isGain: true,
  drawn: (row, { measure, majorities }) => ({
    votes: measure === "share" ? place(difference(row?.votesAfter ?? null, row?.votesBefore ?? null), "share") : null,
    votesBefore: null,
    marks: majorities.map((majority) => {
      return { majority, before: null, after: place(row?.at.get(majority)?.gain, measure) };
    }),
  }),
};

/** The scales of the panels, which show the same range. */
function scalesOf(all: readonly Drawn[], { places }: Panels, isGain: boolean): Linear[] {
  const values = all.flatMap(({ votes, votesBefore, marks }) =>
    [votes, votesBefore, ...marks.flatMap((it) => [it.before, it.after])].map((it) => it ?? 0));
  const [low, high] = [Math.min(0, ...values), Math.max(0, ...values)];
  const [from, to] = low === high ? [isGain ? -1 : 0, 1] : [low, high];
  return places.map(([left, right]) => scaleLinear().domain([from, to]).range([left, right]).nice(5));
}

/** A tag in full words, and where names would be cut in short ones, or in a letter. */
const FORMS: readonly ((tag: Tag) => Tag)[] = [(it) => ({ ...it, words: fullWords(it) }), (it) => it, lettered];

/** A line with its tags. */
interface Tagged extends Line {
  readonly tags: readonly Tag[];
}

/** The lines with the longest tags beside which names have room. */
function taggedLines({ lines }: ChairModel, look: Look): Tagged[] {
  const forms = FORMS.map((form) =>
    lines.map((it) => ({ ...it, tags: tagsOf(it.cells[it.cells.length - 1]?.at ?? new Map()).map(form) })));
  return forms.find((it) => haveRoom(it, look)) ?? forms[forms.length - 1] ?? [];
}

function legend(lines: readonly Tagged[], model: ChairModel, { isGain }: Kind): LegendItem[] {
  const { majorities, isChanged, compared, measure } = model;
  const votes: LegendItem = {
    words: isGain ? "votes" : "share of votes", draw: (at, { bar }) => void legendBar(at).attr("fill", bar),
  };
  const hollow: LegendItem = {
    words: `hollow: ${compared}`, draw: (at, palette) => void dot(at, majorities[0] ?? "half", true, palette),
  };
  const marks = majorityItems(majorities);
  const was: LegendItem = {
    words: `line: votes, ${compared}`,
    draw: (at, { faint }) => void at.append("line").attr("y1", -5).attr("y2", 5).attr("stroke", faint),
  };
  const before = isChanged && !isGain ? [hollow, ...(measure === "share" ? [was] : [])] : [];
  const kinds = meanings(lines.flatMap((it) => it.tags)).map(({ tag, words }): LegendItem => {
    return { words: `${tag}: ${words}`, draw: () => {} };
  });
  return [...(measure === "share" ? [votes] : []), ...marks, ...before, ...kinds];
}

/** What is drawn, in words. */
function wordsOf({ panels, compared, measure }: ChairModel, { isGain }: Kind): string {
  const isShare = measure === "share";
  if (!isGain) return isShare ? "per cent: votes of the votes cast, power of all swings" : MEASURE[measure].label;
  const column = panels.length > 1 ? "each" : panels[0] || "changed";
  return `${column} less ${compared}, ${isShare ? "percentage points" : MEASURE[measure].label}`;
}

/** Draws a chart into a place. Each row has a group with the chair's number in `data-chair`. */
function draw(target: Element, model: ChairModel, asked: Look, kind: Kind): void {
  const { measure } = model;
  const lines = taggedLines(model, asked);
  const { left, head } = labelRoom(lines, asked);
  const panels = panelsOf(model.panels.length, left, asked);
  const look = { ...asked, width: panels.width };
  const { label } = MEASURE[measure];
  const name = `${kind.isGain ? "What is added to " : ""}${label} of ${lines.length} chairs; the table has its numbers`;
  const frame = framed(target, look, legend(lines, model, kind), name);
  const rows = lines.map((line) => line.cells.map((it) => kind.drawn(it, model)));
  const scales = scalesOf(rows.flat(), panels, kind.isGain);
  const top = headed(frame, model.panels, panels, look, wordsOf(model, kind)) + 4;
  const height = head + rowHeight(look, lines.length, top + footHeight(look));
  const bottom = top + height * lines.length;
  for (const it of scales) drawAxis(frame.root, look, it, top, bottom, ticksOf(panels));
  lines.forEach((line, at) => {
    const group = rowGroup(frame, line, look, top + height * at, height, at % 2 === 1);
    labelled(group, line, look, head, left, height);
    const inside = group.append("g").attr("transform", `translate(0,${(head + height) / 2})`);
    scales.forEach((scale, panel) => {
      const drawn = rows[at]?.[panel];
      if (drawn) drawMarks(inside, drawn, scale, look);
      const [row, end] = [line.cells[panel], panels.places[panel]?.[1] ?? 0];
      const isEmpty = drawn?.votes === null && drawn.marks.every((it) => it.after === null);
      if (kind.isGain && row && isEmpty) writeWhy(inside, row, scale(0), end, look);
    });
  });
  ended(frame, look, bottom);
}

/** Draws the axis of a panel, and its line at 0. */
function drawAxis(root: Selection, look: Look, scale: Linear, top: number, bottom: number, ticks: number): void {
  const axis = root.append("g").attr("transform", `translate(0,${top})`);
  axis.call(axisTop(scale).ticks(ticks).tickFormat(axisText).tickSizeInner(-(bottom - top)).tickSizeOuter(0));
  tinted(axis, look.palette);
  const zero = root.append("line").attr("x1", scale(0)).attr("x2", scale(0)).attr("y1", top).attr("y2", bottom);
  zero.attr("stroke", look.palette.ink);
}

/** Draws a bar of votes with a line where they were, and the marks; the first majority is on top. */
function drawMarks(at: Selection, { votes, votesBefore, marks }: Drawn, scale: Linear, look: Look): void {
  const { palette } = look;
  const zero = scale(0);
  if (votes !== null) {
    const [from, to] = [Math.min(zero, scale(votes)), Math.max(zero, scale(votes))];
    const bar = at.append("rect").attr("x", from).attr("width", to - from).attr("fill", palette.bar);
    bar.attr("y", -3).attr("height", 6);
  }
  if (votesBefore !== null) {
    const x = scale(votesBefore);
    at.append("line").attr("x1", x).attr("x2", x).attr("y1", -5).attr("y2", 5).attr("stroke", palette.faint);
  }
  for (const { majority, before, after } of [...marks].reverse()) {
    const colour = palette.of[majority];
    if (before !== null && after !== null) {
      const line = at.append("line").attr("x1", scale(before)).attr("x2", scale(after));
      line.attr("stroke", colour).attr("stroke-width", 2);
    }
    const put = (value: number | null, isHollow: boolean) => {
      if (value === null) return;
      dot(at, majority, isHollow, palette).attr("transform", `translate(${scale(value)},0) scale(${dotScale(look)})`);
    };
    put(before, true);
    put(after, false);
  }
}

/** Writes why a chair has no gain: in a word if there is little room to the right of the line. */
function writeWhy(at: Selection, { kind }: ChairRow, zero: number, end: number, look: Look): void {
  const words = kind === "closed" ? "not open in the changed board" : "not open in the base";
  const isRoom = zero + look.typeface.width(words, TEXT) < end;
  caption(at, isRoom ? words : kind === "closed" ? "closed" : "new", zero + 6, 4, look.palette);
}

export function drawPower(target: Element, model: ChairModel, look: Look): void {
  draw(target, model, look, POWER);
}

export function drawGains(target: Element, model: ChairModel, look: Look): void {
  draw(target, model, look, GAIN);
}
