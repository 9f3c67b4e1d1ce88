/** The rows of the list of chairs: the marks of a chair on one line, its numbers beside them, and the list's head. */
import { scaleLinear, type Linear } from "d3-scale";
import type { App, Shown } from "./app";
import { axisText, markPath, onAxis } from "../charts/charts";
import { columnsOf, type Columns, type Line } from "../engine/columns";
import { gainText, gainUnit, valueText, type ChairRow } from "../engine/compare";
import { choice, h, svg, type Child } from "./dom";
import { kindWords, meanings, tagsOf } from "../engine/kinds";
import { difference, grouped, percent, quotient, rounded, type Ratio } from "../study/fractions";
import { isolated } from "../study/names";
import { measureOf, type ChairReading } from "../engine/reading";
import { withNaming } from "../study/naming";
import { NAMINGS, type Naming, type Order, type View } from "../study/study";
import { MAJORITY, MEASURE, type Majority } from "../study/words";

/** The majorities where there is little room. */
export const SHORT: Readonly<Record<Majority, string>> = {
  half: "Simple", "70": "70 %", "85": "85 %", quorum: "Quorum",
};

/** A majority's mark, filled, or hollow for the board before. */
export function markOf(majority: Majority, isHollow = false): SVGElement {
  const path = svg("path", { d: markPath(majority), class: `mark at-${majority}${isHollow ? " hollow" : ""}` });
  return svg("svg", { class: "symbol", viewBox: "-6 -6 12 12", "aria-hidden": "true" }, path);
}

/** What all rows of the list have in common: its columns, scales and ticks. */
export interface List {
  readonly columns: Columns;
  readonly view: View;
  readonly isGain: boolean;
  /** Whether anything is compared, and whether there is room for what is added beside each value. */
  readonly isChanged: boolean;
  readonly hasAdded: boolean;
  readonly scale: Linear;
  readonly ticks: readonly number[];
  readonly majorities: readonly Majority[];
}

function valueOf(chair: ChairReading | undefined, { measure }: View): Ratio | null {
  return chair ? measureOf(chair, measure) : null;
}

function votesGain(row: ChairRow): Ratio | null {
  return difference(row.votesAfter, row.votesBefore);
}

/** The values that the axis has to show. */
function valuesOf({ lines }: Columns, view: View, isGain: boolean): number[] {
  const rows = lines.flatMap(({ cells }) => cells.flatMap((it) => it ?? []));
  const isShare = view.measure === "share";
  return rows.flatMap((row) => {
    const votes = isShare ? (isGain ? [votesGain(row)] : [row.votesBefore, row.votesAfter]) : [];
    const power = [...row.at.values()].flatMap((it) =>
      isGain ? [it.gain] : [valueOf(it.before, view), valueOf(it.after, view)]);
    return [...votes, ...power].map((it) => (it ? onAxis(it, view.measure) : 0));
  });
}

/** The list of a view. */
export function listOf(app: App, shown: Shown): List {
  const { view } = app;
  const columns = columnsOf(app, shown);
  const isGain = view.tab === "change";
  const values = valuesOf(columns, view, isGain);
  const [low, high] = [Math.min(0, ...values), Math.max(0, ...values)];
  const [from, to] = low === high ? [isGain ? -1 : 0, 1] : [low, high];
  const many = Math.max(2, Math.min(8, Math.floor(plotWidth(columns, view) / 60)));
  const scale = scaleLinear().domain([from, to]).range([0, 100]).nice(many);
  const isChanged = !columns.isOne || shown.counted.isChanged;
  const hasAdded = isChanged && columns.isOne && !isGain && view.majorities.length < 3;
  const { majorities } = view;
  return { columns, view, isGain, isChanged, hasAdded, scale, ticks: scale.ticks(many), majorities };
}

/** Whether the window is a phone's. */
export function isNarrow(): boolean {
  return innerWidth <= 700;
}

/** About how wide a panel is, which decides how many ticks its axis has. It measures nothing. */
function plotWidth({ list, isOne }: Columns, { majorities }: View): number {
  if (isNarrow()) return (innerWidth - 40) / list.length;
  const rest = innerWidth - (innerWidth > 1000 ? 400 : 30) - 400;
  const many = majorities.length;
  return isOne ? Math.min(rest - 130 * Math.min(2, many), rest - 80 * many) : rest / list.length;
}

const at = (x: number) => `${x.toFixed(3)}%`;

function gridLines({ ticks, scale }: List): SVGElement[] {
  return ticks.map((it) => {
    const x = at(scale(it));
    return svg("line", { x1: x, x2: x, y1: 0, y2: "100%", class: it === 0 ? "zero" : "grid" });
  });
}

/** A thin bar of votes from 0; where they were before has a line. */
function votesBar(row: ChairRow, { scale, isGain, isChanged, view }: List): Child {
  if (view.measure !== "share") return null;
  const shown = isGain ? votesGain(row) : row.votesAfter ?? row.votesBefore;
  if (!shown) return null;
  const [zero, end] = [scale(0), scale(onAxis(shown, "share"))];
  const [from, to] = [Math.min(zero, end), Math.max(zero, end)];
  const bar = svg("rect", { x: at(from), y: "50%", width: at(to - from), height: 8, transform: "translate(0,-4)",
    class: row.votesAfter ? "votes" : "votes hollow" });
  const before = isChanged && !isGain && row.votesBefore && row.votesAfter
    ? at(scale(onAxis(row.votesBefore, "share"))) : null;
  const was = before &&
    svg("rect", { x: before, y: "50%", width: 2, height: 12, transform: "translate(-1,-6)", class: "was" });
  return [bar, was];
}

/** A majority's mark at a place of the axis. Circles and squares are one element, others a path in a place of it. */
function put(x: number, majority: Majority, isHollow: boolean): SVGElement {
  const kind = `mark at-${majority}${isHollow ? " hollow" : ""}`;
  if (majority === "half") return svg("circle", { cx: at(x), cy: "50%", r: 4.3, class: kind });
  if (majority === "70") {
    return svg("rect", { x: at(x), y: "50%", width: 7.6, height: 7.6, transform: "translate(-3.8,-3.8)", class: kind });
  }
  return svg("svg", { x: at(x), y: "50%", class: "place" }, svg("path", { d: markPath(majority), class: kind }));
}

/** The marks of all majorities, on one line. */
function marks(row: ChairRow, { scale, isGain, isChanged, view, majorities }: List): Child[] {
  const x = (ratio: Ratio) => scale(onAxis(ratio, view.measure));
  const drawn = majorities.map((majority): Child[] => {
    const found = row.at.get(majority);
    const [before, after] = [valueOf(found?.before, view), valueOf(found?.after, view)];
    if (isGain) return found?.gain ? [put(x(found.gain), majority, false)] : [];
    const line = isChanged && before && after
      ? svg("line", { x1: at(x(before)), x2: at(x(after)), y1: "50%", y2: "50%", class: `path at-${majority}` }) : null;
    return [
      line,
      isChanged && before ? put(x(before), majority, true) : null,
      after ? put(x(after), majority, false) : null,
    ];
  });
  // The first majority is on top.
  return drawn.reverse();
}

/** The lines of the axes behind all rows. */
export function gridOf(list: List): HTMLElement {
  return h("span", { class: "plot" }, list.columns.list.map(() => svg("svg", {}, gridLines(list))));
}

/** The plot of a line: a panel for each column. */
export function plotOf(line: Line, list: List): HTMLElement {
  const panels = line.cells.map((row) =>
    svg("svg", { "aria-hidden": "true" }, row ? [votesBar(row, list), marks(row, list)] : null));
  return h("span", { class: "plot" }, panels);
}

/** A number that is shown in a list, with a true sign. */
function shownNumber(text: string): string {
  return text.replace(/ %$/, "").replace(/^-(?=\d)/, "−");
}

/** The class of a gain: more, less or the same. */
function gainClass(gain: Ratio | null): string {
  return !gain || gain.numerator === 0n ? "gain none" : gain.numerator > 0n ? "gain" : "gain less";
}

/** The numbers of a line at each majority, if it has one column: the value and what was added. */
export function numbersOf(line: Line, list: List): Child {
  const { columns, view, isGain, hasAdded, majorities } = list;
  const [row] = line.cells;
  if (!columns.isOne || !row) return null;
  return majorities.map((majority) => {
    const found = row.at.get(majority);
    const gain = found?.gain ?? null;
    const text = shownNumber(gainText(gain, view.measure, view.digits));
    const added = h("span", { class: `cell ${gainClass(gain)}` }, text);
    if (isGain) return added;
    const value = shownNumber(valueText(valueOf(found?.after, view), view.measure, view.digits));
    return [h("span", { class: "cell value" }, value), hasAdded ? added : null];
  });
}

/** The votes of a line and their share, or what is added to them. */
export function votesOf(line: Line, { view, isGain }: List): Child {
  const row = line.cells[line.cells.length - 1];
  const [first] = row?.at.values() ?? [];
  const [before, after] = [first?.before?.weight, first?.after?.weight];
  if (isGain) {
    const added = before !== undefined && after !== undefined ? after - before : null;
    const gain = row ? votesGain(row) : null;
    const text = added === null ? "-" : `${added > 0 ? "+" : added < 0 ? "−" : ""}${grouped(Math.abs(added))}`;
    return [
      h("span", { class: `cell votes-number ${gainClass(gain)}` }, text),
      h("span", { class: `cell ${gainClass(gain)}` }, shownNumber(gainText(gain, "share", view.digits))),
    ];
  }
  const share = row?.votesAfter;
  return [
    h("span", { class: "cell votes-number" }, after === undefined ? "-" : grouped(after)),
    h("span", { class: "cell" }, share ? percent(share, view.digits) : "-"),
  ];
}

/** The row of a line's last column. */
export function lastRow({ cells }: Line): ChairRow | undefined {
  return cells[cells.length - 1];
}

/** What stands beside a chair's name: whether it has a veto, and at which majorities. No text of a table that is
 * copied has it, since its words are the style's. */
export function tagElements(row: ChairRow | undefined): Child {
  return row ? tagsOf(row.at).map(({ words, turn, majorities }) =>
    h("span", { class: `tag ${turn}`, "data-words": words }, majorities.map((it) => markOf(it)))) : null;
}

/** The chair's veto at each majority, in words. */
function kindsOf(line: Line, { columns, majorities }: List): string[] {
  const { readings } = columns.list[columns.list.length - 1] ?? {};
  return majorities.flatMap((it) => kindWords(readings?.get(it), lastRow(line)?.at.get(it)?.after) || []);
}

/** What the tags of a list mean. */
function tagLegend({ columns: { lines } }: List): Child {
  const tags = lines.flatMap((it) => tagsOf(lastRow(it)?.at ?? new Map()));
  return meanings(tags).map(({ tag, words }) => h("span", {}, h("span", { class: "tag", "data-words": tag }), words));
}

/** A line in words, for who hears it. */
export function lineWords(line: Line, list: List): string {
  const { view, majorities, columns } = list;
  const row = lastRow(line);
  const [first] = row?.at.values() ?? [];
  const weight = first?.after?.weight ?? first?.before?.weight ?? 0;
  const share = row?.votesAfter ? `, ${percent(row.votesAfter, view.digits)} %` : "";
  const powers = majorities.map((it) => {
    const found = row?.at.get(it);
    const value = valueText(valueOf(found?.after ?? found?.before, view), view.measure, view.digits);
    const added = found?.gain?.numerator ? `, added ${gainText(found.gain, view.measure, view.digits)}` : "";
    return `${MAJORITY[it].label} ${value}${added}`;
  });
  const name = `${line.chair} ${isolated(line.name)}`;
  const which = columns.isOne ? "" : ` (${columns.list[columns.list.length - 1]?.label ?? ""})`;
  return `${name}: ${grouped(weight)} votes${share}; ${MEASURE[view.measure].label}${which}: ` +
    [...powers, ...kindsOf(line, list)].join("; ");
}

/** The numbers of a line as a small table: base, and each column. */
export function tipOf(line: Line, list: List): Child {
  const { columns, view, majorities, isChanged } = list;
  const cells = line.cells.slice(0, 4);
  const [base] = line.cells;
  const first = (row: ChairRow | undefined) => [...row?.at.values() ?? []][0];
  const labels = isChanged ? columns.list.slice(0, 4).map((it) => isolated(it.short)) : [];
  const hasGain = isChanged && columns.isOne;
  const rowOf = (head: Child, before: string, after: readonly string[], gain: string, ratio = ""): HTMLElement =>
    h("tr", {}, h("th", { scope: "row" }, head), h("td", {}, before), ratio ? h("td", {}, ratio) : null,
      isChanged ? after.map((it) => h("td", {}, it)) : null, hasGain ? h("td", { class: "gain" }, gain) : null);
  const weight = (it: ChairReading | undefined) => (it ? grouped(it.weight) : "-");
  const share = (it: Ratio | null | undefined) => (it ? `${percent(it, view.digits)} %` : "-");
  const votes = base ? votesGain(base) : null;
  const unit = gainUnit(view.measure);
  const ratioOf = (it: Majority): string => {
    const ratio = quotient(base?.at.get(it)?.before?.share, base?.votesBefore);
    return ratio && !isChanged && view.measure === "share" ? `${rounded(ratio, 2)} of its share of votes` : "";
  };
  const powers = majorities.map((it) => {
    const of = (row: ChairRow | undefined, side: "before" | "after") =>
      valueText(valueOf(row?.at.get(it)?.[side], view), view.measure, view.digits);
    const gain = base?.at.get(it)?.gain ?? null;
    return rowOf([markOf(it), MAJORITY[it].label], of(base, "before"), cells.map((row) => of(row, "after")),
      gain ? `${shownNumber(gainText(gain, view.measure, view.digits))}${unit}` : "-", ratioOf(it));
  });
  const heads = ["base", ...labels, ...(hasGain ? ["added"] : [])];
  return [
    h("strong", {}, `${line.chair} `, h("bdi", {}, line.name)),
    h("table", {},
      isChanged ? h("thead", {}, h("tr", {}, h("td", {}), heads.map((it) => h("th", { scope: "col" }, it)))) : null,
      h("tbody", {},
        rowOf("Votes", weight(first(base)?.before), cells.map((row) => weight(first(row)?.after)), ""),
        rowOf("Share of votes", share(base?.votesBefore), cells.map((row) => share(row?.votesAfter)),
          votes ? `${shownNumber(gainText(votes, "share", view.digits))} points` : "-"),
        h("tr", { class: "what" }, h("th", { scope: "row", colspan: 2 + labels.length + Number(hasGain) },
          MEASURE[view.measure].label)),
        powers,
      ),
    ),
    kindsOf(line, list).map((it) => h("p", {}, it)),
  ];
}

/** What a heading orders by. */
interface Sorts {
  readonly order: Order;
  readonly at: Majority | null;
  readonly words: Child;
  /** By what it orders, in words. */
  readonly name: string;
  readonly kind?: string;
}

/** Whether the chairs are in the order of a heading. */
export function isOrder({ order, orderAt }: View, { order: own, at }: Pick<Sorts, "order" | "at">): boolean {
  return order === own && (at === null || orderAt === at);
}

/** A heading that orders the list, or the table. */
export function sorter(app: App, sorts: Sorts, place = "sort"): HTMLElement {
  const { order, at, words, name, kind = "" } = sorts;
  const isOn = isOrder(app.view, sorts);
  const act = () => app.look(at === null ? { order } : { order, orderAt: at });
  const id = `${place}-${order}${at === null ? "" : `-${at}`}`;
  return h("button", { type: "button", id, class: `sorter ${kind}`, "aria-pressed": String(isOn), onclick: act,
    live: true, title: `Order by ${name}`, "aria-label": `Order by ${name}` }, words);
}

const NAMING_WORDS: Readonly<Record<Naming, string>> = {
  given: "by given name", member: "by largest member", both: "by both",
};

/** The choice of what chairs are named by, where the table or a user gave them names. */
export function namingChoice(app: App): Child {
  const { naming = "given" } = app.study.base;
  const standing = app.shown?.counted.standing;
  if (!standing?.open().some((it) => standing.given(it))) return null;
  const options = NAMINGS.map((it): [string, string] => [it, NAMING_WORDS[it]]);
  const made = choice("naming", "Name chairs", options, naming, (it) => app.take(withNaming(app.study, it as Naming)));
  made.title = "What chairs are named by: their names in the table, such as Directors, or their largest members";
  return made;
}

/** The axis of a panel, with its name if there are several. */
function axisOf(list: List, name: string): HTMLElement {
  const texts = list.ticks.map((it) => svg("text", { x: at(list.scale(it)), y: 11 }, axisText(it)));
  return h("span", { class: "axis" }, name ? h("span", { class: "panel-name", title: name }, name) : null,
    svg("svg", { "aria-hidden": "true" }, texts));
}

/** The head of the list: what orders it, the axes, and what the marks are. */
export function headOf(app: App, list: List): Child {
  const { columns, view, isGain, isChanged, hasAdded, majorities } = list;
  const { measure } = view;
  const unit = measure === "share" ? (isGain ? "points" : "%") : "";
  const order: Order = isGain ? "gain" : "power";
  const heads = !columns.isOne ? null : majorities.map((it) => {
    const name = `${isGain ? "gain" : "power"} at ${MAJORITY[it].label}`;
    const words = [markOf(it), SHORT[it].replace(" %", "\u00a0%")];
    return sorter(app, { order, at: it, words: h("span", {}, words), name, kind: hasAdded ? "wide" : "" });
  });
  const names = columns.isOne ? [""] : columns.list.map((it) => it.short);
  const power = `${MEASURE[measure].label}${unit ? `, ${unit}` : ""}`;
  return [
    sorter(app, { order: "number", at: null, words: "Chair", name: "number", kind: "chair-head" }),
    isNarrow() ? null : namingChoice(app),
    sorter(app, { order: "votes", at: null, words: isGain ? "Votes added" : "Votes", name: "votes",
      kind: "votes-number" }),
    h("span", { class: "cell unit" }, isGain ? "points" : "%"),
    h("span", { class: "plot axes" },
      h("span", { class: "legend" },
        measure === "share" ? h("span", {}, h("i", { class: "key votes" }), isGain ? "votes" : "share of votes") : null,
        h("span", {}, majorities.map((it) => markOf(it)), power.replace(/^./, (it) => it.toLowerCase())),
        isChanged && !isGain ? h("span", {}, measure === "share" ? h("i", { class: "key was" }) : null,
          majorities.slice(0, 1).map((it) => markOf(it, true)),
          view.against === "before" && !columns.isOne ? "the one before" : "before") : null,
        tagLegend(list),
      ),
      h("span", { class: "axis-row" }, names.map((it) => axisOf(list, it))),
    ),
    heads,
  ];
}

/** The widths of the list's columns: in a wide window, and in a narrow one, where the plot has a line of its own. */
export function widthsOf({ columns, view, isGain, hasAdded, majorities }: List): readonly [string, string] {
  const extra = view.measure === "share" ? Math.max(0, view.digits - 2) * 0.5 : view.measure === "swings" ? 2.4 :
    0.4 + Math.max(0, view.digits - 2) * 0.5;
  const value = `${(3.6 + extra).toFixed(1)}rem`;
  const gain = `${(3.5 + extra).toFixed(1)}rem`;
  const share = `${(3 + Math.max(0, view.digits - 2) * 0.5).toFixed(1)}rem`;
  const one = isGain ? gain : hasAdded ? `${value} ${gain}` : value;
  const many = columns.isOne ? ` ${majorities.map(() => one).join(" ")}` : "";
  const panels = columns.list.length;
  const least = columns.isOne ? "8rem" : `${panels * 5}rem`;
  const narrow = columns.isOne ? majorities.map(() => value).join(" ") : "";
  return [
    `minmax(8rem, 14rem) ${isGain ? 6 : 5}rem ${share} minmax(${least}, 1fr)${many}`,
    `minmax(0, 1fr) ${share} ${narrow}`,
  ];
}
