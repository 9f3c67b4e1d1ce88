/** The table of chairs: its headings and its exact cells, which the page, the clipboard, LaTeX and workbooks write. */
import { comparedLabel, type Columns, type Line } from "../engine/columns";
import { gainText, gainUnit, valueText } from "../engine/compare";
import { tagsOf, tagWords } from "../engine/kinds";
import {
  difference, fractionText, grouped, over, percent, quotient, rounded, sum, type Ratio,
} from "../study/fractions";
import { isolated } from "../study/names";
import { measureOf, type ChairReading } from "../engine/reading";
import type { Order, Thing, View } from "../study/study";
import { MAJORITY, MEASURE, type Majority, type Measure } from "../study/words";

/** The heading of a column. */
export interface Head {
  /** What the numbers are, which columns side by side have in common, and which of them the column has. */
  readonly group: string;
  readonly own: string;
  /** Both, for a heading that stands alone. */
  readonly words: string;
  readonly mark: "counted" | "made here" | "given";
  /** The order of chairs by its numbers, and the majority, if it has one. */
  readonly order?: readonly [Order, Majority | null];
}

/** A cell: its exact value, its decimal, the unit that it lacks since the heading has it, and its source. */
export interface Cell {
  readonly value: Ratio | null;
  readonly decimal: string;
  readonly unit: string;
  readonly fraction: string;
  readonly source: string;
  /** Whether it has words in place of a number. */
  readonly isText?: true;
}

/** A column: what it is of, its heading, its cell in a line, and how its sum is written where that means something. */
interface Column {
  readonly of: readonly (Thing | "power")[];
  readonly head: Head;
  cell(line: Line): Cell;
  sum?(total: Ratio): string;
}

/** A table: its headings, its lines with their cells, and the sums of its columns. */
export interface ChairTable {
  readonly heads: readonly Head[];
  readonly lines: readonly { readonly line: Line; readonly cells: readonly Cell[] }[];
  readonly sums: readonly (Cell | null)[];
}

const EMPTY: Cell = { value: null, decimal: "", unit: "", fraction: "-", source: "the chair isn't open here" };

const NO_RATIO: Cell = { ...EMPTY, source: "a chair without votes has no such ratio" };

/** The cell of a value, or that of a chair that isn't open. */
function cellOf(value: Ratio | null | undefined, decimal: (value: Ratio) => string, source: string, unit = ""): Cell {
  if (!value) return EMPTY;
  return { value, decimal: decimal(value), unit, fraction: fractionText(value), source };
}

/** What columns are made for. */
interface Asked {
  readonly columns: Columns;
  readonly view: View;
  /** Whether the table has only the base: before a change there is no other column. */
  readonly isAlone: boolean;
}

/** The value of a thing in a register: the base before a row, or the board after it. */
type Value = (line: Line, at: number, side: "before" | "after") => Cell;

/** Columns of one thing: in the base, then in each register, with what is added. */
interface Things {
  readonly thing: Thing | "power";
  readonly group: string;
  /** The heading of a column that is alone, under its group, and where it stands alone. */
  readonly alone: readonly [string, string];
  readonly mark: Head["mark"];
  readonly value: Value;
  /** What is added in a register; there is none of votes. */
  readonly added?: (line: Line, at: number) => Ratio | null;
  /** The measure whose gains may have a unit, and the words of a majority. */
  readonly measure: Measure;
  readonly majority: string;
  /** The majority of its numbers, or null for votes. */
  readonly at: Majority | null;
  sum?(total: Ratio): string;
}

/** The column of what is added in a register. */
function addedColumn(asked: Asked, things: Things, at: number): Column {
  const { thing, group, measure, majority, added } = things;
  const { columns: { list, isOne }, view } = asked;
  const unit = view.fractions ? "" : gainUnit(measure, ", ");
  const [label, other] = [list[at]?.label ?? "", comparedLabel(list, at, view)];
  const own = isOne ? `added${unit}` : `added${unit}, less ${isolated(other)}`;
  const words = `Added${unit}${majority}${isOne ? "" : `, ${isolated(label)} less ${isolated(other)}`}`;
  const write = (gain: Ratio) => gainText(gain, measure, view.digits);
  return {
    of: ["added", thing],
    head: { group, own, words, mark: "made here", ...isOne && things.at ? { order: ["gain", things.at] } : {} },
    cell: (line) => cellOf(added?.(line, at), write, `made here: ${label} less ${other}`, gainUnit(measure)),
  };
}

/** The columns of one thing. */
function thingColumns(asked: Asked, things: Things): Column[] {
  const { thing, group, alone, mark, value, added, sum } = things;
  const last = asked.columns.list.length - 1;
  const column = (own: string, at: number, side: "before" | "after", words = `${group}, ${own}`): Column => {
    const isOrder = thing !== "share" && at === last && (side === "after" || asked.isAlone);
    const order: Pick<Head, "order"> = isOrder ? { order: [things.at ? "power" : "votes", things.at] } : {};
    return {
      of: [thing], head: { group, own, words, mark, ...order }, cell: (line) => value(line, at, side),
      ...(sum ? { sum } : {}),
    };
  };
  if (asked.isAlone) return [column(alone[0], 0, "before", alone[1])];
  const rest = asked.columns.list.flatMap(({ label }, at) => {
    const own = column(isolated(label), at, "after");
    return added ? [own, addedColumn(asked, things, at)] : [own];
  });
  return [column("base", 0, "before"), ...rest];
}

/** The columns of the measure at a majority, with the power over the votes. */
function powerColumns(asked: Asked, majority: Majority): Column[] {
  const { columns, view: { measure, digits }, isAlone } = asked;
  const { label } = MAJORITY[majority];
  const group = `${MEASURE[measure].label}, ${label}`;
  const write = (it: Ratio) => valueText(it, measure, digits);
  const counted = (chair: ChairReading | undefined): Cell => {
    if (!chair) return EMPTY;
    const value = measureOf(chair, measure);
    const fraction = measure === "swings" ? String(chair.swings) : fractionText(value);
    const decimal = valueText(value, measure, digits);
    return { value, decimal, unit: "", fraction, source: MEASURE[measure].from };
  };
  const power = thingColumns(asked, {
    thing: "power", group, alone: ["power", group], mark: "counted", measure, majority: `, ${label}`, at: majority,
    value: ({ cells }, at, side) => counted(cells[at]?.at.get(majority)?.[side]),
    added: ({ cells }, at) => cells[at]?.at.get(majority)?.gain ?? null,
    ...(measure === "share" || measure === "swings" ? { sum: write } : {}),
  });
  if (measure !== "share") return power;
  const places = Math.max(2, digits);
  const ratios = columns.list.map(({ label: column }, at): Column => {
    const which = isAlone || columns.isOne ? "" : `, ${isolated(column)}`;
    const words = `Power over votes, ${label}${which}`;
    const power = ({ cells }: Line) => cells[at]?.at.get(majority)?.after?.share;
    const ratio = (line: Line) => quotient(power(line), line.cells[at]?.votesAfter);
    return {
      of: ["ratio"],
      head: { group, own: `over votes${which}`, words, mark: "made here" },
      cell: (line) => (power(line) && !ratio(line) ? NO_RATIO :
        cellOf(ratio(line), (it) => rounded(it, places), "made here: SHARE over WEIGHT/CAST")),
    };
  });
  return [...power, ...ratios];
}

/** The columns of votes and of their shares, which all majorities have in common. */
function votesColumns(asked: Asked): Column[] {
  const { view, isAlone } = asked;
  const whole = (it: Ratio) => grouped(it.numerator / it.denominator);
  const share = (it: Ratio) => `${percent(it, view.digits)} %`;
  const votes = thingColumns(asked, {
    thing: "votes", group: "Votes", alone: ["number", "Votes"], mark: "counted", measure: "swings", majority: "",
    at: null, sum: whole,
    value: ({ cells }, at, side) => {
      const [first] = cells[at]?.at.values() ?? [];
      const weight = first?.[side]?.weight;
      if (weight === undefined) return EMPTY;
      return { ...cellOf(over(weight, 1), whole, "counted: WEIGHT"), fraction: String(weight) };
    },
  });
  const shares = thingColumns(asked, {
    thing: "share", group: isAlone ? "Votes" : "Share of votes", alone: ["share", "Share of votes"],
    mark: "made here", measure: "share", majority: "", at: null, sum: share,
    value: ({ cells }, at, side) =>
      cellOf(side === "before" ? cells[at]?.votesBefore : cells[at]?.votesAfter, share, "made here: WEIGHT/CAST"),
    added: ({ cells }, at) => difference(cells[at]?.votesAfter ?? null, cells[at]?.votesBefore ?? null),
  });
  return [...votes, ...shares];
}

/** The sum of a column, or null where a sum means nothing. */
function sumOf(cells: readonly (Cell | undefined)[], write: ((total: Ratio) => string) | undefined): Cell | null {
  if (!write) return null;
  const total = sum(cells.flatMap((it) => it?.value ?? []));
  const fraction = fractionText(total);
  return { value: total, decimal: write(total), unit: "", fraction: fraction.replace(/\/1$/, ""), source: "made here" };
}

/** The table of columns in a view: power first, then votes. */
export function chairCells(columns: Columns, view: View): ChairTable {
  const isAlone = columns.isOne && !(columns.list[0]?.counted.isChanged ?? false);
  const asked = { columns, view, isAlone };
  const all = [...view.majorities.flatMap((it) => powerColumns(asked, it)), ...votesColumns(asked)];
  const shown = all.filter(({ of }) => !view.hidden.some((it) => of.includes(it)));
  const lines = columns.lines.map((line) => ({ line, cells: shown.map((it) => it.cell(line)) }));
  const sums = shown.map((it, at) => sumOf(lines.map(({ cells }) => cells[at]), it.sum));
  return { heads: shown.map((it) => it.head), lines, sums };
}

/** The table for a file, which has no tags beside names: where there are some, its last column has their words. */
export function withVetoes(table: ChairTable): ChairTable {
  const words = table.lines.map(({ line: { cells } }) => tagWords(tagsOf(cells[cells.length - 1]?.at ?? new Map())));
  if (words.every((it) => it === "")) return table;
  const head: Head = { group: "Veto", own: "", words: "Veto", mark: "counted" };
  const source = "counted: PREVENT";
  const cell = (it: string): Cell => ({ ...EMPTY, decimal: it, fraction: it, source, isText: true });
  const lines = table.lines.map(({ line, cells }, at) => ({ line, cells: [...cells, cell(words[at] ?? "")] }));
  return { heads: [...table.heads, head], lines, sums: [...table.sums, null] };
}

/** What is written in a cell: its decimal, or its fraction. */
export function shownCell(cell: Cell, view: View): string {
  return view.fractions ? cell.fraction : cell.decimal;
}
