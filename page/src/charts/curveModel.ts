/** The data of the chart of a sweep, and the rows that it has in exports. */
import type { App } from "../views/app";
import type { Labelled } from "../exports/csv";
import type { CurveModel } from "./curveChart";
import type { Curve } from "../engine/count";
import { counted, decimalRatio, drawn, grouped, percent, rounded, type Ratio } from "../study/fractions";
import { isolated } from "../study/names";
import type { Statement, Threshold } from "../engine/orders";
import { readings } from "../engine/reading";
import type { SweepAsked } from "../study/study";
import { sweepText } from "../engine/sweep";
import { MAJORITY, MEASURE } from "../study/words";

/** The label of a threshold on the picture. */
const SHORT: Readonly<Record<Statement, string>> = {
  prevents: "veto", carries: "alone", counts: "power", leads: "more swings", reaches: "reaches", keeps: "keeps",
};

export const STATEMENT_WORDS: Readonly<Record<Statement, string>> = {
  prevents: "has a veto",
  carries: "carries everything alone",
  counts: "has any power",
  leads: "has more swings",
  reaches: "first has",
  keeps: "always has",
};

/** A share of the total in words. */
export function shareText(share: Ratio | null, digits: number): string {
  return share ? `${percent(share, digits)} % of the total` : "";
}

/** A threshold in words, such as "At 85 per cent it has a veto from 847,524 votes (not at 847,523)". */
export function thresholdWords(threshold: Threshold, digits: number, words = STATEMENT_WORDS[threshold.what]): string {
  const { majority, what, isFrom, votes, share } = threshold;
  const from = isFrom ? `${words} from` : `${words} up to`;
  const own = isFrom ? votes : votes - 1;
  const not = what === "counts" && isFrom ? "a dummy up to" : "not at";
  const other = `${not} ${grouped(isFrom ? votes - 1 : votes)}`;
  const part = isFrom && share ? `, ${shareText(share, digits)}` : "";
  return `${MAJORITY[majority].at} it ${from} ${counted(own, "vote")}${part} (${other}).`;
}

/** A sweep in words, with its board. */
export function sweepTitle(asked: SweepAsked): string {
  return sweepText(asked) + (asked.on === "changed" ? " on the changed board" : "");
}

/** A sweep in plain words, for the title of its chart. */
function sweepWords({ who, on, unit, from, to, by }: SweepAsked): string {
  const whose = who.kind === "chair" ? `chair ${who.chair}` : who.code;
  const what = unit === "percent" ? "per cent of the total" : "votes";
  const where = on === "changed" ? ", on the changed board" : "";
  return `with ${from} to ${to} ${what} for ${whose}, in steps of ${by}${where}`;
}

/** Where the votes that are swept are now, on the axis. */
function nowOf({ asked, standing, rest }: Curve): number {
  const own = asked.who.kind === "chair"
    ? standing.in(asked.who.chair).reduce((sum, it) => sum + (it.suspended ? 0 : it.votes), 0)
    : standing.place(asked.who.code)?.votes ?? 0;
  return asked.unit === "votes" ? own : (100 * own) / (own + rest);
}

/** The chart's model, also for exports. Null if no sweep is counted. */
export function curveModel(app: App): CurveModel | null {
  const { curve, view } = app;
  if (!curve) return null;
  const { asked, majorities, points, standing, thresholds } = curve;
  const isPercent = asked.unit === "percent";
  const isThere = points[0]?.readings[0]?.chairs.some((it) => it.chair === view.curveChair);
  const chair = isThere ? view.curveChair ?? curve.chair : curve.chair;
  const shareOf = (threshold: Threshold) => (threshold.share ? 100 * drawn(threshold.share) : 0);
  const marks = chair === curve.chair ? thresholds : [];
  return {
    points: points.map((it) => ({ x: Number(it.value), readings: readings(it.readings) })),
    marks: marks.map((it) => ({
      x: isPercent ? shareOf(it) : it.votes,
      majority: it.majority,
      label: `${SHORT[it.what]} ${it.isFrom ? "from" : "below"} ${grouped(it.votes)}`,
      words: thresholdWords(it, view.digits),
    })),
    now: nowOf(curve),
    chair,
    majorities,
    measure: view.measure,
    hasVotes: view.curveVotes,
    xWords: isPercent ? "votes of what is swept, per cent of the total voting power" : "votes of what is swept",
    name: `${MEASURE[view.measure].label} of chair ${chair} ${isolated(standing.name(chair))}, ${sweepWords(asked)}`,
  };
}

/** A value of a sweep, with the decimal places of its first value and its step, as board-study writes it. */
function padded(value: string, { from, by }: SweepAsked): string {
  const places = Math.max(...[from, by].map((it) => it.split(".")[1]?.length ?? 0));
  return places ? rounded(decimalRatio(value), places) : value;
}

/** The points of the study's sweep as registers of a table; none if it has no sweep. */
export function sweepRegisters({ keptCurve: curve }: App): Labelled[] {
  if (!curve) return [];
  const { asked, points, standing } = curve;
  const name = asked.who.kind === "member" ? asked.who.code : `chair ${asked.who.chair}`;
  return points.map(({ value, readings: list }) => ({
    label: `${name} ${value} ${asked.unit === "percent" ? "%" : "votes"}`,
    sweep: sweepTitle(asked),
    percent: padded(value, asked),
    readings: readings(list),
    standing,
  }));
}
