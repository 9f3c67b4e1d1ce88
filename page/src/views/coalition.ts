/** The tab Coalition: chairs are ticked, and what holds of them as a coalition is shown for each majority. */
import type { App } from "./app";
import { verdictOf, votesOf } from "../engine/coalitions";
import type { ChairRow } from "../engine/compare";
import { button, byId, h, paint, svg, type Child } from "./dom";
import { keepFocus } from "./focus";
import { patch } from "./patch";
import { counted, grouped } from "../study/fractions";
import { screenLook } from "../charts/look";
import type { Reading } from "../engine/reading";
import { setTicked, ticked } from "../engine/ticks";
import { MAJORITY } from "../study/words";
import { answers, fillBar } from "./answers";
import { chairList, lookedAt, type Looked } from "./coalitionParts";
import { tagElements } from "./rows";
import { failures, sizesPart } from "./sizes";
import { smallestPart } from "./smallest";

const DEFINITIONS = [
  "A coalition is a set of open chairs. It wins if it has at least the quota, the least number of votes that wins; " +
    "for the quorum it also needs the least number of chairs. Otherwise it loses.",
  "A chair is critical in a winning coalition if the coalition loses once this chair alone leaves it (Banzhaf 1965).",
  "A coalition can block if the other chairs together lose: nothing passes against all of its chairs.",
  "All of this is made here from the chairs' votes, the quota and the least number of chairs, which are counted.",
];

/** Ticks the chairs that are found from those that are ticked now. */
function tick(app: App, next: (now: Set<number>, looked: Looked) => Iterable<number>): void {
  const looked = lookedAt(app);
  if (!looked) return;
  setTicked(app, looked.shown, new Set(next(ticked(app, looked.shown), looked)));
  app.repaint();
}

/** A chair of the list: a click anywhere on its row adds it to the coalition, or takes it out. */
function tickRow({ app, chairs }: Looked, row: ChairRow, isOn: boolean): HTMLElement {
  const { chair, name } = row;
  const onchange = () => tick(app, (now) => (now.delete(chair) ? now : now.add(chair)));
  const votes = chairs.find((it) => it.chair === chair)?.weight ?? 0;
  const width = `${(100 * votes) / Math.max(1, ...chairs.map((it) => it.weight))}%`;
  return h("label", { "data-chair": chair },
    h("input", { type: "checkbox", id: `tick-${chair}`, checked: isOn, live: true, onchange }),
    h("span", { class: "card-title" }, `${chair} `, h("bdi", {}, name)),
    h("span", {}, tagElements(row)),
    svg("svg", { "aria-hidden": "true" }, svg("rect", { width, y: "30%", height: "40%", class: "part" })),
    h("span", { class: "number", title: "counted: WEIGHT" }, grouped(votes)),
  );
}

/** The chair with the most votes that isn't ticked, and of equal ones the first; none if all are ticked. */
function largestMissing({ chairs }: Looked, coalition: ReadonlySet<number>): number[] {
  const missing = chairs.filter((it) => !coalition.has(it.chair)).sort((left, right) => right.weight - left.weight);
  return missing.slice(0, 1).map((it) => it.chair);
}

function buttons({ app, chairs }: Looked, coalition: ReadonlySet<number>): HTMLElement {
  const all = (looked: Looked) => looked.chairs.map((it) => it.chair);
  const act = (words: string, id: string, next: Parameters<typeof tick>[1], disabled = false) =>
    button(words, () => tick(app, next), { id, disabled, live: true });
  return h("div", { class: "buttons", role: "group", "aria-label": "Ticks" },
    act("All", "tick-all", (_, looked) => all(looked)),
    act("None", "tick-none", () => []),
    act("The others", "tick-others", (now, looked) => all(looked).filter((it) => !now.has(it))),
    act("Add the largest missing", "tick-largest", (now, looked) => [...now, ...largestMissing(looked, now)],
      coalition.size === chairs.length),
  );
}

/** The coalition and its outcomes in words. */
function words({ chairs, readings }: Looked, coalition: ReadonlySet<number>): string {
  const votes = votesOf(chairs.filter((it) => coalition.has(it.chair)));
  const have = `${grouped(votes)} of ${grouped(votesOf(chairs))} votes cast`;
  const outcomes = readings.map((it) => {
    return ` ${MAJORITY[it.majority].at} the coalition ${verdictOf(it, coalition).wins ? "wins" : "loses"}.`;
  });
  return `${coalition.size} of ${counted(chairs.length, "chair")} ticked, with ${have}.${outcomes.join("")}`;
}

/** A row of the table of verdicts: its part, its words, the mark of what it says, and that. */
type Line = readonly [string, string, "counted" | "made here", Child];

const yes = (holds: boolean): string => (holds ? "yes" : "no");

function linesOf(looked: Looked, reading: Reading, coalition: ReadonlySet<number>): Line[] {
  const verdict = verdictOf(reading, coalition);
  const { votes, size, wins, critical, missingVotes, missingChairs, helpers, others } = verdict;
  const list = (chairs: readonly number[], none: string): Child =>
    chairs.length ? [`${chairs.length}: `, chairList(looked, chairs)] : none;
  return [
    ["outcome", "The coalition", "made here", h("strong", {}, wins ? "wins" : "loses")],
    ["votes", "Its votes", "made here", grouped(votes)],
    ["quota", "Quota", "counted", grouped(reading.quota)],
    ["missing-votes", "Missing votes", "made here", grouped(missingVotes)],
    ["chairs", "Its chairs", "made here", String(size)],
    ["least", "Least number of chairs", "counted", reading.leastSize ? String(reading.leastSize) : "none"],
    ["missing-chairs", "Missing chairs", "made here", String(missingChairs)],
    ["critical", "Critical chairs", "made here", list(critical, wins ? "none" : "none: it loses")],
    ["helpers", "Would win with one of", "made here", list(helpers, wins ? "it wins already" : "no single chair")],
    ["blocks", "It can block", "made here", yes(!others.wins)],
    ["others", "The others", "made here", `${counted(others.size, "chair")}, ${counted(others.votes, "vote")}`],
    ["others-win", "The others win", "made here", yes(others.wins)],
    ["others-block", "The others can block", "made here", yes(!wins)],
  ];
}

/** The table of what holds at each majority. */
function verdicts(looked: Looked, coalition: ReadonlySet<number>): Child {
  const columns = looked.readings.map((it) => linesOf(looked, it, coalition));
  const heads = looked.readings.map(({ majority }) => h("th", { scope: "col" }, MAJORITY[majority].label));
  const rows = (columns[0] ?? []).map(([part, line, mark], at) => {
    const cells = looked.readings.map(({ majority }, column) =>
      h("td", { class: "text", "data-majority": majority }, columns[column]?.[at]?.[3] ?? null),
    );
    const head = h("th", { scope: "row", class: "text", "data-mark": mark }, `${line} `);
    return h("tr", { "data-part": part }, head, cells);
  });
  return h("div", { class: "scroll", tabindex: 0, role: "region", "aria-label": "The coalition at each majority" },
    h("p", { class: "note" }, "The quota and the least number of chairs are counted; the rest is made here."),
    h("table", { id: "verdict-table" },
      h("thead", {}, h("tr", {}, h("td", {}), heads)),
      h("tbody", {}, rows),
    ),
  );
}

/** Paints the tab, and keeps what is as it was. */
export function paintCoalition(app: App): void {
  const looked = lookedAt(app);
  const panel = byId("panel");
  if (!looked) return paint(panel, h("p", {}, "No chair is open, so there is no coalition to look at."));
  const coalition = ticked(app, looked.shown);
  const tickThem = (chairs: readonly number[]) => {
    tick(app, () => chairs);
    byId("coalition-words").scrollIntoView({ block: "nearest" });
  };
  const isAny = coalition.size > 0;
  const parts = [
    failures(looked),
    answers(looked, tickThem),
    h("div", { id: "coalition" },
      h("div", { class: "fill" }, fillBar(looked, coalition)),
      h("fieldset", { id: "ticks" },
        h("legend", {}, `A coalition of chairs of ${looked.board}`),
        looked.rows.map((it) => tickRow(looked, it, coalition.has(it.chair))),
      ),
      h("div", {},
        buttons(looked, coalition),
        h("p", { id: "coalition-words", role: "status" }, words(looked, coalition)),
        h("div", { id: "verdicts" }, isAny && verdicts(looked, coalition)),
        h("details", {}, h("summary", {}, "What these are"), DEFINITIONS.map((it) => h("p", { class: "note" }, it))),
      ),
    ),
    h("div", { id: "smallest" }, smallestPart(looked, tickThem)),
    sizesPart(looked, screenLook(app, panel)),
  ];
  keepFocus(panel, () => byId("tick-none"), () => patch(panel, parts));
}
