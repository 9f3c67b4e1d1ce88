/** The first answers of the tab Coalition: who blocks alone, the fewest chairs that block and that carry; and a bar of
 * the ticked chairs, which fills to the quotas. */
import { fewestToBlock, fewestToWin, vetoChairs, votesOf, type Rule } from "../engine/coalitions";
import { markPath } from "../charts/charts";
import { button, h, svg, type Child } from "./dom";
import { counted, grouped, over, percent } from "../study/fractions";
import { isolated, listed } from "../study/names";
import type { Reading } from "../engine/reading";
import { MAJORITY } from "../study/words";
import type { Looked } from "./coalitionParts";
import { markOf } from "./rows";

type TickThem = (chairs: readonly number[]) => void;

/** A question, and the chairs that answer it on a board; null where no coalition does. */
interface Question {
  readonly id: string;
  readonly words: string;
  chairs(rule: Rule): readonly number[] | null;
  /** What is said if there is no such chair. */
  readonly none: string;
}

const QUESTIONS: readonly Question[] = [
  { id: "alone", words: "Blocks alone", none: "no chair", chairs: vetoChairs },
  { id: "block", words: "Fewest others that block", none: "no others",
    chairs: (rule) => fewestToBlock(rule, vetoChairs(rule) ?? []) },
  { id: "carry", words: "Fewest that carry", none: "no coalition wins", chairs: fewestToWin },
];

/** Chairs by number and name; those after the first few are only counted. */
function chairWords({ names }: Looked, chairs: readonly number[]): string {
  return listed(chairs.map((it) => `${it} ${isolated(names.get(it) ?? "")}`));
}

function cellOf(looked: Looked, { id, chairs, none }: Question, reading: Reading, tickThem: TickThem): HTMLElement {
  const found = reading.winning ? chairs(reading) : null;
  const { majority } = reading;
  if (!found?.length) return h("td", { class: "text", "data-majority": majority }, none);
  const isOne = found.length === 1;
  const act = { id: `answer-${id}-${majority}`, class: "quiet answer", title: "Tick them as a coalition" };
  const words = isOne ? chairWords(looked, found) : counted(found.length, "chair");
  return h("td", { class: "text", "data-majority": majority }, button(words, () => tickThem(found), act),
    isOne ? null : h("span", { class: "names" }, `: ${chairWords(looked, found)}`));
}

/** The answers at each majority, before anything is ticked. */
export function answers(looked: Looked, tickThem: TickThem): Child {
  const heads = looked.readings.map(({ majority }) =>
    h("th", { scope: "col", class: "text" }, markOf(majority), MAJORITY[majority].label));
  const rows = QUESTIONS.map((question) =>
    h("tr", { "data-question": question.id },
      h("th", { scope: "row", class: "text", title: "made here" }, question.words),
      looked.readings.map((it) => cellOf(looked, question, it, tickThem))));
  return h("div", { class: "scroll", tabindex: 0, role: "region", "aria-label": "Who blocks, and who carries" },
    h("table", { id: "answers" },
      h("thead", {}, h("tr", {}, h("td", {}), heads)), h("tbody", {}, rows)));
}

/** The votes of the ticked chairs side by side, and the quotas that they fill the bar to. */
export function fillBar({ chairs, readings, names }: Looked, coalition: ReadonlySet<number>): Child {
  const own = chairs.filter((it) => coalition.has(it.chair));
  const room = Math.max(1, votesOf(chairs), ...readings.map((it) => it.quota));
  const at = (votes: number) => `${((100 * votes) / room).toFixed(3)}%`;
  const parts = own.map(({ chair, weight }, place) => {
    const x = votesOf(own.slice(0, place));
    const title = svg("title", {}, `${chair} ${isolated(names.get(chair) ?? "")}: ${grouped(weight)}`);
    const isWide = weight * 40 > room;
    return [svg("rect", { x: at(x), width: at(weight), y: 0, height: "100%", class: "part" }, title),
      isWide && svg("text", { x: at(x + weight / 2), y: 16 }, String(chair))];
  });
  const quotas = readings.map(({ majority, quota }) => {
    const title = svg("title", {}, `${MAJORITY[majority].label}: ${grouped(quota)} votes`);
    return [svg("line", { x1: at(quota), x2: at(quota), y1: -5, y2: "100%", class: `quota at-${majority}` }),
      svg("svg", { x: at(quota), y: -10, class: "place" },
        svg("path", { d: markPath(majority), class: `mark at-${majority}` }, title))];
  });
  const share = over(votesOf(own), votesOf(chairs));
  const label = `${grouped(votesOf(own))} votes${share ? `, ${percent(share, 2)} % of those cast` : ""}`;
  return svg("svg", { id: "fill", role: "img", "aria-label": label }, parts, quotas);
}
