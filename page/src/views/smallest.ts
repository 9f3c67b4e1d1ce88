/** The smallest coalitions that win or block, with a chair or without one, and the chairs that have a veto. */
import {
  blockingRule, minimalBlocking, minimalWinning, minimalWith, ruleWithout, smallestWith, subsetsAbove, subsetsWithout,
  vetoChairs, votesOf, type Smallest,
} from "../engine/coalitions";
import { button, choice, h, type Child } from "./dom";
import { counted, grouped } from "../study/fractions";
import { isolated } from "../study/names";
import type { Reading } from "../engine/reading";
import { MAJORITIES, MAJORITY } from "../study/words";
import { chairList, readingAt, type Looked } from "./coalitionParts";

/** The coalitions that are listed at most. */
const MOST_LISTED = 20;

type TickThem = (chairs: readonly number[]) => void;

/** The chair that is in all of the coalitions, and the one that is in none of them; null for any and none. */
interface Wanted {
  readonly chair: number | null;
  readonly without: number | null;
  readonly isBlocking: boolean;
  /** Whether each chair must be needed: with any chairs, the smallest need all of theirs. */
  readonly isMinimal: boolean;
}

/** A reading, and its smallest winning or blocking coalitions with the chosen chair. */
interface Found {
  readonly reading: Reading;
  readonly wanted: Wanted;
  readonly smallest: Smallest | null;
}

/** Whether the number of all coalitions is known, and not only the first of them. */
function hasNumber({ isBlocking, isMinimal }: Wanted): boolean {
  return !isBlocking || isMinimal;
}

/** What is said where there is no such coalition. */
function noneWords({ wanted: { isMinimal }, reading: { winning } }: Found): string {
  return isMinimal && winning ? "none needs it" : "none wins";
}

function tableOf(looked: Looked, wanted: Wanted, found: readonly Found[]): HTMLElement {
  const { chair, without } = wanted;
  const heads = ["Least number of chairs", ...hasNumber(wanted) ? ["Coalitions with this number"] : []];
  const rows = found.map((it) =>
    h("tr", { "data-majority": it.reading.majority },
      h("th", { scope: "row", class: "text" }, MAJORITY[it.reading.majority].label),
      h("td", {}, it.smallest ? String(it.smallest.size) : noneWords(it)),
      hasNumber(wanted) ? h("td", {}, it.smallest ? grouped(it.smallest.many) : "0") : null,
    ),
  );
  return h("div", { class: "scroll" },
    h("table", { id: "smallest-table" },
      h("caption", {}, chair === null ? "Of any chairs" : ["With ", chairList(looked, [chair])],
        without === null ? null : [", without ", chairList(looked, [without])], " (made here)"),
      h("thead", {}, h("tr", {}, h("td", {}), heads.map((it) => h("th", { scope: "col" }, it)))),
      h("tbody", {}, rows),
    ),
  );
}

function rowOf(looked: Looked, coalition: readonly number[], at: number, tickThem: TickThem): HTMLElement {
  const votes = votesOf(looked.chairs.filter((it) => coalition.includes(it.chair)));
  const label = { "aria-label": `Tick chairs ${coalition.join(", ")}`, id: `tick-these-${at}` };
  return h("tr", { "data-chairs": coalition.join(" ") },
    h("th", { scope: "row" }, String(at + 1)),
    h("td", { class: "text" }, chairList(looked, coalition)),
    h("td", {}, grouped(votes)),
    h("td", {}, button("Tick", () => tickThem(coalition), label)),
  );
}

/** Which of the coalitions are listed. */
function listWords({ reading: { majority, winning }, wanted, smallest }: Found): string {
  const { at } = MAJORITY[majority];
  if (!smallest && wanted.isMinimal && winning) {
    return `${at} no coalition that ${wanted.isBlocking ? "can block" : "wins"} needs this chair.`;
  }
  if (!smallest) return `${at} no coalition wins.`;
  const { many, size } = smallest;
  const chairs = counted(size, "chair");
  if (many === 1) return `${at}: the only one with ${chairs} (made here).`;
  const some = `the first ${MOST_LISTED}${hasNumber(wanted) ? ` of ${grouped(many)}` : ""}`;
  const which = many > MOST_LISTED ? some : `all ${many}`;
  return `${at}: ${which} with ${chairs}, in order of their chairs' numbers (made here).`;
}

function listOf(looked: Looked, found: Found, tickThem: TickThem): Child {
  const words = listWords(found);
  const first = found.smallest?.first ?? [];
  const heads = [h("th", { scope: "col", class: "text" }, "Chairs"), h("th", { scope: "col" }, "Votes")];
  return [
    h("p", { id: "smallest-words" }, words),
    first.length > 0 && h("div", { class: "scroll preview", tabindex: 0, role: "region", "aria-label": words },
      h("table", { id: "smallest-list" },
        h("thead", {}, h("tr", {}, h("td", {}), heads, h("td", {}))),
        h("tbody", {}, first.map((it, at) => rowOf(looked, it, at, tickThem))),
      ),
    ),
  ];
}

function vetoWords(looked: Looked, reading: Reading): Child {
  const { at } = MAJORITY[reading.majority];
  const chairs = vetoChairs(reading);
  if (!chairs) return `${at} no coalition wins.`;
  return [`${at}: `, chairs.length ? chairList(looked, chairs) : "none", "."];
}

function vetoes(looked: Looked): Child {
  const items = looked.readings.map((it) => h("li", { "data-majority": it.majority }, vetoWords(looked, it)));
  return [
    h("h3", {}, "Chairs with a veto"),
    h("p", { class: "note" }, "A chair has a veto if no coalition without it wins. Made here."),
    h("ul", { id: "vetoes" }, items),
  ];
}

/** How many coalitions block at each majority: the complement of one that blocks loses, so as many block as lose. */
function blocking({ readings }: Looked): Child {
  const items = readings.map(({ majority, coalitions, winning }) =>
    h("li", { "data-majority": majority, title: "made here: COALITIONS less WINNING" },
      `${MAJORITY[majority].at} ${grouped(coalitions - winning)} of ${grouped(coalitions)} coalitions can block.`));
  return [
    h("h3", {}, "Coalitions that can block"),
    h("p", { class: "note" }, "As many coalitions can block as lose, since all chairs outside of one that can block " +
      "lose together. Made here, from the counted numbers of coalitions."),
    h("ul", { id: "blocking" }, items),
  ];
}

/** The choice of a chair, of a majority, and of coalitions that win or that can block. */
function choices(looked: Looked, { chair, without, isBlocking, isMinimal }: Wanted): HTMLElement {
  const { app, chairs, names, readings } = looked;
  const { at } = app.open.ticks;
  const options = chairs.map((it) => [String(it.chair), `${it.chair} ${isolated(names.get(it.chair) ?? "")}`] as const);
  const ats = readings.map((it) => [it.majority, MAJORITY[it.majority].label] as const);
  const again = (part: Partial<typeof app.open.ticks>) => {
    app.open.ticks = { ...app.open.ticks, ...part };
    app.repaint();
  };
  const kinds = [["winning", "that win"], ["blocking", "that can block"]] as const;
  const box: HTMLInputElement = h("input", {
    type: "checkbox", id: "smallest-minimal", checked: isMinimal, live: true,
    onchange: () => again({ isMinimal: box.checked }),
  });
  return h("div", { class: "choices" },
    choice("smallest-kind", "Coalitions", kinds, isBlocking ? "blocking" : "winning", (it) => {
      again({ isBlocking: it === "blocking" });
    }),
    choice("smallest-chair", "With chair", [["any", "any"], ...options], String(chair ?? "any"), (it) => {
      again({ chair: it === "any" ? it : Number(it) });
    }),
    choice("smallest-without", "without", [["", "none"], ...options.filter(([it]) => it !== String(chair))],
      String(without ?? ""), (it) => again({ without: it ? Number(it) : null })),
    choice("smallest-at", "list at", ats, readingAt(looked, at)?.majority ?? "", (text) => {
      again({ at: MAJORITIES.find((it) => it === text) ?? null });
    }),
    chair === null ? null : h("label", { title: "Without any of its chairs it would no longer win, or block" },
      box, "only those that need each of their chairs"),
  );
}

/** The chairs that are chosen, if they are open; at first the first one. */
function wantedOf({ app: { open: { ticks } }, chairs }: Looked): Wanted {
  const isOpen = (it: number | "any" | null) => chairs.some(({ chair }) => chair === it);
  const first = isOpen(ticks.chair) ? ticks.chair as number : chairs[0]?.chair ?? null;
  const chair = ticks.chair === "any" ? null : first;
  const without = isOpen(ticks.without) && ticks.without !== chair ? ticks.without : null;
  const { isBlocking, isMinimal } = ticks;
  return { chair, without, isBlocking, isMinimal: chair !== null && isMinimal };
}

/** The smallest coalitions that are wanted, at each majority. */
function foundOf({ chairs, readings }: Looked, wanted: Wanted): Found[] {
  const { chair, without, isBlocking, isMinimal } = wanted;
  const voters = chairs.filter((it) => it.chair !== without);
  if (isMinimal && chair !== null) {
    const above = subsetsAbove(voters, chair);
    const minimal = isBlocking ? minimalBlocking : minimalWinning;
    return readings.map((reading) => {
      const smallest = reading.winning ? minimalWith(minimal(reading, without), chair, above, MOST_LISTED) : null;
      return { reading, wanted, smallest };
    });
  }
  const others = subsetsWithout(voters, chair);
  return readings.map((reading) => {
    const rule = isBlocking ? blockingRule(reading, chair, without) : ruleWithout(reading, without);
    const isAny = chair !== null || reading.winning > 0;
    return { reading, wanted, smallest: isAny ? smallestWith(rule, chair, others, MOST_LISTED) : null };
  });
}

/** The part of the tab with the smallest winning coalitions and the chairs with a veto. */
export function smallestPart(looked: Looked, tickThem: TickThem): Child {
  const wanted = wantedOf(looked);
  const found = foundOf(looked, wanted);
  const listed = found.find((it) => it.reading === readingAt(looked, looked.app.open.ticks.at));
  return [
    h("h3", {}, "Smallest coalitions"),
    h("p", { class: "note" }, "Of all coalitions that win or can block, those with the fewest chairs."),
    choices(looked, wanted),
    tableOf(looked, wanted, found),
    listed ? listOf(looked, listed, tickThem) : null,
    vetoes(looked),
    blocking(looked),
  ];
}
