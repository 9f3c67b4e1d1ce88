/** The dialog of single moves: the best ones for a chair, or those of all that change any chair most. */
import type { App, Shown } from "./app";
import { changeOf, ranked } from "../engine/best";
import { MEASURE_NAMES } from "../cited";
import { openDialog } from "./dialogs";
import { button, choice, h, paint, type Child } from "./dom";
import { grouped } from "../study/fractions";
import type { Tried } from "../engine/orders";
import type { Report } from "../engine/pool";
import { chairChoices, type Place, type Standing } from "../engine/standing";
import { MAJORITY, MEASURE, type Majority } from "../study/words";
import { movesToAny, movesToChair } from "./bestTables";
import { LongWork } from "./longWork";

/** The moves to any chair that are shown. */
const MOST_SHOWN = 50;

/** What is asked for: moves to a chair, or with null to each chair, at a majority. They empty no chair, unless they
 * may: an emptied chair changes more than any other move. */
interface Asked {
  readonly chair: number | null;
  readonly majority: Majority;
  readonly mayEmpty: boolean;
}

/** The members that can be moved, the chairs that they are moved to, and how many moves these are. */
function movesOf(standing: Standing, asked: Asked): { codes: string[]; chairs: readonly number[]; many: number } {
  const { chair, mayEmpty } = asked;
  const chairs = chair === null ? standing.open() : [chair];
  const isAlone = (it: Place) => it.chair !== null && standing.in(it.chair).length === 1;
  const members = standing.members().filter((it) => !it.suspended && (mayEmpty || !isAlone(it)));
  const many = members.reduce((sum, it) => sum + chairs.filter((to) => to !== it.chair).length, 0);
  return { codes: members.map((it) => it.code), chairs, many };
}

/** What was counted: in which time, moves without a value, and which moves the table has. */
function wordsOf(app: App, { chair, majority }: Asked, tried: readonly Tried[], many: number, time: number): string {
  const missing = many - tried.length;
  const counted = `${grouped(many)} moves were counted in ${time.toFixed(0)} ms.`;
  const why = "have no gain, since no coalition wins before or after";
  const without = missing ? ` Of these, ${grouped(missing)} ${why}.` : "";
  const shown = Math.min(MOST_SHOWN, tried.length);
  const about = `${MEASURE_NAMES[app.view.measure]}, ${MAJORITY[majority].label}`;
  const first = chair === null ? ` The ${shown} with the greatest gain or loss of any chair, by ${about}:` : "";
  return counted + without + first;
}

/** The request, and the place of the answer. */
function form(app: App, { study, counted }: Shown, close: () => void, work: LongWork): Child {
  const { standing } = counted;
  const open = standing.open();
  let asked: Asked = { chair: open[0] ?? 0, majority: app.view.orderAt, mayEmpty: false };
  const place = h("div", {});
  const said = h("p", { id: "best-words", role: "status" });
  const act = () => {
    const now = asked;
    const { many, ...moves } = movesOf(standing, now);
    const ask = { ...moves, majority: now.majority, measure: app.view.measure };
    const begin = (report: Report) => app.counter.best(study.base, study.changes, ask, report);
    const show = (all: readonly Tried[], time: number) => {
      said.textContent = wordsOf(app, now, all, many, time);
      const tried = now.chair === null ? ranked(all, changeOf).slice(0, MOST_SHOWN) : ranked(all, (it) => it.gain);
      const found = { app, standing, tried, close };
      paint(place, now.chair === null ? movesToAny(found) : movesToChair(found, now.chair));
    };
    paint(place);
    void work.run("All moves are being counted.", begin, show, said);
  };
  const chairs = chairChoices(standing);
  const majorities = app.view.majorities.map((it) => [it, MAJORITY[it].label] as const);
  const setMajority = (text: string) => {
    asked = { ...asked, majority: app.view.majorities.find((it) => it === text) ?? asked.majority };
  };
  const empties: HTMLInputElement = h("input", {
    type: "checkbox", id: "best-empty", onchange: () => (asked = { ...asked, mayEmpty: empties.checked }),
  });
  return [
    h("div", { class: "choices" },
      choice("best-chair", "To", [...chairs, ["any", "any chair"]], String(asked.chair), (it) => {
        asked = { ...asked, chair: it === "any" ? null : Number(it) };
      }),
      choice("best-at", "at", majorities, asked.majority, setMajority),
      h("label", {}, empties, "also moves that empty a chair"),
      button("Try all members", act, { id: "best-run" }),
    ),
    said,
    place,
  ];
}

/** Opens the dialog. */
export function openBest(app: App): void {
  const { shown } = app;
  if (!shown) return;
  const words =
    "Each member that isn't suspended is moved to the chair, or to each other open chair, on the changed board, and " +
    `the register counts. The measure is the one chosen above the chart: ${MEASURE[app.view.measure].label}.`;
  const work = new LongWork(app);
  const dialog = openDialog(
    "best",
    "The best single move",
    (close) => [h("p", { class: "note" }, words), form(app, shown, close, work)],
    () => work.end(),
  );
  dialog.classList.add("wide");
}
