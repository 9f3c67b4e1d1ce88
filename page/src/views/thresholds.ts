/** The dialog of thresholds: from how many votes a chair has a veto, carries everything alone, and so on. */
import type { App, Shown } from "./app";
import { copy } from "../exports/clipboard";
import type { Thresholds, ThresholdsAsked } from "../engine/count";
import { openDialog } from "./dialogs";
import { button, choice, h, paint, type Child } from "./dom";
import { percentage, wholeNumber, type Typed } from "../study/amounts";
import { MEASURE_NAMES } from "../cited";
import { readField } from "./field";
import { fractionText, grouped, percent } from "../study/fractions";
import type { Power } from "../engine/orders";
import { firstLines, provenanceOf } from "../study/provenance";
import type { SweepAsked, Who } from "../study/study";
import { aboutWords, thresholdRows, thresholdsText, whoWords, type ThresholdRow } from "../engine/thresholdModel";
import { MAJORITY, type Majority } from "../study/words";
import { LongWork } from "./longWork";
import { scriptDetails } from "./scriptDetails";
import { chairOptions, standingOn, whoKey, whoOf, whoOptions, whoThere } from "./who";

const HEADS = ["From votes", "Not at", "Share of the total", "Compared with now"];

function rowElement(row: ThresholdRow, digits: number): HTMLElement {
  const { majority, what, words, votes, share, distance, short } = row;
  const head = h("th", { scope: "row", class: "text" }, words);
  const cells = votes === null || !share
    ? h("td", { class: "text", colspan: HEADS.length }, short)
    : [
      h("td", {}, grouped(votes)),
      h("td", {}, grouped(votes - 1)),
      h("td", { title: fractionText(share) }, `${percent(share, digits)} %`),
      h("td", {}, distance),
    ];
  return h("tr", { "data-majority": majority, "data-what": what }, head, cells);
}

/** The rows of a majority, below its name. */
function majorityRows(majority: Majority, rows: readonly ThresholdRow[], digits: number): HTMLElement {
  const head = h("th", { scope: "rowgroup", class: "text", colspan: 1 + HEADS.length }, MAJORITY[majority].label);
  const own = rows.filter((it) => it.majority === majority);
  return h("tbody", {}, h("tr", {}, head), own.map((it) => rowElement(it, digits)));
}

function tableOf(app: App, all: Thresholds): HTMLElement {
  const { digits } = app.view;
  const rows = thresholdRows(all, digits);
  const majorities = [...new Set(rows.map((it) => it.majority))];
  const words = `Thresholds of ${whoWords(all.asked, all.standing)}`;
  const heads = HEADS.map((it) => h("th", { scope: "col" }, it));
  return h("div", { class: "scroll preview", tabindex: 0, role: "region", "aria-label": words },
    h("table", { id: "find-table" },
      h("caption", {}, `${words} (made here)`),
      h("thead", {}, h("tr", {}, h("th", { scope: "col", class: "text" }, `Chair ${all.found.chair}`), heads)),
      majorities.map((it) => majorityRows(it, rows, digits)),
    ),
  );
}

/** The thresholds as a text with its source: the hashes of the script and its lines, and the version. */
async function textOf(app: App, shown: Shown, all: Thresholds): Promise<string> {
  const source = { of: `thresholds of ${whoWords(all.asked, all.standing)}`, script: all.script };
  return thresholdsText(all, app.view.digits, firstLines(await provenanceOf(app, shown, [source])));
}

/** The thresholds as sentences, which a narrow screen shows in place of the table. */
function sentencesOf(app: App, all: Thresholds): HTMLElement {
  const items = thresholdRows(all, app.view.digits).map((it) => h("li", {}, it.sentence));
  return h("ul", { id: "find-sentences" }, items);
}

function answer(app: App, shown: Shown, all: Thresholds, said: HTMLElement): Child {
  const copied = async () => {
    await copy(textOf(app, shown, all));
    said.textContent = "The thresholds are on the clipboard, with their source.";
  };
  const act = () => void copied().catch((why: unknown) => (said.textContent = String(why)));
  return [
    h("p", { id: "find-about" }, aboutWords(all)),
    tableOf(app, all),
    sentencesOf(app, all),
    h("div", { class: "buttons" }, button("Copy as text", act, { id: "find-copy" })),
    scriptDetails("find-script", "these thresholds", () => all.script),
  ];
}

/** What is asked for, as the boards and their chairs allow it. */
function possible(shown: Shown, { who, on, other, power }: ThresholdsAsked): ThresholdsAsked {
  const standing = standingOn(shown, on);
  const there = whoThere(standing, who);
  const own = there.kind === "chair" ? there.chair : standing.place(there.code)?.chair;
  const isOther = other !== null && other !== own && standing.open().includes(other);
  return { who: there, on, other: isOther ? other : null, power };
}

/** Reads a power of the measure that the page shows: shares in per cent, swings whole, and other measures up to 1. */
function readPower(measure: Power["measure"], text: string): Typed<Power | null> {
  if (!text.trim()) return { value: null };
  const found = measure === "swings" ? wholeNumber(text, 2 ** 31) : percentage(text, "share");
  if ("wrong" in found) return found;
  const least = String(found.value);
  const most = measure === "share" ? 100 : measure === "swings" ? 2 ** 31 : 1;
  const words = `There is no ${MEASURE_NAMES[measure]} above ${most}${measure === "share" ? " %" : ""}.`;
  return Number(least) > most ? { wrong: words } : { value: Number(least) ? { measure, least } : null };
}

/** The field of a power, which is read when it is left, or at Enter. No answer stands under one that isn't read. */
function powerField(measure: Power["measure"], power: Power | null, set: Sets): Child {
  const take = () => {
    const found = readPower(measure, field.input.value);
    field.check();
    set("value" in found ? { power: found.value } : null);
  };
  const read = (text: string) => readPower(measure, text);
  const words = measure === "swings" ? "at least" : `a ${MEASURE_NAMES[measure]} of at least`;
  const attributes = { class: "short", inputmode: "decimal", value: power?.least ?? "", onchange: take };
  const field = readField("find-power", words, read, attributes);
  const unit = measure === "share" ? "per cent" : measure === "swings" ? "swings" : "";
  return [h("span", { class: "choice" }, field.label, field.input, unit), field.wrong];
}

/** Takes a part of what is asked for, or with null what can't be asked. */
type Sets = (part: Partial<ThresholdsAsked> | null) => void;

/** The fields of what is asked for. */
function fields(
  { view }: App,
  shown: Shown,
  { who, on, other, power }: ThresholdsAsked,
  set: Sets,
): Child {
  const standing = standingOn(shown, on);
  const own = who.kind === "chair" ? who.chair : standing.place(who.code)?.chair;
  const others = chairOptions(standing).filter(([key]) => key !== String(own));
  const boards: [string, string][] = [["base", "the base"], ["changed", "the changed board"]];
  return [
    choice("find-who", "Vary the votes of", whoOptions(standing), whoKey(who), (it) => set({ who: whoOf(it) })),
    choice("find-on", "on", boards, on, (it) => set({ on: it === "base" ? "base" : "changed" })),
    choice("find-other", "more swings than", [["", "no other chair"], ...others], String(other ?? ""), (it) =>
      set({ other: it ? Number(it) : null }),
    ),
    powerField(view.measure === "ratio" ? "share" : view.measure, power, set),
  ];
}

/** The choices, and the answer, which is found at once and again after each choice. */
function content(app: App, shown: Shown, first: ThresholdsAsked, work: LongWork): Child {
  let asked = possible(shown, first);
  const form = h("div", { class: "choices" });
  const said = h("p", { id: "find-words", role: "status" });
  const place = h("div", {});
  const show = (all: Thresholds, milliseconds: number) => {
    said.textContent = `${all.questions.length} thresholds were found in ${milliseconds.toFixed(0)} ms.`;
    paint(place, answer(app, shown, all, said));
  };
  const find = () => {
    paint(place);
    const begin = (report: (done: number) => void) =>
      app.counter.thresholds(shown.counted, shown.study.changes, asked, report);
    void work.run("Thresholds are being found.", begin, show, said);
  };
  const set: Sets = (part) => {
    if (!part) return paint(place);
    asked = possible(shown, { ...asked, ...part });
    paint(form, fields(app, shown, asked, set), again);
    find();
  };
  const again = button("Find again", find, { id: "find-run" });
  set({});
  return [form, said, place];
}

const WORDS =
  "Each threshold is exact among all numbers of votes that a member may have: the register counts on both sides of " +
  "it. A share of power may fall while votes grow; then it is first had from some votes on, and always from others.";

/** Opens the dialog, which finds the thresholds of a member or a chair; without a board, on the one that is shown. */
export function openThresholds(app: App, who: Who, on?: SweepAsked["on"]): void {
  const { shown } = app;
  if (!shown) return;
  const board = on ?? (shown.counted.isChanged ? "changed" : "base");
  const work = new LongWork(app);
  const dialog = openDialog(
    "find",
    "Find thresholds",
    () => [h("p", { class: "note" }, WORDS), content(app, shown, { who, on: board, other: null, power: null }, work)],
    () => work.end(),
  );
  dialog.classList.add("wide");
}
