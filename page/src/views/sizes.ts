/** The winning coalitions by their number of chairs: the chart's place, readout and table, and the check of sums. */
import type { Look } from "../charts/charts";
import { drawSizes } from "../charts/sizesChart";
import { h, type Child } from "./dom";
import { counted, fractionText, grouped, percent } from "../study/fractions";
import type { Reading } from "../engine/reading";
import { blockingOfSize, checkWords, shareOfSize, sizesModel, type SizesModel } from "../engine/sizes";
import { MAJORITY, type Majority } from "../study/words";
import { chartPlace, pointAt, tableBehind } from "./chartParts";
import { lookedAt, type Looked } from "./coalitionParts";

const NOTE =
  "How many coalitions of each number of chairs win, and how many there are, made here. The winning ones of all " +
  "numbers of chairs are added up, and the register counts them on its own. A coalition can block if the other " +
  "chairs lose: of k of n chairs, as many block as there are, less the winning ones of n\u00a0\u2212\u00a0k chairs.";

function modelOf({ shown }: Looked): SizesModel {
  return sizesModel(shown.counted.after);
}

function checks(looked: Looked): ReturnType<typeof checkWords>[] {
  const { winning } = modelOf(looked);
  return looked.readings.map((it) => checkWords(it, winning.get(it.majority) ?? []));
}

/** The sums that aren't what the register counts. */
export function failures(looked: Looked): Child {
  const failed = checks(looked).filter((it) => !it.holds);
  return failed.map((it) => h("p", { class: "alarm", role: "alert" }, it.words));
}

function shareText(model: SizesModel, majority: Majority, size: number, digits: number): string {
  const share = shareOfSize(model, majority, size);
  return share ? `${percent(share, digits)} %` : "-";
}

/** A size in words. */
function sizeWords({ app: { view }, readings }: Looked, model: SizesModel, size: number): Child {
  const items = readings.map(({ majority }) => {
    const winning = grouped(model.winning.get(majority)?.[size] ?? 0);
    const share = shareText(model, majority, size, view.digits);
    const block = grouped(blockingOfSize(model, majority, size));
    return h("li", {}, `${MAJORITY[majority].label}: ${winning} win, ${share}; ${block} can block (made here)`);
  });
  const many = counted(model.all[size] ?? 0, "coalition");
  return [h("strong", {}, `${counted(size, "chair")}: ${many}`), h("ul", {}, items)];
}

function sizeRow({ app: { view }, readings }: Looked, model: SizesModel, size: number): HTMLElement {
  const cells = readings.flatMap(({ majority }) => {
    const title = `${fractionText(shareOfSize(model, majority, size))} (made here)`;
    return [
      h("td", {}, grouped(model.winning.get(majority)?.[size] ?? 0)),
      h("td", { title }, shareText(model, majority, size, view.digits)),
      h("td", {}, grouped(blockingOfSize(model, majority, size))),
    ];
  });
  return h("tr", { "data-size": size }, h("th", { scope: "row" }, String(size)),
    h("td", {}, grouped(model.all[size] ?? 0)), cells);
}

/** The last rows: the sums over all sizes, and what the register counts. As many block as lose: all but the winning. */
function footOf({ readings }: Looked, model: SizesModel): HTMLElement[] {
  const cells = (winning: number, all: number) => [winning, null, all - winning].map((it) =>
    h("td", {}, it === null ? "" : grouped(it)),
  );
  const sum = (some: readonly number[]) => some.reduce((total, it) => total + it, 0);
  const row = (words: string, mark: string, all: number, winning: (it: Reading) => number) =>
    h("tr", {},
      h("th", { scope: "row", "data-mark": mark }, words),
      h("td", {}, grouped(all)),
      readings.map((it) => cells(winning(it), all)),
    );
  return [
    row("Sum", "made here", sum(model.all), (it) => sum(model.winning.get(it.majority) ?? [])),
    row("All", "counted", readings[0]?.coalitions ?? 0, (it) => it.winning),
  ];
}

function tableOf(looked: Looked, model: SizesModel): HTMLElement {
  const words = `Winning and blocking coalitions by number of chairs, ${looked.board}`;
  const heads = looked.readings.flatMap(({ majority }) => [
    `Winning, ${MAJORITY[majority].label}`, `Share, ${MAJORITY[majority].label}`,
    `Can block, ${MAJORITY[majority].label}`,
  ]);
  const columns = ["Coalitions", ...heads].map((it) => h("th", { scope: "col" }, it));
  return h("div", { class: "scroll", tabindex: 0, role: "region", "aria-label": words },
    h("table", { id: "size-table" },
      h("caption", {}, `${words} (made here)`),
      h("thead", {}, h("tr", {}, h("th", { scope: "col" }, "Chairs"), columns)),
      h("tbody", {}, model.all.map((_, size) => sizeRow(looked, model, size))),
      h("tfoot", {}, footOf(looked, model)),
    ),
  );
}

/** The part of the tab with the winning coalitions by size. */
export function sizesPart(looked: Looked, look: Look): Child {
  const { app } = looked;
  const model = modelOf(looked);
  const chart = chartPlace("Chart of the numbers of chairs; arrow keys go through them");
  pointAt(chart, "data-size", (size) => {
    const now = lookedAt(app);
    return now && sizeWords(now, modelOf(now), Number(size));
  });
  drawSizes(chart, model, look);
  const said = checks(looked).map((it) => h("li", { class: it.holds ? "" : "alarm" }, it.words));
  return [
    h("h3", {}, "Winning and blocking coalitions by number of chairs"),
    h("p", { class: "note" }, NOTE),
    h("ul", { id: "size-checks" }, said),
    chart,
    tableBehind(app, () => tableOf(looked, model)),
  ];
}
