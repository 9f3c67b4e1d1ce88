/** The table of chairs on the page: decimals or fractions, with groups of columns and a row of sums. */
import type { App } from "./app";
import { chairCells, shownCell, type Head } from "../exports/chairCells";
import type { Columns, Line } from "../engine/columns";
import type { ChairRow } from "../engine/compare";
import { button, h, type Child } from "./dom";
import type { View } from "../study/study";
import { isOrder, lastRow, sorter, tagElements } from "./rows";
import { MEASURE } from "../study/words";

export const KIND_WORDS: Readonly<Record<ChairRow["kind"], string>> = {
  kept: "", opened: " (new)", closed: " (closed)",
};

/** The exact fractions of a row in words. Each decimal has its unit, so the headings are those of fractions. */
export function rowWords(line: Line, columns: Columns, view: View): Child[] {
  const { heads, lines } = chairCells({ ...columns, lines: [line] }, { ...view, fractions: true, hidden: [] });
  return (lines[0]?.cells ?? []).map(({ decimal, unit, fraction, source }, at) => {
    const words = `${heads[at]?.words}: ${decimal}${unit} = ${fraction} (${source})`;
    return decimal ? h("li", { title: source }, words) : null;
  });
}

/** A column's heading, which orders the chairs if it can. */
function headCell(app: App, { own, words, mark, order }: Head, kind: string | null): HTMLElement {
  const isNumber = order?.[0] === "number";
  const sorts = order && { order: order[0], at: order[1], words: own, name: words, kind: isNumber ? "chair-head" : "" };
  const sort = sorts && isOrder(app.view, sorts) ? (isNumber ? "ascending" : "descending") : null;
  const attributes = { scope: "col", title: mark, class: kind, "aria-label": words, "aria-sort": sort };
  return h("th", attributes, sorts ? sorter(app, sorts, "head") : own);
}

/** The headings in two rows: the groups, and the columns in each. */
function headRows(app: App, heads: readonly Head[]): HTMLElement[] {
  const groups: { words: string; many: number }[] = [];
  for (const { group } of heads) {
    const last = groups[groups.length - 1];
    if (last?.words === group) last.many += 1;
    else groups.push({ words: group, many: 1 });
  }
  const own = heads.map((it) => headCell(app, it, null));
  const chair: Head = { group: "", own: "Chair", words: "number", mark: "given", order: ["number", null] };
  return [
    h("tr", { class: "groups" }, h("td", { colspan: 2 }),
      groups.map((it) => h("th", { scope: "colgroup", colspan: it.many }, it.words))),
    h("tr", {}, headCell(app, chair, "text"), h("th", { scope: "col", class: "text" }, "Name"), own),
  ];
}

const NOTE =
  "Power and votes are counted; shares of votes, ratios, sums and what is added are made here. Each number is " +
  "rounded alone.";

/** The table's element. */
export function chairTable(app: App, columns: Columns): HTMLElement {
  const { view } = app;
  const { heads, lines, sums } = chairCells(columns, view);
  const name = `${MEASURE[view.measure].label} and votes of each chair`;
  const firsts = heads.map(({ group }, at) => (group === heads[at - 1]?.group ? null : "first"));
  const rows = lines.map(({ line, cells }) =>
    h("tr", { "data-chair": line.chair, "data-kind": line.kind },
      h("th", { scope: "row" }, String(line.chair)),
      h("td", { class: "text" }, h("bdi", {}, line.name), KIND_WORDS[line.kind], tagElements(lastRow(line))),
      cells.map((it, at) => h("td", { title: `${it.fraction} (${it.source})`, class: firsts[at] },
        shownCell(it, view).replace(/^-(?=\d)/, "−"))),
    ),
  );
  const totals = sums.map((it) =>
    h("td", it ? { title: `${it.fraction} (${it.source})` } : {}, it && shownCell(it, view)));
  const words = view.fractions ? "Show decimals" : "Show fractions";
  const turn = () => app.look({ fractions: !app.view.fractions });
  return h("div", { class: "table" },
    h("div", { class: "scroll", tabindex: 0, role: "region", "aria-label": name },
      h("table", { id: "chair-table" },
        h("caption", { class: "unseen" }, name),
        h("thead", {}, headRows(app, heads)),
        h("tbody", {}, rows),
        h("tfoot", {}, h("tr", {}, h("th", { scope: "row" }), h("td", { class: "text" }, "All chairs"), totals)),
      ),
    ),
    h("div", { class: "buttons" }, button(words, turn, { id: "toggle-fractions", live: true }),
      h("span", { class: "note" }, NOTE)),
  );
}
