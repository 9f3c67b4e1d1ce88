/** The tables of single moves: those to one chair, and those that change any chair most. */
import type { App } from "./app";
import { gainText, gainUnit, gainWords, valueText } from "../engine/compare";
import { chairWords, memberWords } from "../study/commandWords";
import { button, h, type Child } from "./dom";
import { fractionText, grouped } from "../study/fractions";
import { isolated } from "../study/names";
import { moveTo } from "./moves";
import type { Extreme, Tried } from "../engine/orders";
import { chairsWords } from "../engine/said";
import type { Place, Standing } from "../engine/standing";
import { MEASURE } from "../study/words";

/** A tried move, and its member. */
interface Row extends Tried {
  readonly member: Place;
}

/** What a table needs: the page, the board before the moves, the moves in order, and what closes the dialog. */
export interface Moves {
  readonly app: App;
  readonly standing: Standing;
  readonly tried: readonly Tried[];
  close(): void;
}

const TEXTS = ["Member", "From", "To", "Gains most", "Loses most"];

/** A row: its place, its member and where it sits, some cells, and a button that adds the move to the changes. */
function rowOf({ app, close }: Moves, { member, chair }: Row, at: number, ...cells: Child[]): HTMLElement {
  const words = memberWords(member.code, member.name);
  const act = () => {
    close();
    void moveTo(app, member.code, String(chair));
  };
  return h("tr", { "data-code": member.code, "data-chair": chair },
    h("th", { scope: "row" }, String(at + 1)),
    h("td", { class: "text" }, words),
    h("td", { class: "text" }, chairWords(member.chair)),
    cells,
    h("td", {}, button("Take", act, { "aria-label": `Take: ${words} to chair ${chair}` })),
  );
}

/** A heading of a column; those of texts are on their left. */
function headOf(words: string): HTMLElement {
  return words ? h("th", { scope: "col", class: TEXTS.includes(words) ? "text" : null }, words) : h("td", {});
}

/** Gives the cells of a row their headings, which a narrow screen shows in front of them. */
function labelled(row: HTMLElement, heads: readonly string[]): HTMLElement {
  [...row.children].forEach((it, at) => heads[at] && it.setAttribute("data-head", heads[at] ?? ""));
  return row;
}

function tableOf(moves: Moves, words: string, more: readonly string[], cells: (row: Row) => Child[]): HTMLElement {
  const rows = moves.tried.flatMap((it): Row[] => {
    const member = moves.standing.place(it.code);
    return member ? [{ ...it, member }] : [];
  });
  const heads = ["", "Member", "From", ...more, ""];
  return h("div", { class: "scroll preview", tabindex: 0, role: "region", "aria-label": words },
    h("table", { id: "best-table" },
      h("thead", {}, h("tr", {}, heads.map(headOf))),
      h("tbody", {}, rows.map((it, at) => labelled(rowOf(moves, it, at, ...cells(it)), heads))),
    ),
  );
}

/** The moves to a chair, with the chair's measure after each. */
export function movesToChair(moves: Moves, chair: number): HTMLElement {
  const { measure, digits } = moves.app.view;
  const heads = ["Votes", MEASURE[measure].label, `Added${gainUnit(measure, ", ")}`];
  return tableOf(moves, `Moves to chair ${chair}`, heads, ({ member, value, gain }) => [
    h("td", {}, grouped(member.votes)),
    h("td", { title: fractionText(value) }, valueText(value, measure, digits)),
    h("td", { title: fractionText(gain) }, gainText(gain, measure, digits)),
  ]);
}

/** The moves of any member to any chair, with the chairs that gain and lose most by each. */
export function movesToAny(moves: Moves): HTMLElement {
  const { measure, digits } = moves.app.view;
  const { standing } = moves;
  const cell = (found: Extreme | null) => {
    if (!found) return h("td", { class: "text" }, "nobody");
    const who = chairsWords(found.chairs.map((chair) => ({ chair, name: standing.name(chair) })));
    return h("td", { class: "text", title: `made here: ${fractionText(found.gain)}` },
      `${who} (${gainWords(found.gain, measure, digits)})`,
    );
  };
  const heads = ["To", "Gains most", "Loses most"];
  return tableOf(moves, "Moves that change a chair most", heads, ({ chair, most, least }) => [
    h("td", { class: "text" }, `${chair} ${isolated(standing.name(chair))}`),
    cell(most),
    cell(least),
  ]);
}
