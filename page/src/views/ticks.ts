/** A list of members with a box to tick for each, and a filter. */
import type { App } from "./app";
import { memberWords } from "../study/commandWords";
import { button, h, type Child } from "./dom";
import { listedMembers, namesChair, namesMember } from "./filter";
import { grouped } from "../study/fractions";
import { isolated, listed } from "../study/names";
import type { Place } from "../engine/standing";

/** Members that can be ticked: the elements of the list, and the members that are ticked. */
export interface Ticks {
  readonly content: Child;
  ticked(): readonly Place[];
}

/** A member of the list. */
interface Row {
  readonly member: Place;
  readonly box: HTMLInputElement;
  readonly element: HTMLElement;
}

function rowOf(id: string, member: Place, changed: () => void): Row {
  const { code, name, votes, chair, suspended } = member;
  const box = h("input", { type: "checkbox", id: `${id}-tick-${code}`, onchange: changed });
  const place = chair === null ? "in no chair" : `chair ${chair}`;
  const state = `${grouped(votes)}, ${place}${suspended ? ", suspended" : ""}`;
  const words = h("span", {}, memberWords(code, name), " ", h("span", { class: "note" }, state));
  return { member, box, element: h("li", {}, h("label", {}, box, words)) };
}

/** Whether a filter finds a member, by its code, its name, or its chair. */
function isFound(app: App, filter: string, { code, name, chair }: Place): boolean {
  const isChair = chair !== null && namesChair(filter, chair, app.shown?.counted.standing.name(chair));
  return isChair || namesMember(filter, code, name);
}

/** Members with boxes to tick; `changed` is called with those that are ticked. */
export function memberTicks(
  app: App,
  id: string,
  members: readonly Place[],
  changed: (ticked: readonly Place[]) => void,
): Ticks {
  const said = h("p", { id: `${id}-words`, class: "note", role: "status" });
  const ticked = () => rows.filter(({ box }) => box.checked).map(({ member }) => member);
  const tell = () => {
    said.textContent = `${ticked().length} of ${members.length} are ticked.`;
    changed(ticked());
  };
  const rows = members.map((it) => rowOf(id, it, tell));
  const tickShown = (isOn: boolean) => {
    for (const { box, element } of rows) if (!element.hidden) box.checked = isOn;
    tell();
  };
  const sift = () => {
    for (const { member, element } of rows) element.hidden = !isFound(app, filter.value, member);
  };
  const filter = h("input", { id: `${id}-filter`, type: "search", autocomplete: "off", oninput: sift });
  const unknown = h("p", { id: `${id}-unknown`, class: "wrong", role: "status" });
  const tickListed = () => {
    const found = listedMembers(pasted.value, members);
    for (const { member, box } of rows) box.checked = found.codes.has(member.code);
    const names = found.unknown.map((it) => `“${isolated(it)}”`);
    unknown.textContent = names.length ? `No member, or more than one, has this code or name: ${listed(names)}.` : "";
    tell();
  };
  const pasted = h("textarea", { id: `${id}-list`, rows: 2, placeholder: "XAA, XAB or names", oninput: tickListed });
  tell();
  const content = [
    h("label", { class: "choice", for: pasted.id }, h("span", {}, "Paste a list of codes or names"), pasted), unknown,
    h("label", { class: "choice", for: filter.id }, h("span", {}, "Filter members"), filter),
    h("ul", { class: "ticks", "aria-label": "Members" }, rows.map(({ element }) => element)),
    h("div", { class: "buttons" },
      button("Tick all shown", () => tickShown(true), { id: `${id}-all` }),
      button("Untick all shown", () => tickShown(false), { id: `${id}-none` }),
      said,
    ),
  ];
  return { content, ticked };
}
