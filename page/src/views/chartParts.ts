/** Parts of a chart on the page: its place, what is pointed at, and the table behind it. */
import type { App } from "./app";
import { h, type Child } from "./dom";
import { hideTip, showTip } from "./tip";

/** The place of a chart, which arrow keys go through. */
export function chartPlace(name: string): HTMLElement {
  return h("div", { class: "chart", tabindex: 0, role: "group", "aria-label": name });
}

const STEP: Readonly<Record<string, number>> = { ArrowDown: 1, ArrowRight: 1, ArrowUp: -1, ArrowLeft: -1 };

/** Shows what there is to say of a group of the chart beside the pointer, or beside the group at arrow keys. The
 * groups are those with an attribute, in the order that they are drawn in when they are pointed at. */
export function pointAt(chart: HTMLElement, attribute: string, words: (value: string) => Child): void {
  const groups = () => [...chart.querySelectorAll(`[${attribute}]`)];
  const isPointed = (it: Element) => it.classList.contains("pointed");
  const show = (group: Element, x: number, y: number) => {
    for (const it of groups()) it.classList.toggle("pointed", it === group);
    const value = group.getAttribute(attribute) ?? "";
    showTip(`${attribute} ${value}`, () => words(value), x, y);
  };
  const point = (event: PointerEvent | MouseEvent) => {
    const group = (event.target as Element).closest(`[${attribute}]`);
    if (group) show(group, event.clientX, event.clientY);
    else hideTip();
  };
  chart.addEventListener("pointermove", point);
  chart.addEventListener("click", point);
  chart.addEventListener("pointerleave", hideTip);
  chart.addEventListener("blur", hideTip);
  chart.addEventListener("keydown", (event) => {
    if (event.key === "Escape") hideTip();
    const step = STEP[event.key];
    // Where the chart is wider than its place, the keys to the left and to the right scroll it.
    const isScrolled = /Left|Right/.test(event.key) && chart.scrollWidth > chart.clientWidth;
    if (!step || isScrolled) return;
    event.preventDefault();
    const all = groups();
    const next = all[Math.min(all.length - 1, Math.max(0, all.findIndex(isPointed) + step))];
    if (!next) return;
    const { left, top } = next.getBoundingClientRect();
    show(next, left + 40, top + 8);
  });
}

/** The table of a chart, which is made once it is opened. */
export function tableBehind(app: App, make: () => HTMLElement): HTMLElement {
  const { isTableOpen } = app.open;
  const ontoggle = () => {
    if (box.open === app.open.isTableOpen) return;
    app.open.isTableOpen = box.open;
    app.repaint();
  };
  const box: HTMLDetailsElement = h("details", { id: "behind", open: isTableOpen, live: true, ontoggle },
    h("summary", {}, "The table of this chart"), isTableOpen && make());
  return box;
}
