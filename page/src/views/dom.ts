/** Elements of the page: one call makes one, with its attributes, listeners and children. */

export type Child = Node | string | number | null | false | readonly Child[];
type Value = string | number | boolean | null | undefined | ((event: never) => void);
export type Attributes = Readonly<Record<string, Value>>;

/** Marks an element that has listeners. */
const LISTENS = Symbol("listens");
type Listens = "" | "live" | "once";

/** Whether an element has listeners, and whether they are live: they ask for the state when they are called, so that
 * the element can stay while what it shows changes. */
export function listens(node: Node): Listens {
  return (node as { [LISTENS]?: Listens })[LISTENS] ?? "";
}

function setAttribute(element: Element, name: string, value: Value): void {
  if (typeof value === "function") element.addEventListener(name.slice(2), value as EventListener);
  else if (name === "value" && element instanceof HTMLInputElement) element.setAttribute(name, String(value ?? ""));
  else if (name === "value" && "value" in element) (element as HTMLSelectElement).value = String(value ?? "");
  else if (name === "checked" && element instanceof HTMLInputElement) element.checked = value === true;
  else if (value === true) element.setAttribute(name, "");
  else if (value !== false && value !== null && value !== undefined) element.setAttribute(name, String(value));
}

/** Adds children to an element. */
export function add(element: Element, children: readonly Child[]): void {
  for (const child of children) {
    if (Array.isArray(child)) add(element, child as readonly Child[]);
    else if (child !== null && child !== false) element.append(child instanceof Node ? child : String(child));
  }
}

/** An element. Attributes that begin with `on` are listeners, which are called live if the attribute `live` is set. */
export function h<Name extends keyof HTMLElementTagNameMap>(
  name: Name,
  attributes: Attributes = {},
  ...children: Child[]
): HTMLElementTagNameMap[Name] {
  const element = document.createElement(name);
  add(element, children);
  const { live, ...others } = attributes;
  for (const [key, value] of Object.entries(others)) setAttribute(element, key, value);
  const hasListeners = Object.values(others).some((it) => typeof it === "function");
  if (hasListeners) Object.assign(element, { [LISTENS]: live === true ? "live" : "once" });
  return element;
}

const SVG = "http://www.w3.org/2000/svg";

/** An element of a drawing. */
export function svg(name: string, attributes: Attributes = {}, ...children: Child[]): SVGElement {
  const element = document.createElementNS(SVG, name);
  add(element, children);
  for (const [key, value] of Object.entries(attributes)) setAttribute(element, key, value);
  return element;
}

/** An icon of 16 by 16, drawn as lines. */
export function icon(path: string): SVGElement {
  return svg("svg", { class: "icon", viewBox: "0 0 16 16", "aria-hidden": "true" }, svg("path", { d: path }));
}

/** Replaces the children of a place. The element that had the focus has it again, found by its id. */
export function paint(place: Element, ...children: Child[]): void {
  const { activeElement } = document;
  const id = activeElement && place.contains(activeElement) ? activeElement.id : "";
  place.replaceChildren();
  add(place, children);
  if (id) document.getElementById(id)?.focus({ preventScroll: true });
}

/** The element of the page with an id. */
export function byId<Kind extends HTMLElement = HTMLElement>(id: string): Kind {
  const found = document.getElementById(id);
  if (!found) throw new Error(`the page has no #${id}`);
  return found as Kind;
}

/** A list of choices with a label. What is done with a choice asks for the state when it is called. */
export function choice(
  id: string,
  label: string,
  options: readonly (readonly [string, string])[],
  value: string,
  choose: (value: string) => void,
): HTMLLabelElement {
  const items = options.map(([key, text]) => h("option", { value: key, selected: key === value }, text));
  const list: HTMLSelectElement = h("select", { id, live: true, onchange: () => choose(list.value) }, ...items);
  return h("label", { class: "choice", for: id }, h("span", {}, label), list);
}

/** A button with words. */
export function button(words: string, act: () => void, attributes: Attributes = {}): HTMLButtonElement {
  return h("button", { type: "button", onclick: act, ...attributes }, words);
}

/** Has the browser save a file. */
export function save(name: string, content: Blob): void {
  const url = URL.createObjectURL(content);
  const link = h("a", { href: url, download: name });
  document.body.append(link);
  link.click();
  link.remove();
  setTimeout(() => URL.revokeObjectURL(url), 60_000);
}
