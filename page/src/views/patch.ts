/** Painting that keeps what is the same: an element stays where the new one is like it, with its focus, its scroll, its
 * selection and what is typed in it, and only what differs is replaced. */
import { add, h, listens, type Child } from "./dom";

/** What a person or a control says of an element, which painting doesn't take away. */
const OWN = new Set(["open", "aria-invalid"]);

/** The name by which a child is found again where the order is another one. */
function keyOf(node: Node): string {
  return node instanceof HTMLElement ? node.id || (node.getAttribute("data-key") ?? "") : "";
}

/** Shows a value in a field, unless it shows it since the last time: what is typed since then stays. */
export function showValue(field: HTMLInputElement, value: string): void {
  if (field.getAttribute("value") === value) return;
  field.setAttribute("value", value);
  field.value = value;
  field.removeAttribute("aria-invalid");
  const wrong = document.getElementById(field.getAttribute("aria-describedby") ?? "");
  if (wrong) wrong.textContent = "";
}

/** Whether an element can become the new one. One with listeners can if it is equal, or if they ask for the state. */
function isAlike(old: Node, next: Node): boolean {
  if (old.nodeName !== next.nodeName || keyOf(old) !== keyOf(next)) return false;
  return listens(old) === "" && listens(next) === "" || listens(next) === "live" || old.isEqualNode(next);
}

/** Gives an element the attributes of the new one, and a control its state. */
function patchAttributes(old: Element, next: Element): void {
  for (const name of old.getAttributeNames()) {
    if (!next.hasAttribute(name) && !OWN.has(name)) old.removeAttribute(name);
  }
  for (const name of next.getAttributeNames()) {
    const value = next.getAttribute(name) ?? "";
    if (OWN.has(name) || old.getAttribute(name) === value) continue;
    if (name === "value" && old instanceof HTMLInputElement) showValue(old, value);
    else old.setAttribute(name, value);
  }
  if (old instanceof HTMLInputElement && next instanceof HTMLInputElement) old.checked = next.checked;
}

/** Makes an element into the new one. What a field says of its text is its own. */
function become(old: Node, next: Node): void {
  if (!(old instanceof Element && next instanceof Element)) {
    if (old.nodeValue !== next.nodeValue) old.nodeValue = next.nodeValue;
    return;
  }
  // Most elements have no others in them, and are the same.
  if (!(old instanceof HTMLInputElement) && !old.firstElementChild && old.isEqualNode(next)) return;
  patchAttributes(old, next);
  if (!old.classList.contains("wrong")) patchChildren(old, next);
  if (old instanceof HTMLSelectElement && next instanceof HTMLSelectElement) old.value = next.value;
}

function patchChildren(place: Element, next: ParentNode): void {
  const wanted = new Set([...next.childNodes].map(keyOf));
  const named = new Map<string, ChildNode>();
  for (const it of [...place.childNodes]) {
    const key = keyOf(it);
    if (key && wanted.has(key)) named.set(key, it);
    else if (key) it.remove();
  }
  let at = place.firstChild;
  for (const child of [...next.childNodes]) {
    const key = keyOf(child);
    const old = key ? named.get(key) : at && !keyOf(at) ? at : undefined;
    const isNext = old !== undefined && old === at;
    if (at && isNext) at = at.nextSibling;
    if (!old || !isAlike(old, child)) {
      old?.remove();
      place.insertBefore(child, at);
    } else {
      if (!isNext) place.insertBefore(old, at);
      become(old, child);
    }
  }
  while (at) {
    const after: ChildNode | null = at.nextSibling;
    at.remove();
    at = after;
  }
}

/** Gives a place new children, and keeps those that are like them. The element with the focus has it again. */
export function patch(place: Element, ...children: Child[]): void {
  const next = document.createDocumentFragment();
  const { activeElement } = document;
  const id = activeElement && place.contains(activeElement) ? activeElement.id : "";
  const box = h("div");
  add(box, children);
  next.append(...box.childNodes);
  patchChildren(place, next);
  if (id && document.activeElement?.id !== id) document.getElementById(id)?.focus({ preventScroll: true });
}
