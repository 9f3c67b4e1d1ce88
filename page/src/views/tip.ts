/** The tooltip of charts: a small box beside the pointer or the focus. Nothing on the page moves for it. */
import { h, type Child } from "./dom";
import { patch } from "./patch";

const ID = "readout";
/** The distance from the pointer, and from the window's edges. */
const [AWAY, EDGE] = [16, 8] as const;

/** Where a box of some size is put: beside a point, on its other side if there is no room. */
function side(at: number, size: number, most: number): number {
  const after = at + AWAY;
  return after + size + EDGE <= most ? after : Math.max(EDGE, at - AWAY - size);
}

/** Shows what there is to say of a thing beside a point of the window. It is made once for each thing. */
export function showTip(thing: string, words: () => Child, x: number, y: number): void {
  const box = document.getElementById(ID) ?? h("div", { id: ID, class: "tip", role: "tooltip", hidden: true });
  if (!box.isConnected) document.body.append(box);
  if (box.hidden || box.dataset["thing"] !== thing) patch(box, words());
  box.dataset["thing"] = thing;
  box.hidden = false;
  box.style.left = `${side(x, box.offsetWidth, innerWidth)}px`;
  box.style.top = `${side(y, box.offsetHeight, innerHeight)}px`;
}

export function hideTip(): void {
  const box = document.getElementById(ID);
  if (box) box.hidden = true;
}
