/** Dragging a member to a card by mouse, pen or finger. */
import type { App } from "./app";
import { byId, h } from "./dom";
import { moveTo, say, who } from "./moves";

/** The pixels that a pointer moves before its press is a drag. */
const SLOP = 5;
/** The milliseconds that a finger rests before its touch is a drag. */
const HOLD = 350;
/** The height of the edges at which the list scrolls, and the most pixels that it scrolls in a frame. */
const EDGE = 48;
const FASTEST = 16;

/** Marks the card under the pointer, or none. */
export function aim(card: Element | null): void {
  for (const other of document.querySelectorAll(".card.aimed")) if (other !== card) other.classList.remove("aimed");
  card?.classList.add("aimed");
}

/** The card under a point of the window. */
function cardAt(x: number, y: number): HTMLElement | null {
  return document.elementFromPoint(x, y)?.closest<HTMLElement>(".card") ?? null;
}

/** Keeps the click that follows a drag from opening a menu. */
function swallowClick(): void {
  const stop = (event: Event) => {
    event.stopPropagation();
    event.preventDefault();
  };
  addEventListener("click", stop, { capture: true, once: true });
  setTimeout(() => removeEventListener("click", stop, true));
}

/** Scrolls the window if a point is near its upper edge, or its lower one above a phone's bar. */
function scrollAtEdge(y: number): void {
  const bar = document.querySelector<HTMLElement>(".sheets")?.offsetHeight ?? 0;
  const above = Math.max(0, EDGE - y);
  const below = Math.max(0, y - (innerHeight - bar - EDGE));
  const by = Math.round((FASTEST * Math.min(EDGE, Math.max(above, below))) / EDGE);
  if (by) document.documentElement.scrollTop += above > 0 ? -by : by;
}

/** A press on a member, which may become a drag. */
interface Press {
  readonly chip: HTMLElement;
  readonly code: string;
  readonly pointer: number;
  readonly isTouch: boolean;
  readonly x: number;
  readonly y: number;
}

/** The drag of a list of cards. */
class Drag {
  #press: Press | null = null;
  #ghost: HTMLElement | null = null;
  #hold = 0;
  #point = { x: 0, y: 0 };

  constructor(private readonly app: App, private readonly list: HTMLElement) {}

  get isPressed(): boolean {
    return this.#press !== null;
  }

  get isDragging(): boolean {
    return this.#ghost !== null;
  }

  press(event: PointerEvent): void {
    const chip = (event.target as Element).closest<HTMLElement>(".chip");
    if (!chip || event.button !== 0 || !event.isPrimary) return;
    // A pen scrolls like a finger.
    const [isTouch, code] = [event.pointerType !== "mouse", chip.dataset["code"] ?? ""];
    this.#press = { chip, code, pointer: event.pointerId, isTouch, x: event.clientX, y: event.clientY };
    this.#point = { x: event.clientX, y: event.clientY };
    if (isTouch) this.#hold = setTimeout(() => this.#begin(), HOLD);
  }

  move(event: PointerEvent): void {
    const press = this.#press;
    if (!press || event.pointerId !== press.pointer) return;
    // The button was released outside of the list.
    if (event.buttons === 0) return this.cancel();
    this.#point = { x: event.clientX, y: event.clientY };
    if (this.#ghost) return this.#show();
    const [across, down] = [Math.abs(event.clientX - press.x), Math.abs(event.clientY - press.y)];
    if (Math.max(across, down) <= (press.isTouch ? 2 * SLOP : SLOP)) return;
    // A finger that moves up or down at once scrolls the list.
    if (press.isTouch && across <= down) this.#rest();
    else this.#begin();
  }

  drop(event: PointerEvent): void {
    const press = this.#press;
    if (!press || event.pointerId !== press.pointer) return;
    const isDrag = this.isDragging;
    const place = isDrag ? cardAt(event.clientX, event.clientY)?.dataset["place"] : undefined;
    this.#rest();
    if (!isDrag) return;
    swallowClick();
    if (place) void moveTo(this.app, press.code, place);
    else say(`${who(this.app, press.code)} stays where it was.`);
  }

  /** Ends a drag without a drop. */
  cancel(): void {
    const [code, isDrag] = [this.#press?.code, this.isDragging];
    this.#rest();
    if (isDrag) say(`${who(this.app, code ?? "")} stays where it was.`);
  }

  #begin(): void {
    clearTimeout(this.#hold);
    if (!this.#press || this.#ghost) return;
    const copies = [...this.#press.chip.cloneNode(true).childNodes];
    this.#ghost = h("div", { class: "ghost", "aria-hidden": "true" }, copies);
    document.body.append(this.#ghost);
    document.body.classList.add("dragging");
    // The list stays while its cards are painted again.
    this.list.setPointerCapture(this.#press.pointer);
    this.#show();
    requestAnimationFrame(this.#scroll);
  }

  #show(): void {
    const { x, y } = this.#point;
    if (this.#ghost) this.#ghost.style.transform = `translate(${x + 8}px,${y + 8}px)`;
    aim(cardAt(x, y));
  }

  readonly #scroll = (): void => {
    if (!this.#ghost) return;
    scrollAtEdge(this.#point.y);
    this.#show();
    requestAnimationFrame(this.#scroll);
  };

  /** No member is pressed or dragged. */
  #rest(): void {
    clearTimeout(this.#hold);
    this.#press = null;
    if (!this.#ghost) return;
    this.#ghost.remove();
    this.#ghost = null;
    document.body.classList.remove("dragging");
    aim(null);
  }
}

/** Lets the members of all cards be dragged. */
export function pointerDrag(app: App): void {
  const list = byId("cards");
  const drag = new Drag(app, list);
  list.addEventListener("pointerdown", (event) => drag.press(event));
  list.addEventListener("pointermove", (event) => drag.move(event));
  list.addEventListener("pointerup", (event) => drag.drop(event));
  list.addEventListener("pointercancel", () => drag.cancel());
  // A finger's chip loses it to the list where a drag begins.
  list.addEventListener("lostpointercapture", (event) => event.target === list && drag.cancel());
  // A finger that drags doesn't scroll, and one that rests opens no menu of the browser.
  list.addEventListener("touchmove", (event) => drag.isDragging && event.preventDefault(), { passive: false });
  list.addEventListener("contextmenu", (event) => drag.isPressed && event.preventDefault());
  addEventListener("keydown", (event) => {
    if (event.key !== "Escape" || !drag.isDragging) return;
    event.preventDefault();
    event.stopImmediatePropagation();
    drag.cancel();
    addEventListener("pointerup", swallowClick, { capture: true, once: true });
  }, true);
}
