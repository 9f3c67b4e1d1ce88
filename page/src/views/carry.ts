/** Carrying a member to a row by keyboard: Space picks it up, arrows choose a row, Enter drops it there. */
import type { App } from "./app";
import { byId } from "./dom";
import { aim } from "./drag";
import { moveTo, say, who } from "./moves";

function cards(): HTMLElement[] {
  return [...byId("cards").querySelectorAll<HTMLElement>(".card")];
}

/** Has a member carried, with the row at which it aims; or none. */
function carry(app: App, code: string, card: HTMLElement | null): void {
  app.open.carried = card ? { code, place: card.dataset["place"] ?? "" } : null;
  aim(card);
  for (const chip of document.querySelectorAll(".chip[aria-pressed]")) chip.removeAttribute("aria-pressed");
  if (card) byId(`chip-${code}`).setAttribute("aria-pressed", "true");
}

function pick(app: App, chip: HTMLElement): void {
  const code = chip.dataset["code"] ?? "";
  carry(app, code, chip.closest<HTMLElement>(".card"));
  say(`${who(app, code)} is picked up. Arrow keys choose a chair, Enter drops it there, Escape leaves it.`);
}

function leave(app: App): void {
  if (!app.open.carried) return;
  say(`${who(app, app.open.carried.code)} stays where it was.`);
  carry(app, "", null);
}

function step(app: App, by: number): void {
  const { carried } = app.open;
  if (!carried) return;
  const all = cards();
  const at = all.findIndex((it) => it.dataset["place"] === carried.place);
  const card = all[(at + by + all.length) % all.length];
  if (!card) return;
  carry(app, carried.code, card);
  card.scrollIntoView({ block: "nearest" });
  say(card.querySelector(".card-title")?.textContent ?? "");
}

function drop(app: App): void {
  const { carried } = app.open;
  if (!carried) return;
  carry(app, "", null);
  void moveTo(app, carried.code, carried.place);
}

/** What a key does to a chip. */
function actOf(app: App, chip: HTMLElement, key: string): (() => void) | undefined {
  if (!app.open.carried) return key === " " ? () => pick(app, chip) : undefined;
  const acts: Record<string, () => void> = {
    ArrowDown: () => step(app, 1),
    ArrowUp: () => step(app, -1),
    Enter: () => drop(app),
    " ": () => drop(app),
    Escape: () => leave(app),
  };
  return acts[key];
}

/** Lets the members of all rows be carried by keyboard. */
export function keyboardDrag(app: App): void {
  const list = byId("cards");
  list.addEventListener("keydown", (event) => {
    const chip = (event.target as HTMLElement).closest<HTMLElement>(".chip");
    const act = chip ? actOf(app, chip, event.key) : undefined;
    if (!act) return;
    event.preventDefault();
    act();
  });
  list.addEventListener("keyup", (event) => {
    if (event.key === " " && (event.target as HTMLElement).closest(".chip")) event.preventDefault();
  });
  list.addEventListener("focusout", () => leave(app));
}
