/** The sheet of a phone, which its bar at the bottom opens. */
import { byId } from "./dom";

const SHEETS = ["right"];

function buttonOf(name: string): HTMLElement | null {
  return document.querySelector<HTMLElement>(`.sheets [data-sheet="${name}"]`);
}

/** Opens a sheet and closes the other one, or closes both. */
function openSheet(name: string, isOpen: boolean): void {
  for (const id of SHEETS) {
    const isThis = id === name && isOpen;
    byId(id).classList.toggle("open", isThis);
    buttonOf(id)?.setAttribute("aria-expanded", String(isThis));
  }
}

/** Closes a sheet. The button that opened it has the focus. */
function closeSheet(name: string): void {
  openSheet(name, false);
  buttonOf(name)?.focus();
}

/** Listens to the buttons of the sheets, and to Escape. */
export function sheets(): void {
  for (const button of document.querySelectorAll<HTMLElement>("[data-sheet]")) {
    const name = button.dataset["sheet"] ?? "";
    button.addEventListener("click", () => {
      if (byId(name).classList.contains("open")) closeSheet(name);
      else openSheet(name, true);
    });
  }
  document.addEventListener("keydown", (event) => {
    const open = SHEETS.find((it) => byId(it).classList.contains("open"));
    if (event.key !== "Escape" || event.defaultPrevented || !open || document.querySelector("dialog[open]")) return;
    event.preventDefault();
    closeSheet(open);
  });
}
