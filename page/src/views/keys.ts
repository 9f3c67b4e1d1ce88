/** Keys of the whole page: undo, redo and saving. */
import type { App } from "./app";
import { saveStudy } from "./exportDialog";
import { orRefuse } from "./refusal";

const NOT_TEXT = ["checkbox", "radio", "range", "button", "submit", "file"];

/** Whether an element is a field of text, which has an undo of its own. */
function isText(target: EventTarget | null): boolean {
  if (target instanceof HTMLInputElement) return !NOT_TEXT.includes(target.type);
  return target instanceof HTMLTextAreaElement;
}

/** What a key does with Ctrl or Cmd. */
function actOf(app: App, event: KeyboardEvent): (() => void) | null {
  const key = event.key.toLowerCase();
  if (key === "s" && !event.shiftKey) return () => orRefuse(saveStudy(app));
  if (isText(event.target) || document.querySelector("dialog[open]")) return null;
  if (key === "y" || (key === "z" && event.shiftKey)) return () => app.redo();
  return key === "z" ? () => app.undo() : null;
}

/** Listens to the keys of the whole page. */
export function keys(app: App): void {
  document.addEventListener("keydown", (event) => {
    if (!(event.ctrlKey || event.metaKey) || event.altKey) return;
    const act = actOf(app, event);
    if (!act) return;
    event.preventDefault();
    act();
  });
}
