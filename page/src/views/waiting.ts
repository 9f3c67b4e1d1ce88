/** Work that a person waits for: its progress, and a button that cancels it. */
import type { App } from "./app";
import { button, h } from "./dom";

/** Paints the progress of what is waited for; in a dialog that is open, so that its button can be pressed. */
export function paintWaiting(app: App): void {
  const { waiting } = app;
  const old = document.getElementById("waiting");
  if (!waiting) return old?.remove();
  const place = [...document.querySelectorAll("dialog[open]")].pop() ?? document.body;
  const box = old ?? made();
  if (box.parentElement !== place) place.append(box);
  const [words, bar, cancel] = [...box.children] as [HTMLElement, HTMLProgressElement, HTMLButtonElement];
  if (words.textContent !== waiting.words) words.textContent = waiting.words;
  if (waiting.done > 0) bar.value = waiting.done;
  else bar.removeAttribute("value");
  cancel.onclick = () => waiting.cancel();
}

function made(): HTMLElement {
  return h("div", { id: "waiting", role: "group", "aria-label": "Work that is being done" },
    h("span", { role: "status" }),
    h("progress", { max: 1, "aria-label": "How much is done" }),
    button("Cancel", () => {}, { id: "waiting-cancel" }),
  );
}
