/** The title of a number, for touch screens: a tap on the number shows it in a note. */
import { h } from "./dom";

const SECONDS = 12;

/** Shows the titles of numbers that are tapped or clicked on. */
export function notes(): void {
  const note = h("p", { id: "note", role: "status" });
  let ends = 0;
  document.addEventListener("click", (event) => {
    const found = event.target instanceof Element ? event.target.closest<HTMLElement>("[title]") : null;
    const words = found && !found.closest("button, input, label, select") ? found.title : "";
    clearTimeout(ends);
    note.textContent = words;
    if (!words) return note.remove();
    (document.querySelector("dialog[open]") ?? document.body).append(note);
    ends = setTimeout(() => note.remove(), 1000 * SECONDS);
  });
  document.addEventListener("keydown", (event) => event.key === "Escape" && note.remove());
}
