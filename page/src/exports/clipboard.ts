/** Texts for the clipboard. */
import { h } from "../views/dom";

/** Copies by selecting a text, where a page may not write to the clipboard itself. */
function copySelected(text: string): void {
  const area = h("textarea", { "aria-hidden": "true" }, text);
  const { activeElement } = document;
  (document.querySelector("dialog[open]") ?? document.body).append(area);
  area.select();
  const isCopied = document.execCommand("copy");
  area.remove();
  if (activeElement instanceof HTMLElement) activeElement.focus();
  if (!isCopied) throw new Error("nothing was copied");
}

/** Puts a text on the clipboard. It may come later: the browsers of some phones allow that only if they are asked at
 * once. */
export async function copy(text: Promise<string>): Promise<void> {
  const blob = text.then((it) => new Blob([it], { type: "text/plain" }));
  // Whoever copies hears of a text that doesn't come from the text itself.
  blob.catch(() => {});
  const ways: readonly (() => Promise<void>)[] = [
    () => navigator.clipboard.write([new ClipboardItem({ "text/plain": blob })]),
    async () => navigator.clipboard.writeText(await text),
    async () => copySelected(await text),
  ];
  for (const way of ways) {
    try {
      return await way();
    } catch {
      // The next way may work.
    }
  }
  await text;
  throw new Error("This browser doesn't let the page write to the clipboard.");
}
