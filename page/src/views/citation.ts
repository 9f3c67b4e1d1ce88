/** How to cite the version: a sentence and an entry of BibTeX, each with a button that copies it. */
import type { App } from "./app";
import { copy } from "../exports/clipboard";
import { openDialog } from "./dialogs";
import { button, h, type Child } from "./dom";
import { citation } from "../study/provenance";

function part(words: string, id: string, text: string, said: HTMLElement): Child {
  const copied = () => copy(Promise.resolve(text)).then(
    () => (said.textContent = `${words}: on the clipboard.`),
    (why: unknown) => (said.textContent = String(why)),
  );
  return [
    h("h3", {}, words),
    h("pre", { id, tabindex: 0, role: "region", "aria-label": words }, text),
    button("Copy", () => void copied(), { id: `${id}-copy`, "aria-label": `Copy the ${words}` }),
  ];
}

/** Opens the dialog on citing. */
export function openCitation(app: App): void {
  const { shown } = app;
  if (!shown) return;
  openDialog("cite", "How to cite", () => {
    const place = h("div", {});
    const said = h("p", { id: "cite-words", role: "status" });
    const made = citation(shown).then(({ text, bibtex }) => {
      const children = [part("Sentence", "cite-text", text, said), part("BibTeX", "cite-bibtex", bibtex, said)];
      place.append(h("div", {}, children), said);
    });
    made.catch((why: unknown) => {
      const words = why instanceof Error ? why.message : String(why);
      place.append(h("p", { class: "wrong", role: "alert" }, `It can't be cited: ${words}`));
    });
    return place;
  });
}
