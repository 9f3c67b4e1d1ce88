/** The sentences above the tabs, each with a button that copies it with its source. */
import type { App, Shown } from "./app";
import { copy } from "../exports/clipboard";
import { chairRows, sentences } from "../engine/compare";
import { button, byId, h, icon, type Child } from "./dom";
import { patch } from "./patch";
import type { Said } from "../engine/said";
import { provenanceOf, studySource } from "../study/provenance";
import { MAJORITY } from "../study/words";
import { markOf } from "./rows";

const COPY = "M5.5 5.5h8v8h-8zM10.5 5.5v-3h-8v8h3";
const DONE = "M3 8.5 6.5 12 13 4.5";

/** How long a button says that it has copied, in milliseconds. */
const SAID = 2500;

/** Sentences, each with a line that has its exact fractions, the version and the hashes. */
export async function withSource(app: App, shown: Shown, said: readonly Said[]): Promise<string> {
  const { counted, scripts } = await provenanceOf(app, shown, [studySource(shown)]);
  const parts = said.map(({ words, source }) => {
    return `${words}\nSource: ${[source, counted, ...scripts].filter((it) => it !== "").join("; ")}\n`;
  });
  return parts.join("\n");
}

/** A button that copies sentences. */
interface Copier {
  readonly id: string;
  readonly name: string;
  /** Its words beside the icon. */
  readonly words: string;
  /** The sentences as they are when it is pressed. */
  said(shown: Shown): readonly Said[];
  say(words: string): void;
}

/** Makes such a button, which says what it has copied. */
function copier(app: App, { id, name, words, said, say }: Copier): HTMLElement {
  const act = async () => {
    const { shown } = app;
    if (!shown) return;
    const all = said(shown);
    await copy(withSource(app, shown, all));
    made.classList.add("done");
    setTimeout(() => made.classList.remove("done"), SAID);
    const what = name.replace(/^Copy (.)/, (_, letter: string) => letter.toUpperCase());
    say(`${what} ${all.length > 1 ? "are" : "is"} on the clipboard.`);
  };
  const failed = (why: unknown) => say(why instanceof Error ? why.message : String(why));
  const attributes = { id, "aria-label": name, title: name, class: "quiet copier" };
  const made = button(words, () => void act().catch(failed), attributes);
  made.prepend(icon(COPY), icon(DONE));
  return made;
}

/** The sentences as they are now. */
function saidOf(app: App, { counted }: Shown): Said[] {
  return sentences(chairRows(counted, app.view), counted, app.view);
}

/** The sentences with a button for all, and where there is room with one each. Their ids begin with a word. */
export function sentenceList(app: App, id: string, say: (words: string) => void, hasEach: boolean): Child {
  const { shown, view } = app;
  if (!shown) return null;
  const all = saidOf(app, shown);
  // A phone shows the sentence on a veto above the list, else the first.
  const main = Math.max(0, all.findIndex((it) => it.isLead));
  // A screen reader that reads sentences as they change doesn't read the buttons.
  const quiet = (...made: HTMLElement[]) => h("span", { "aria-live": "off" }, made);
  return all.map((it, at) => {
    const majority = view.majorities[at] ?? "half";
    const name = `Copy the sentence ${MAJORITY[majority].at.replace(/^./, (letter) => letter.toLowerCase())}`;
    const said = (now: Shown) => saidOf(app, now).slice(at, at + 1);
    const one = copier(app, { id: `${id}-${majority}`, name, words: "", said, say });
    const everyName = "Copy all sentences";
    const every = { id: `${id}-all`, name: everyName, words: "all", said: (now: Shown) => saidOf(app, now), say };
    const isLast = (all.length > 1 || !hasEach) && at === all.length - 1;
    const copiers = [...hasEach ? [one] : [], ...isLast ? [copier(app, every)] : []];
    return h("div", { class: at === main ? "said main" : "said" },
      markOf(majority), h("p", { title: it.source }, it.words), quiet(...copiers));
  });
}

/** Paints the sentences above the list: they stay as they are while they say the same. */
export function paintSentences(app: App): void {
  const { shown, view } = app;
  if (!shown) return;
  const place = byId("sentences");
  place.classList.toggle("many", view.majorities.length > 2);
  patch(place, sentenceList(app, "copy", (words) => (byId("live").textContent = words), false));
}
