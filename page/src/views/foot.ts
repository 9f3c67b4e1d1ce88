/** The foot: definitions of the measures, marks, sources, how to cite, script and lines, and licences. */
import type { App } from "./app";
import { SOURCES } from "../cited";
import { openDialog } from "./dialogs";
import { byId, button, h, paint, type Child } from "./dom";
import licences from "../licences.txt";
import { firstLines, provenanceOf, studySource } from "../study/provenance";
import { MAJORITY, MEASURE, measureTitle } from "../study/words";
import { openCitation } from "./citation";

function definitions({ view }: App): HTMLElement {
  const { from, definition, source } = MEASURE[view.measure];
  const majorities = view.majorities.map((it) => [
    h("dt", {}, MAJORITY[it].label),
    h("dd", {}, `${MAJORITY[it].rule}. Articles of Agreement, ${MAJORITY[it].article}: ${MAJORITY[it].about}.`),
  ]);
  return h("dl", {},
    h("dt", {}, measureTitle(view.measure)), h("dd", {}, `${definition} (${source}; ${from}).`),
    h("dt", {}, "Votes"), h(
      "dd",
      {},
      "a chair casts the votes of its members, without suspended ones, as one block; its share is of the votes " +
        "that all open chairs cast.",
    ),
    majorities,
  );
}

const MARKS: readonly (readonly [string, string])[] = [
  [
    "counted",
    "by the proved register: a note on the number has its exact fraction, in lowest terms, and its column in the " +
      "lines that board replay prints for the script. What is proved: each count is what the definitions say of the " +
      "script, over all coalitions. The module is the register's code compiled for another machine, and is tested " +
      "against the program. Not proved: that compilation, the drawing, the reading of tables, this browser.",
  ],
  [
    "made here",
    "by this page: per cent, differences, rounding and order. Each decimal is its exact fraction, rounded once, half " +
      "to even, in whole-number arithmetic, so rounded shares may not add up. An exact difference is a fraction, " +
      "too. What the tab Coalition says of coalitions is made here, from counted votes and quotas.",
  ],
  ["given", "from the table, with its row and column."],
];

function given({ study }: App): Child {
  const columns = Object.entries(study.base.columns).map(([meaning, column]) => `${meaning}: column ${column}`);
  return columns.length ? h("p", {}, `The table's columns: ${columns.join("; ")}.`) : null;
}

/** Whether the script and its lines are open. */
export function isSourceOpen(): boolean {
  return document.querySelector<HTMLDetailsElement>("#source")?.open ?? false;
}

/** The script and its lines, filled when they are opened, and emptied when they are closed. */
function source(app: App): HTMLElement {
  const wasOpen = isSourceOpen();
  const script = h("pre", { id: "script-text", tabindex: 0, role: "region", "aria-label": "Script" });
  const lines = h("pre", { id: "lines-text", tabindex: 0, role: "region", "aria-label": "Lines" });
  const details = h(
    "details",
    { id: "source" },
    h("summary", {}, "Script and lines"),
    h("h3", {}, "Script"),
    script,
    h("h3", {}, "Lines of board replay"),
    lines,
  );
  const fill = async () => {
    const text = details.open && app.shown ? app.shown.counted.script : "";
    [script.textContent, lines.textContent] = [text, ""];
    const found = text && (await app.counter.lines(text).catch(String));
    if (script.textContent === text) lines.textContent = found;
  };
  details.addEventListener("toggle", () => void fill());
  details.open = wasOpen;
  return details;
}

const MODULE_WORDS = [
  "The module has the hash that the build recorded.",
  "The module isn't the one that this page was built with.",
] as const;
const SCRIPT_WORDS = [
  "The script was replayed as a whole just now, and gives the numbers shown.",
  "The script was replayed as a whole just now, and gives other numbers than those shown.",
] as const;

function checkItem(isPassed: boolean, [passed, failed]: readonly [string, string]): HTMLElement {
  return h("li", { class: isPassed ? "" : "wrong" }, isPassed ? passed : failed);
}

/** The text of the seal: the source of the numbers, and the checks that were made. */
export function openSeal(app: App): void {
  const { shown } = app;
  if (!shown) return;
  openDialog("seal-dialog", "Where the numbers come from", () => {
    const list = h("ul", { id: "provenance" });
    const checks = h("ul", { id: "checks" }, checkItem(app.isOwnModule, MODULE_WORDS));
    const failed = (place: HTMLElement, what: string) => (why: unknown) =>
      place.append(h("li", { class: "wrong" }, `${what}: ${why instanceof Error ? why.message : String(why)}`));
    provenanceOf(app, shown, [studySource(shown)])
      .then((found) => list.append(...firstLines(found).map((it) => h("li", {}, it))))
      .catch(failed(list, "The sources can't be shown"));
    app.counter.isGiven(shown.counted)
      .then((isGiven) => checks.append(checkItem(isGiven, SCRIPT_WORDS)))
      .catch(failed(checks, "The script wasn't replayed"));
    return [
      list,
      h("h3", {}, "Checks that this page made of these numbers"),
      checks,
      h("h3", {}, "Three marks"),
      h("dl", {}, MARKS.map(([mark, words]) => [h("dt", {}, mark), h("dd", {}, words)])),
      h(
        "p",
        {},
        `The module runs in ${app.counter.boards.place === "worker" ? "a worker" : "the page itself"}.`,
      ),
      h(
        "p",
        {},
        "The page makes no request: its Content-Security-Policy forbids every one. It keeps nothing when it is " +
          "closed. It doesn't know whether the repository's own tests passed: find the version whose sources have " +
          "this hash, and test it to see.",
      ),
    ];
  });
}

export function paintFoot(app: App): void {
  const open = new Set([...document.querySelectorAll<HTMLDetailsElement>("#foot details[open]")].map((it) => it.id));
  paint(byId("foot"),
    h("h2", {}, "Definitions of what is shown"),
    definitions(app),
    h(
      "details",
      { id: "marks", open: open.has("marks") },
      h("summary", {}, "Counted, made here, given: three marks"),
      h("dl", {}, MARKS.map(([mark, words]) => [h("dt", {}, mark), h("dd", {}, words)])),
      given(app),
    ),
    source(app),
    h(
      "details",
      { id: "sources", open: open.has("sources") },
      h("summary", {}, "Sources"),
      h("ul", {}, SOURCES.map((it) => h("li", {}, it))),
    ),
    h(
      "details",
      { id: "licences", open: open.has("licences") },
      h("summary", {}, "Licences of what is inlined"),
      h("pre", {}, licences),
    ),
    h("div", { class: "buttons" }, button("How to cite…", () => openCitation(app), { id: "cite-open" })),
    h(
      "p",
      { class: "note" },
      "The numbers measure a-priori power: all coalitions count as equally likely. They say nothing of preferences, " +
        "persuasion or bargaining. " +
        "This page makes no request to any network, and keeps nothing. The figures at 85 per cent say what blocks " +
        "of votes would be worth under that majority.",
    ),
  );
}
