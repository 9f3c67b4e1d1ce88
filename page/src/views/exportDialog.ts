/** The dialog of exports: figure, table, sentences, the whole study, citation. Each has version and hash. */
import type { App, Shown } from "./app";
import { copy } from "../exports/clipboard";
import { openDialog } from "./dialogs";
import { button, byId, h, save, type Child } from "./dom";
import { fileName, textFile } from "../exports/exportFile";
import { csvFile, shownText, texText, workbookFile } from "../exports/exportTables";
import { grouped } from "../study/fractions";
import { pageText } from "../study/pageText";
import { firstLines, provenanceOf, studySource } from "../study/provenance";
import { dataText, readData } from "../study/studyData";
import { INPUT_BYTES } from "../study/words";
import { openCitation } from "./citation";
import { figureGroup, type Exporter } from "./figureGroup";
import { sentenceList } from "./sentences";

/** Saves the study's script. One that is longer than `board replay` reads is saved, and that is said. */
async function saveScript(app: App): Promise<string> {
  const { counted } = await app.whole();
  const content = textFile(counted.script, "text/csv");
  save(`${fileName(app)}.csv`, content);
  if (content.size <= INPUT_BYTES) return "";
  return `The script has ${grouped(content.size)} bytes. board replay reads at most ${grouped(INPUT_BYTES)}.`;
}

/** The study as data, which is read again before it is handed over. */
async function studyText(app: App, shown: Shown): Promise<string> {
  const data = { study: shown.study, view: app.view };
  const content = dataText(data, firstLines(await provenanceOf(app, shown, [studySource(shown)])));
  try {
    readData(content);
  } catch (why) {
    throw new Error(`The study can't be read again, so it wasn't saved: ${why instanceof Error ? why.message : why}`);
  }
  return content;
}

/** Saves the study in one file. */
export async function saveStudy(app: App): Promise<void> {
  const shown = await app.whole();
  save(`${fileName(app)}.study.json`, textFile(`${await studyText(app, shown)}\n`, "application/json"));
  app.keepSaved(shown.study);
}

/** Saves the page with the study in it. */
async function savePage(app: App): Promise<void> {
  const shown = await app.whole();
  save(`${fileName(app)}.html`, textFile(pageText(await studyText(app, shown)), "text/html"));
  app.keepSaved(shown.study);
}

async function copyShown(app: App, text: (app: App) => Promise<string>): Promise<string> {
  await copy(text(app));
  return "The table is on the clipboard.";
}

/** A function that makes a button of an export. What the export says is written into a place. */
function exporter(said: HTMLElement): Exporter {
  return (words, id, act, attributes) => {
    const run = () => {
      act().then(
        (done) => (said.textContent = done ?? ""),
        (why: unknown) => (said.textContent = why instanceof Error ? why.message : String(why)),
      );
    };
    return button(words, run, { id, ...attributes });
  };
}

const row = (...children: Child[]) => h("div", { class: "buttons" }, children);

function tableGroup(app: App, make: Exporter): Child {
  const saved = (end: string, content: (app: App) => Promise<Blob>) => async () =>
    save(`${fileName(app)}-table.${end}`, await content(app));
  const tex = async () => textFile(await texText(app), "application/x-tex");
  return [
    h("p", { class: "note" }, "As shown: the chairs, digits, measure and majorities of the tab Table."),
    row(
      make("Copy for a spreadsheet", "export-copy", () => copyShown(app, shownText)),
      make("LaTeX (.tex)", "export-tex", saved("tex", tex)),
      make("Copy LaTeX", "export-tex-copy", () => copyShown(app, texText)),
    ),
    h("p", { class: "note" }, "All numbers of base, changes, scenarios and sweep, with exact fractions:"),
    row(
      make("Excel (.xlsx)", "export-xlsx", saved("xlsx", workbookFile)),
      make("CSV with the columns of board-study", "export-csv", saved("csv", csvFile)),
    ),
  ];
}

const SCRIPT_WORDS =
  "The script gives board replay the base, the changes and the readings; what it prints has the numbers that this " +
  "page shows. A script has no names: the saved study has them, with version and hashes.";

function studyGroup(app: App, make: Exporter): Child {
  return [
    row(
      make("Study, to open here again", "export-beside", () => saveStudy(app)),
      make("This page with the study in it", "export-page", () => savePage(app)),
      make("Script", "export-script", () => saveScript(app)),
    ),
    h("p", { class: "note" }, SCRIPT_WORDS),
  ];
}

const CITATION_WORDS =
  "The version with its date, and the hash of the script that gives the numbers. Figures, tables in files and in " +
  "LaTeX, sentences and the saved study have version and hash in them, too.";

function citationGroup(app: App): Child {
  return [
    h("p", { class: "note" }, CITATION_WORDS),
    row(button("How to cite…", () => openCitation(app), { id: "export-cite" })),
  ];
}

/** The groups by their names. */
const GROUPS = ["Figure", "Table", "Sentences", "Whole study", "Citation"] as const;
type Group = typeof GROUPS[number];

function idOf(group: Group): string {
  return `group-${group.split(" ").pop()?.toLowerCase()}`;
}

/** Buttons that lead to the groups. */
function ways(): HTMLElement {
  const lead = (group: Group) => () => {
    byId(idOf(group)).scrollIntoView({ block: "start" });
    byId(`${idOf(group)}-title`).focus({ preventScroll: true });
  };
  const items = GROUPS.map((it) => button(it, lead(it), { id: `to-${idOf(it)}` }));
  return h("nav", { class: "buttons ways", "aria-label": "Kinds of exports" }, items);
}

/** Opens the dialog. */
export function openExports(app: App): void {
  const { shown } = app;
  if (!shown) return;
  const said = h("p", { id: "export-words", role: "status" });
  const make = exporter(said);
  const say = (words: string) => void (said.textContent = words);
  const content: Readonly<Record<Group, Child>> = {
    Figure: figureGroup(app, shown, make),
    Table: tableGroup(app, make),
    Sentences: sentenceList(app, "export-sentence", say, true),
    "Whole study": studyGroup(app, make),
    Citation: citationGroup(app),
  };
  const groups = GROUPS.map((it) => {
    const title = h("h3", { id: `${idOf(it)}-title`, tabindex: -1 }, it);
    return h("section", { id: idOf(it), class: "group", "aria-labelledby": title.id }, title, content[it]);
  });
  const dialog = openDialog("export-dialog", "Export", () => [ways(), h("div", { class: "groups" }, groups), said]);
  dialog.classList.add("wide");
}
