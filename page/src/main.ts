/** Begins the page: the study is the one in the page's data, else the example. */
import "./study/pageText";
import exampleText from "../../examples/members.csv";
import { App } from "./views/app";
import { boardsOver } from "./engine/boards";
import { Counter } from "./engine/count";
import { byId } from "./views/dom";
import { hashOf, MODULE_HASH, moduleBytes } from "./study/made";
import { baseOf } from "./tables/base";
import { guessedLayout } from "./tables/columns";
import { readTable } from "./tables/read";
import { sheetOf } from "./tables/text";
import { NO_ANSWERS } from "./tables/types";
import { FIRST_VIEW, studyOf } from "./study/study";
import { readData, type StudyData } from "./study/studyData";
import { checkScript } from "./views/files";
import { listen } from "./views/listen";
import { paintPage } from "./views/paint";
import { paintWaiting } from "./views/waiting";

async function example(counter: Counter): Promise<StudyData> {
  const sheet = sheetOf(exampleText);
  const { base: table } = readTable(sheet, guessedLayout(sheet), NO_ANSWERS);
  if (!table) throw new Error("the example isn't whole");
  const base = await baseOf(counter, { ...table, choices: [] }, await hashOf(exampleText));
  return { study: studyOf("Example with invented votes", base), view: FIRST_VIEW };
}

async function begin(): Promise<void> {
  if (typeof HTMLDialogElement !== "function") throw new Error("no dialogs");
  const held = readData(byId("study-data").textContent ?? "null");
  const bytes = moduleBytes();
  const [boards, hash] = await Promise.all([boardsOver(bytes), hashOf(bytes)]);
  const counter = new Counter(boards);
  const { study, view, scriptHash } = held ?? (await example(counter));
  const app = new App(study, view, counter, hash === MODULE_HASH, paintPage);
  if (!held) app.example = study.base.script;
  app.repaintWaiting = () => paintWaiting(app);
  listen(app);
  await Promise.all([app.count(), checkScript(app, scriptHash)]);
}

// From here on an error is no sign of an old browser.
window.onerror = null;
begin().catch((why: unknown) => {
  document.documentElement.className = "";
  byId("needs").append(` (${String(why)})`);
});
