/** Opened, dropped or pasted input: a table, a script, a page with a study in it, or a saved study. */
import type { App } from "./app";
import { grouped } from "../study/fractions";
import { Cancelled } from "../engine/pausing";
import { Refusal } from "../engine/problem";
import { scriptOf } from "../study/script";
import { hashOf } from "../study/made";
import { readData, type StudyData } from "../study/studyData";
import { studyOf, type Base } from "../study/study";
import { hasTable, sheetsOfHtml } from "../tables/html";
import { checkSize } from "../tables/limits";
import { contentsOf, type Contents, type Given, type Source } from "../tables/sources";
import { reasonOf } from "../study/words";
import { refuse } from "./refusal";
import { openTable } from "./tableDialog";

const KEPT = "The study before it stays as it was.";

/** Makes a document of HTML. */
function parsed(text: string, type: "text/html"): Document {
  return new DOMParser().parseFromString(text, type);
}

function choicesOf(isOwn: boolean, long: number): string[] {
  if (long) {
    const many = `The script has ${grouped(long)} records`;
    return [`${many}: the base is the board after all of them, and no change is listed.`];
  }
  if (isOwn) return [];
  return [
    "The script has another form than this page's: its readings are listed here after the base and after all its " +
      "commands.",
  ];
}

/** Reads a script by the register's own reader. */
async function takeScript(app: App, given: string, name: string): Promise<void> {
  const script = given.replace(/^\ufeff/, "");
  const found = await app.wait("The script is being read.", async () => app.counter.boards.ask("script", script));
  const { commands, long } = found;
  const majorities = found.majorities.length ? found.majorities : (["half"] as const);
  const isOwn = !long && scriptOf(found.base, commands, majorities) === script;
  const base: Base = {
    script: found.base, names: {}, chairNames: {}, rows: {}, choices: choicesOf(isOwn, long), hash: "", columns: {},
  };
  const changes = commands.map((what, at) => ({ id: at + 1, on: true, what }));
  app.openStudy(studyOf(name, base, changes), { ...app.view, majorities, orderAt: majorities[0] ?? "half" });
}

const OTHER_SCRIPT =
  "The study was changed after it was saved: its script no longer has the hash that the file names. What is shown is " +
  "counted from the file as it is now, and no longer names the table that it came from.";

/** Says so if a study that is shown hasn't the script that it was saved with, and forgets the hash of its table. */
export async function checkScript(app: App, scriptHash = ""): Promise<void> {
  await app.counting;
  const { shown, study } = app;
  if (!scriptHash || shown?.study !== study || await hashOf(shown.counted.script) === scriptHash) return;
  const choices = [...study.base.choices, OTHER_SCRIPT];
  app.openStudy({ ...study, base: { ...study.base, hash: "", choices } }, app.view);
  refuse(OTHER_SCRIPT, "", "This study was changed after it was saved");
}

async function takeData(app: App, { study, view, scriptHash }: StudyData): Promise<void> {
  app.openStudy(study, view);
  await checkScript(app, scriptHash);
}

/** Reads a saved study, and the script if it came with it. */
async function takeBeside(app: App, json: string, script: string | null): Promise<void> {
  const data = readData(json);
  if (!data) throw new Error("there is no study in it");
  await takeData(app, data);
  if (script === null || app.shown?.counted.script === script) return;
  const words = "The script and the file next to it are not of one study.";
  refuse(words, "The file's study is shown.", "These files are of two studies");
}

function wordsOf(why: unknown): string {
  const isOwn = why instanceof Refusal && reasonOf(why.name) !== why.name;
  if (!isOwn) return why instanceof Error ? why.message : String(why);
  return `fault,${why.record},${why.name}: ${reasonOf(why.name)}${why.record ? `, at record ${why.record}` : ""}`;
}

/** A shorter text is read at once, and a longer one by a worker. */
const SHORT = 65_536;

/** Reads what is given in a worker of its own, which ends if a person doesn't want to wait. */
async function read(app: App, given: Given): Promise<Contents> {
  if ("text" in given && given.text.length < SHORT) return contentsOf(given);
  return app.wait("The table is being read.", async () => app.counter.boards.ask("read", given));
}

/** A table, for its preview. */
function tableOf(name: string, found: Contents & { kind: "table" | "page" }, bytes: Uint8Array | null): Source {
  if (found.kind === "page") {
    const { html, content, notices } = found;
    return { name, sheets: sheetsOfHtml(html, parsed, notices), text: null, notices, content };
  }
  const { sheets, text, notices } = found;
  return { name, sheets, text, notices, content: text ?? bytes ?? "" };
}

async function take(app: App, found: Contents, name: string, bytes: Uint8Array | null = null): Promise<void> {
  if (found.kind === "study") await takeBeside(app, found.json, null);
  else if (found.kind === "script") await takeScript(app, found.text, name);
  else openTable(app, tableOf(name, found, bytes));
}

/** Reports why a task can't be done. */
async function orSay(task: Promise<void>): Promise<void> {
  await task.catch((why: unknown) => {
    if (!(why instanceof Cancelled)) refuse(wordsOf(why), KEPT);
  });
}

const PASTED = "Pasted table";

/** The name of a table that is pasted: another one than those of the study and its scenarios. */
function pastedName({ study: { name, scenarios } }: App): string {
  const taken = [name, ...scenarios.map((it) => it.name)];
  const names = [PASTED, ...taken.map((_, at) => `${PASTED} ${at + 2}`)];
  return names.find((it) => !taken.includes(it)) ?? PASTED;
}

async function takePasted(app: App, text: string, html: string): Promise<void> {
  const found = async (given: string) => take(app, await read(app, { text: given }), pastedName(app));
  if (!hasTable(html)) return found(text);
  try {
    await found(`<html>${html}`);
  } catch (why) {
    if (why instanceof Cancelled || !text.includes("\n")) throw why;
    await found(text);
  }
}

/** Reads what is pasted: its table, which says more than the text does, or else its text. Reports why if it can't. */
export function readPasted(app: App, text: string, html = ""): Promise<void> {
  return orSay(takePasted(app, text, html));
}

function bareName(name: string): string {
  return name.replace(/\.[a-z]+$/i, "");
}

/** Says that a paste isn't taken while a dialog is open. */
export function refusePaste(title: string): void {
  refuse(`A table was pasted while the dialog '${title}' is open. Close the dialog, and paste the table again.`, KEPT);
}

/** A file that was read. */
interface Opened {
  readonly name: string;
  readonly bytes: Uint8Array;
  readonly found: Contents;
}

async function opened(app: App, file: File): Promise<Opened> {
  checkSize(file.size);
  const bytes = await file.arrayBuffer();
  return { name: bareName(file.name), bytes: new Uint8Array(bytes), found: await read(app, { bytes }) };
}

async function takeFiles(app: App, files: readonly File[]): Promise<void> {
  const all: Opened[] = [];
  for (const file of files) all.push(await opened(app, file));
  const [study, script] = [all.find((it) => it.found.kind === "study"), all.find((it) => it.found.kind === "script")];
  const [first] = all;
  if (study?.found.kind === "study" && script?.found.kind === "script") {
    await takeBeside(app, study.found.json, script.found.text);
  } else if (all.length > 1) {
    refuse("Several files: a script and the file next to it can be dropped together, others one by one.", KEPT);
  } else if (first) await take(app, first.found, first.name, first.bytes);
}

/** Reads files: one, or a script and the file next to it. Reports why if it can't. */
export function readFiles(app: App, files: readonly File[]): Promise<void> {
  return orSay(takeFiles(app, files));
}
