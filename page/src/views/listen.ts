/** The controls that are in the page from its beginning. */
import type { App } from "./app";
import { keyboardDrag } from "./carry";
import { byId } from "./dom";
import { pointerDrag } from "./drag";
import { readFiles, readPasted, refusePaste } from "./files";
import { keys } from "./keys";
import { notes } from "./note";
import { fitTables } from "./paper";
import { sheets } from "./sheets";
import { hasTable } from "../tables/html";
import { VERSION } from "../study/made";
import { withChanges } from "../study/study";
import { openBest } from "./best";
import { openExports, saveStudy } from "./exportDialog";
import { openSeal } from "./foot";
import { openAdmit } from "./member";
import { openGroup } from "./operations";
import { listenChairs, openNext, paintChairs } from "./chairs";
import { openRecount } from "./recount";
import { orRefuse } from "./refusal";
import { hideTip } from "./tip";
import { openPaste } from "./tableDialog";
import { listenPublished } from "./top";

function onClick(id: string, act: () => void): void {
  byId(id).addEventListener("click", act);
}

/** Whether a paste goes into a field: a box to tick or a file's isn't one. */
function takesText(target: EventTarget | null): boolean {
  if (target instanceof HTMLInputElement) return !/^(radio|checkbox|range|file|button)$/.test(target.type);
  return target instanceof HTMLTextAreaElement;
}

/** Files that are chosen or dropped, and text that is pasted outside of a field. */
function takeFiles(app: App): void {
  const file = byId<HTMLInputElement>("file");
  onClick("open", () => file.click());
  file.addEventListener("change", () => {
    void readFiles(app, [...(file.files ?? [])]);
    file.value = "";
  });
  addEventListener("dragover", (event) => event.preventDefault());
  addEventListener("drop", (event) => {
    event.preventDefault();
    const files = [...(event.dataTransfer?.files ?? [])];
    if (files.length) void readFiles(app, files);
  });
  const read = (text: string, html: string) => void readPasted(app, text, html);
  onClick("paste", () => openPaste(read));
  document.addEventListener("paste", (event) => {
    const plain = event.clipboardData?.getData("text/plain") ?? "";
    const html = event.clipboardData?.getData("text/html") ?? "";
    if (takesText(event.target) || (!plain.includes("\n") && !hasTable(html))) return;
    event.preventDefault();
    const open = document.querySelector("dialog[open] h2");
    if (open) refusePaste(open.textContent ?? "");
    else read(plain, html);
  });
}

/** Asks before the page is left, if the study has changed since it was opened or saved. */
function guardLeaving(app: App): void {
  addEventListener("beforeunload", (event) => {
    if (!app.isUnsaved) return;
    event.preventDefault();
    // Older browsers ask only with this.
    event.returnValue = "unsaved";
  });
}

/** Shows what fails and is caught nowhere else. */
function reportFailures(app: App): void {
  addEventListener("unhandledrejection", ({ reason }) => app.report(reason));
  addEventListener("error", ({ error, message }) => app.report(error ?? message));
}

/** Paints again when the window, the paper or the colours are others. */
function watchScreen(app: App): void {
  let width = innerWidth;
  addEventListener("resize", () => {
    if (width !== innerWidth) app.repaint();
    width = innerWidth;
  });
  const paintFor = (isPaper: boolean) => {
    app.open.isPrinting = isPaper;
    const date = new Date().toISOString().slice(0, 10);
    byId("printed").textContent = isPaper ? `Counted by board ${VERSION}, printed ${date}.` : "";
    app.repaint();
  };
  addEventListener("beforeprint", () => {
    paintFor(true);
    fitTables();
  });
  addEventListener("afterprint", () => paintFor(false));
  matchMedia("(prefers-color-scheme: dark)").addEventListener("change", () => app.repaint());
}

function buttons(app: App): void {
  onClick("export", () => openExports(app));
  onClick("save-study", () => orRefuse(saveStudy(app)));
  onClick("seal", () => openSeal(app));
  onClick("best-open", () => openBest(app));
  onClick("recount-open", () => openRecount(app));
  onClick("undo", () => app.undo());
  onClick("redo", () => app.redo());
  onClick("admit-open", () => openAdmit(app));
  onClick("group-open", () => openGroup(app));
  onClick("welcome-close", () => {
    app.open.isWelcomed = true;
    app.repaint();
    byId("paste").focus();
  });
  onClick("open-new", () => openNext(app));
  // A menu closes at a click elsewhere and by Escape.
  const menu = () => document.querySelector<HTMLDetailsElement>(".menu[open]");
  document.addEventListener("pointerdown", (event) => {
    const open = menu();
    // A dialog that the menu opened gives it the focus back.
    if (open && !open.contains(event.target as Node) && !document.querySelector("dialog[open]")) open.open = false;
  });
  document.addEventListener("keydown", (event) => {
    const open = menu();
    if (event.key !== "Escape" || !open || document.querySelector("dialog[open]")) return;
    open.open = false;
    open.querySelector("summary")?.focus();
  });
  // The menu below the list may open beyond the window, or below the bar of a phone.
  const add = byId<HTMLDetailsElement>("add");
  add.addEventListener("toggle", () => add.open && byId("add-body").scrollIntoView({ block: "nearest" }));
  addEventListener("scroll", hideTip, { passive: true });
  onClick("clear-changes", () => app.take(withChanges(app.study, [])));
}

/** Listens to the controls that are in the page from its beginning. */
export function listen(app: App): void {
  takeFiles(app);
  notes();
  buttons(app);
  byId("filter").addEventListener("input", () => {
    app.open.filter = byId<HTMLInputElement>("filter").value;
    paintChairs(app);
  });
  listenPublished(app);
  listenChairs(app);
  pointerDrag(app);
  keyboardDrag(app);
  keys(app);
  sheets();
  guardLeaving(app);
  watchScreen(app);
  reportFailures(app);
}
