/** The preview of a table: its header and columns, the questions about it, and all its faults. */
import type { App } from "./app";
import { openDialog } from "./dialogs";
import { button, choice, h, paint, save, type Child } from "./dom";
import { counted, grouped } from "../study/fractions";
import { hashOf } from "../study/made";
import { orRefuse } from "./refusal";
import { isTaken } from "./scenarios";
import { isolated, memberWords } from "../study/names";
import { studyOf, withScenario } from "../study/study";
import { baseOf } from "../tables/base";
import { columnName, guessedLayout, layoutWith } from "../tables/columns";
import { hasTable } from "../tables/html";
import { MOST_SHOWN, MOST_SHOWN_LETTERS } from "../tables/limits";
import type { Thousands } from "../tables/numbers";
import { faultWords, readTable } from "../tables/read";
import { secondTable } from "../tables/second";
import type { Source } from "../tables/sources";
import { strictTable } from "../tables/strict";
import { DELIMITER_WORDS, DELIMITERS, sheetOf, sheetOfCells } from "../tables/text";
import {
  MEANING_WORDS, MEANINGS, NO_ANSWERS, type Answers, type AskedNumber, type Layout, type Meaning, type Question,
  type ReadTable,
  type Sheet,
} from "../tables/types";

/** More faults than this are counted and not listed. */
const MOST_FAULTS = 100;
/** More members in no chair than this are counted and not named. */
const MOST_NAMED = 12;
/** More rows than this are not in the preview. */
const MOST_ROWS = 400;
const EMPTY = sheetOfCells([]);

/** A table in the preview, and the choices so far. */
class Preview {
  areNoticesOpen = false;
  /** The sheet's place in the source; null until one of several is chosen. */
  place: number | null;
  sheet: Sheet = EMPTY;
  layout: Layout = guessedLayout(EMPTY);
  answers: Answers = NO_ANSWERS;
  name: string;

  constructor(readonly app: App, readonly source: Source) {
    this.name = source.name;
    this.place = null;
    if (source.sheets.length === 1) this.choose(0);
  }

  /** Shows a sheet of the source from scratch. */
  choose(place: number): void {
    this.place = place;
    this.show(this.source.sheets[place]?.sheet ?? EMPTY);
  }

  /** Cuts the text into cells at another delimiter. */
  cut(delimiter: string): void {
    this.show(sheetOf(this.source.text ?? "", this.source.notices, delimiter));
  }

  read(): ReadTable {
    return readTable(this.sheet, this.layout, this.answers);
  }

  answer(id: string, key: string): void {
    this.answers = { ...this.answers, chosen: new Map([...this.answers.chosen, [id, key]]) };
    if (id !== "which-votes") return;
    this.layout = { ...this.layout, columns: { ...this.layout.columns, votes: Number(key) } };
  }

  leaveOut(row: number, isOut: boolean): void {
    const rows = new Set(this.answers.leftOut);
    if (isOut) rows.add(row);
    else rows.delete(row);
    this.answers = { ...this.answers, leftOut: rows };
  }

  private show(sheet: Sheet): void {
    this.sheet = sheet;
    this.layout = guessedLayout(sheet);
    this.answers = NO_ANSWERS;
  }
}

/** A question with its options. It has a thick border while it is open. */
function questionField(
  question: Pick<Question, "id" | "words" | "options" | "answer">,
  take: (key: string) => void,
  more: Child = null,
): HTMLElement {
  const { id, words, options, answer } = question;
  const radio = (key: string, text: string) => {
    const own = `${id}-${key}`;
    return h(
      "label",
      {},
      h("input", { type: "radio", name: id, id: own, checked: answer === key, onchange: () => take(key) }),
      text,
    );
  };
  return h(
    "fieldset",
    { id, class: answer === null ? "question open" : "question" },
    h("legend", {}, words),
    options.map(({ key, words: text }) => radio(key, text)),
    more,
  );
}

/** The field of a number that belongs to a question. */
function numberField(id: string, { low, high, value }: AskedNumber, take: (number: string) => void): HTMLElement {
  const field: HTMLInputElement = h("input", {
    id: `${id}-number`, type: "number", min: low, max: high, value, class: "short",
    onchange: () => take(field.value),
  });
  const words = `From ${grouped(low)} to ${grouped(high)}`;
  return h("label", { class: "choice", for: field.id }, h("span", {}, words), field);
}

/** The question which of several sheets has the table. */
function sheetQuestion(preview: Preview, again: () => void): Child {
  const { sheets } = preview.source;
  if (sheets.length < 2) return null;
  const options = sheets.map(({ name, sheet }, at) => {
    const size = `${counted(sheet.rows.length, "row")}, ${counted(sheet.width, "column")}`;
    return { key: String(at), words: `${name}: ${size}` };
  });
  const answer = preview.place === null ? null : String(preview.place);
  return questionField({ id: "which-sheet", words: "Which sheet has the members?", options, answer }, (key) => {
    preview.choose(Number(key));
    again();
  });
}

function questions(preview: Preview, read: ReadTable, again: () => void): Child {
  const answer = (id: string) => (key: string) => {
    preview.answer(id, key);
    again();
  };
  return read.questions.map((it) => {
    const field = it.number && numberField(it.id, it.number, answer(`${it.id}-number`));
    return questionField(it, answer(it.id), field);
  });
}

function faultList(preview: Preview, read: ReadTable, again: () => void): Child {
  const out = [...preview.answers.leftOut].sort((left, right) => left - right);
  const rows = new Set<number>();
  const box = (row: number) => {
    if (!row || rows.has(row)) return null;
    rows.add(row);
    const tick: HTMLInputElement = h("input", {
      type: "checkbox",
      id: `leave-${row}`,
      checked: preview.answers.leftOut.has(row),
      onchange: () => {
        preview.leaveOut(row, tick.checked);
        again();
      },
    });
    return h("label", {}, tick, `leave row ${row} out`);
  };
  const more = read.faults.length - MOST_FAULTS;
  const faults = read.faults.slice(0, MOST_FAULTS).map((it) => {
    const words = `${faultWords(preview.sheet, preview.layout, it)}. `;
    return h("li", { "data-row": it.row }, h("span", { class: "wrong" }, words), box(it.row));
  });
  const heading = `Faults: ${grouped(read.faults.length)}. Nothing is counted until the table is whole.`;
  return [
    read.faults.length ? h("h3", {}, heading) : null,
    h(
      "ul",
      { id: "table-faults" },
      faults,
      more > 0 ? h("li", {}, `and ${grouped(more)} more`) : null,
      out.map((row) => h("li", { "data-row": row }, `Row ${row} is left out. `, box(row))),
    ),
  ];
}

/** The lists that choose a column for each meaning. */
function columnLists(preview: Preview, again: () => void): Child {
  const { sheet, layout } = preview;
  const columns = Array.from(
    { length: sheet.width },
    (_, at): [string, string] => [String(at), columnName(sheet, layout, at)],
  );
  const set = (meaning: Meaning, value: string) => {
    const votesMaybe = meaning === "votes" ? [] : layout.votesMaybe;
    preview.layout = { ...layout, votesMaybe, columns: { ...layout.columns, [meaning]: Number(value) } };
    again();
  };
  const none: [string, string] = ["-1", "none"];
  return MEANINGS.map((it) =>
    choice(`column-${it}`, MEANING_WORDS[it], [none, ...columns], String(layout.columns[it]), (at) => set(it, at))
  );
}

/** The choices of header, columns and marks. */
function columnChoices(preview: Preview, again: () => void): Child {
  const { sheet, layout } = preview;
  const header: HTMLInputElement = h("input", {
    id: "header-row", type: "number", min: 0, max: sheet.rows.length, value: layout.header, class: "short",
    onchange: () => {
      const row = Math.min(Math.max(0, Math.floor(Number(header.value)) || 0), sheet.rows.length);
      preview.layout = layoutWith(sheet, row, layout.thousands);
      again();
    },
  });
  const thousands = (mark: string) => {
    const given = mark as Thousands;
    preview.layout = layout.columns.votes < 0
      ? layoutWith(sheet, layout.header, given)
      : { ...layout, thousands: given };
    again();
  };
  const cut = (delimiter: string) => {
    preview.cut(delimiter);
    again();
  };
  const delimiters = DELIMITERS.map((it): [string, string] => [it, DELIMITER_WORDS[it] ?? it]);
  return h(
    "div",
    { class: "choices" },
    h("label", { class: "choice", for: "header-row" }, h("span", {}, "Row of the header (0: none)"), header),
    columnLists(preview, again),
    choice("thousands", "Thousands", [[",", "1,000"], [".", "1.000"]], layout.thousands, thousands),
    preview.source.text === null ? null : choice("delimiter", "Between cells", delimiters, sheet.delimiter, cut),
  );
}

/** What was taken of a row: its code if it is made, and its chair; or what it is, if it isn't a member. */
function takenWords(preview: Preview, read: ReadTable): Map<number, string> {
  const isMade = preview.layout.columns.code < 0;
  const members = (read.base?.members ?? []).map(({ row, code, chair, suspended }): [number, string] => {
    const seat = chair === null ? "none" : `chair ${chair}`;
    return [row, `${isMade ? `${code}, ` : ""}${seat}${suspended ? ", suspended" : ""}`];
  });
  return new Map([...members, ...read.roles]);
}

function clipped(cell: string): string {
  return cell.length > MOST_SHOWN_LETTERS ? `${cell.slice(0, MOST_SHOWN_LETTERS)}…` : cell;
}

function previewTable(preview: Preview, read: ReadTable): HTMLElement {
  const { sheet, layout, answers } = preview;
  const bad = new Map(read.faults.map((it) => [`${it.row}:${layout.columns[it.meaning]}`, it.reason]));
  const taken = takenWords(preview, read);
  const shown = Math.min(MOST_ROWS, Math.ceil(MOST_SHOWN / Math.max(1, sheet.width)));
  const body = sheet.rows.slice(0, shown).map((cells, at) => {
    const row = at + 1;
    const isOut = answers.leftOut.has(row) || (read.roles.has(row) && read.roles.get(row) !== "heading");
    const look = row === layout.header ? "header" : row < layout.header || isOut ? "out" : "";
    const given = Array.from({ length: sheet.width }, (_, column) => {
      const reason = bad.get(`${row}:${column}`);
      return h("td", { class: reason ? "text bad" : "text", title: reason ?? "" }, clipped(cells[column] ?? ""));
    });
    const words = h("td", { class: "text" }, taken.get(row) ?? "");
    return h("tr", { class: look, "data-row": row }, h("th", { scope: "row" }, String(row)), given, words);
  });
  const letters = Array.from({ length: sheet.width }, (_, at) => columnName(sheet, { header: 0 }, at));
  const heads = ["Row", ...letters, layout.columns.code < 0 ? "Code and chair taken" : "Chair taken"];
  const more = sheet.rows.length - shown;
  return h("div", { class: "scroll preview", tabindex: 0, role: "region", "aria-label": "The table's rows" },
    h(
      "table",
      { id: "preview" },
      h("thead", {}, h("tr", {}, heads.map((it) => h("th", { scope: "col", class: "text" }, it)))),
      h("tbody", {}, body),
    ),
    more > 0 ? h("p", {}, `and ${counted(more, "row")} more`) : null,
  );
}

/** What was read in numbers, beside what the table prints of them. */
function comparedTable({ compared }: ReadTable): Child {
  if (!compared.length) return null;
  const hasPrinted = compared.some(({ printed }) => printed !== "");
  const rows = compared.map(({ what, read, printed, isOff }) => {
    const look = isOff ? "text wrong" : "text";
    return h("tr", {}, h("th", { scope: "row", class: "text" }, what), h("td", { class: look }, read),
      hasPrinted && h("td", { class: look }, printed));
  });
  const heads = ["Compare with the table", "Read", ...(hasPrinted ? ["Printed in the table"] : [])];
  const region = { class: "scroll", tabindex: 0, role: "region", "aria-label": "What was read, beside the table" };
  return h("div", region, h("table", { id: "table-compared" },
    h("thead", {}, h("tr", {}, heads.map((it) => h("th", { scope: "col", class: "text" }, it)))),
    h("tbody", {}, rows)));
}

/** The summary of the table, in the scripts' sentence. */
function wholeWords({ base }: ReadTable): string {
  if (!base) return "Not whole yet.";
  const votes = base.members.reduce((sum, it) => sum + it.votes, 0);
  const chairs = new Set(base.members.flatMap(({ chair }) => chair ?? [])).size;
  const none = base.members.filter(({ chair }) => chair === null);
  const named = none.slice(0, MOST_NAMED).map((it) => {
    return `${memberWords(it.code, it.name)} (${counted(it.votes, "vote")})`;
  }).join(", ");
  const more = none.length > MOST_NAMED ? ` and ${none.length - MOST_NAMED} more` : "";
  const seats = none.length
    ? `${counted(none.length, "member")} in no chair: ${named}${more}`
    : "every member is in a chair";
  return `${counted(base.members.length, "member")}, ${counted(votes, "vote")}; ${counted(chairs, "chair")}; ${seats}`;
}

async function take(preview: Preview, read: ReadTable, close: () => void): Promise<void> {
  if (!read.base) return;
  const { app, name, source } = preview;
  const base = await baseOf(app.counter, read.base, await hashOf(source.content));
  close();
  app.openStudy(studyOf(name, base));
}

/** A name for a scenario that no other one has. */
function freeName(app: App, name: string): string {
  const names = [name, ...Array.from({ length: 99 }, (_, at) => `${name} ${at + 2}`)];
  return names.find((it) => it && !isTaken(app.study, it)) ?? "another table";
}

/** Opens a second table as a scenario of the study that is open, and says what it changes and what no change says. */
async function compare(preview: Preview, { base: table }: ReadTable, close: () => void): Promise<void> {
  const { app, source } = preview;
  const { study, shown } = app;
  if (!table || !shown) return;
  const hash = await hashOf(source.content);
  close();
  const { opening } = shown.counted;
  const members = opening.members();
  const { steps, said } = secondTable({ members, open: opening.open(), chairNames: study.base.chairNames }, table);
  const name = freeName(app, preview.name.trim().replace(/\s+/g, " "));
  const head = `The scenario ${isolated(name)} is another table as changes (SHA-256 ${hash}).`;
  const choices = [...study.base.choices, [head, ...said].join(" "), ...table.choices.map((it) => `${name}: ${it}`)];
  app.take({ ...withScenario(study, name, steps), base: { ...study.base, choices } });
  openDialog("compared", `${name}, compared with ${study.name}`, (end) => [
    said.map((it) => h("p", {}, it)),
    h("p", { class: "note" }, "It is kept as a scenario, and its changes are in the list."),
    button("OK", end, { id: "compared-ok", class: "primary" }),
  ]);
}

function saveStrict(preview: Preview, read: ReadTable): void {
  if (read.base) save(`${preview.name}-members.csv`, new Blob([strictTable(read.base)], { type: "text/csv" }));
}

function buttons(preview: Preview, read: ReadTable, close: () => void): HTMLElement {
  const disabled = read.base === null;
  const { app } = preview;
  const isOpen = !app.isExample && app.shown !== null;
  return h(
    "div",
    { class: "buttons" },
    button(isOpen ? "A new study" : "Take this table", () => orRefuse(take(preview, read, close)), {
      id: "table-take", class: "primary", disabled,
    }),
    isOpen && button(`Compare with ${isolated(app.study.name)}`, () => orRefuse(compare(preview, read, close)), {
      id: "table-compare", class: "primary", disabled,
    }),
    button("Save it cleaned, as CSV", () => saveStrict(preview, read), { id: "table-save", disabled }),
  );
}

/** All of the preview for the sheet that is chosen. */
function content(preview: Preview, close: () => void, again: () => void): Child {
  const name: HTMLInputElement = h(
    "input",
    { id: "table-name", value: preview.name, oninput: () => (preview.name = name.value) },
  );
  const head = h("label", { class: "choice", for: "table-name" }, h("span", {}, "Name of the study"), name);
  const which = sheetQuestion(preview, again);
  if (preview.place === null) return [head, which];
  const read = preview.read();
  const many = read.notices.length;
  const noticed = h("details", { id: "notices", open: preview.areNoticesOpen },
    h("summary", {}, `${counted(many, "thing")} ${many === 1 ? "was" : "were"} tidied or left out`),
    h("ul", { id: "table-notices", class: "note" }, read.notices.map((it) => h("li", {}, it))));
  noticed.addEventListener("toggle", () => (preview.areNoticesOpen = noticed.open));
  return [
    head,
    which,
    questions(preview, read, again),
    faultList(preview, read, again),
    comparedTable(read),
    previewTable(preview, read),
    columnChoices(preview, again),
    many ? noticed : null,
    h("div", { class: "dialog-foot" },
      h("p", { id: "table-words", role: "status" }, wholeWords(read)),
      buttons(preview, read, close),
    ),
  ];
}

/** Opens the preview of a table. */
export function openTable(app: App, source: Source): void {
  const preview = new Preview(app, source);
  const body = h("div", {});
  const grey = (isGrey: boolean) => document.getElementById("main")?.classList.toggle("waiting", isGrey);
  const dialog = openDialog("table-dialog", "A table of members", (close) => {
    const again = () => paint(body, content(preview, close, again));
    again();
    return body;
  }, () => grey(false));
  grey(true);
  dialog.classList.add("wide");
  dialog.querySelector<HTMLElement>(".question.open input, #table-take:not(:disabled)")?.focus();
}

/** Asks for a table that is pasted as text. One of a web page or a spreadsheet is read at once. */
export function openPaste(read: (text: string, html: string) => void): void {
  let pasted = (_: ClipboardEvent): void => {};
  const dialog = openDialog("paste-dialog", "Paste a table", (close) => {
    const area = h(
      "textarea",
      {
        id: "paste-text", "aria-label": "Cells from a spreadsheet, a CSV, or a script", spellcheck: "false",
      },
    );
    const act = (text = area.value, html = "") => {
      close();
      read(text, html);
    };
    pasted = (event) => {
      const [html = "", plain = ""] = ["text/html", "text/plain"].map((it) => event.clipboardData?.getData(it) ?? "");
      const isTable = !area.value && hasTable(html);
      if (event.target === area && !isTable) return;
      event.preventDefault();
      event.stopPropagation();
      if (isTable) return act(plain, html);
      area.value += plain;
      area.focus();
    };
    return [
      h(
        "p",
        {},
        "Copy the cells in a spreadsheet, with their header, and paste them here. A row is a member: its code, " +
          "its name, its votes, its chair by number or by name. Tables as the Fund prints them are read, too.",
      ),
      area,
      h("div", { class: "buttons" }, button("Read the table", () => act(), { id: "paste-take", class: "primary" })),
    ];
  });
  dialog.addEventListener("paste", (event) => pasted(event));
}
