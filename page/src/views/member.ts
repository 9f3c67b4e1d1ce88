/** The menu of a member: move it, give it other votes, suspend, restore or withdraw it. */
import type { App } from "./app";
import { percentage, wholeNumber, type PercentKind, type Typed } from "../study/amounts";
import { memberWords } from "../study/commandWords";
import { openDialog } from "./dialogs";
import { button, h } from "./dom";
import { fractionText, grouped, over, percent } from "../study/fractions";
import { moveTo } from "./moves";
import { isolated } from "../study/names";
import { nameOf, withMemberName } from "../study/naming";
import { chairChoices, closedChair, type Place } from "../engine/standing";
import { withAdded, type Command, type Percentage } from "../study/study";
import { MOST_VOTES } from "../study/words";
import { choiceForm, fieldForm, readField } from "./field";
import { openThresholds } from "./thresholds";

/** The places where a member can go: the chairs, none, and a new chair. */
function places(app: App): [string, string][] {
  const { shown } = app;
  if (!shown) return [];
  const { standing } = shown.counted;
  const next = closedChair(standing.open());
  const fresh: [string, string][] = next ? [["new", `a new chair, ${next}`]] : [];
  return [...chairChoices(standing), ["none", "in no chair"], ...fresh];
}

function moveForm(app: App, place: Place, close: () => void): HTMLFormElement {
  const own = String(place.chair ?? "none");
  const others = places(app).filter(([key]) => key !== own);
  return choiceForm("move", "Move to", [["", "choose a place"], ...others], "Move", (target) => {
    close();
    void moveTo(app, place.code, target);
  });
}

function readVotes(text: string): Typed<number> {
  return wholeNumber(text, MOST_VOTES);
}

/** Three fields for votes: a number, plus or minus per cent, and per cent of the total. */
function votesForms(code: string, add: (what: Command | Percentage) => void): HTMLElement[] {
  const read = (kind: PercentKind) => (text: string) => percentage(text, kind);
  const votes = readField("votes-number", "Votes, as a number", readVotes, { inputmode: "numeric" });
  const own = readField("votes-own", "Plus or minus per cent of its own votes", read("change"), { placeholder: "+40" });
  const share = { placeholder: "15", inputmode: "decimal" };
  const total = readField("votes-total", "Per cent of the total voting power", read("share"), share);
  return [
    fieldForm(votes, "Set votes", (number) => add({ kind: "votes", code, votes: number })),
    fieldForm(own, "Change votes", (text) => add({ kind: "percent", of: "own", code, percent: text })),
    fieldForm(total, "Set share", (text) => add({ kind: "percent", of: "total", code, percent: text })),
  ];
}

/** A field for the member's name. */
function nameForm(app: App, place: Place, close: () => void): HTMLFormElement {
  const field = readField("member-name", "Name", nameOf, { value: place.name, dir: "auto" });
  return fieldForm(field, "Rename", (name) => {
    close();
    app.take(withMemberName(app.study, place.code, name));
  });
}

/** The place of a member, in words. */
function placeWords(app: App, place: Place): HTMLElement {
  const [reading] = app.shown?.counted.after.values() ?? [];
  const share = place.suspended || !reading ? null : over(place.votes, reading.total);
  const part = share ? `, ${percent(share, app.view.digits)} % of the total` : "";
  const where = place.chair === null ? "in no chair" : `chair ${place.chair}`;
  const given = place.row ? `. Given: row ${place.row} of the table` : "";
  const words = `${grouped(place.votes)} votes${part}, ${where}${place.suspended ? ", suspended" : ""}${given}`;
  return h("p", { title: share ? `made here: ${fractionText(share)}` : "" }, words);
}

/** Opens the menu of a member. */
export function openMember(app: App, code: string): void {
  const place = app.shown?.counted.standing.place(code);
  if (!place) return;
  openDialog("member", memberWords(code, place.name), (close) => {
    const add = (what: Command | Percentage) => {
      close();
      app.take(withAdded(app.study, [what]));
    };
    const find = () => {
      close();
      openThresholds(app, { kind: "member", code });
    };
    return [
      placeWords(app, place),
      moveForm(app, place, close),
      votesForms(code, add),
      nameForm(app, place, close),
      h("div", { class: "buttons" },
        place.suspended
          ? button("Restore", () => add({ kind: "restore", code }), { id: "restore" })
          : button("Suspend", () => add({ kind: "suspend", code }), { id: "suspend" }),
        button("Withdraw", () => add({ kind: "withdraw", code }), { id: "withdraw" }),
        button("Find thresholds…", find, { id: "find-member" }),
      ),
      h("p", { class: "note" }, "The register answers each command: one that it refuses stays in the list, in red."),
    ];
  });
}

function readCode(text: string): Typed<string> {
  const value = text.trim();
  if (/^[A-Z]{3}$/.test(value)) return { value };
  const words = value ? `“${isolated(value)}” isn't a code` : "There is no code yet";
  return { wrong: `${words}: write three capitals, A to Z.` };
}

/** A list of the chairs for a member that is admitted. */
function chairList(app: App): HTMLSelectElement {
  const chairs = [["", "in no chair"], ...places(app).filter(([key]) => /\d/.test(key))];
  const options = chairs.map(([key, words]) => h("option", { value: key ?? "" }, words ?? ""));
  return h("select", { id: "admit-chair" }, options);
}

/** Asks for a member to admit. */
export function openAdmit(app: App): void {
  openDialog("admit", "Admit a member", (close) => {
    const code = readField("admit-code", "Code, three capitals", readCode);
    const name = readField("admit-name", "Name", nameOf, { dir: "auto" });
    const votes = readField("admit-votes", "Votes", readVotes, { inputmode: "numeric" });
    const list = chairList(app);
    const submit = (event: Event) => {
      event.preventDefault();
      // Read from the last to the first, so that the first wrong one has the focus.
      const [number, called, letters] = [votes.read(), name.read(), code.read()];
      if (number === null || called === null || letters === null) return;
      const admit: Command = { kind: "admit", code: letters, votes: number };
      const move: Command[] = list.value ? [{ kind: "move", code: letters, chair: Number(list.value) }] : [];
      close();
      app.take(withAdded(app.study, [admit, ...move], called));
    };
    return h("form", { class: "stack", onsubmit: submit },
      [code, name, votes].map((it) => [it.label, it.input, it.wrong]),
      h("label", { for: "admit-chair" }, "Chair"), list,
      h("button", { id: "admit-take" }, "Admit"),
    );
  });
}
