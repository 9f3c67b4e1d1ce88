/** The dialogs of operations: merging, splitting and dissolving a chair, and votes of several members in per cent. */
import { percentage, type Typed } from "../study/amounts";
import type { App } from "./app";
import { changeWords, refusalWords } from "../study/commandWords";
import { openDialog } from "./dialogs";
import { button, byId, choice, h, type Child } from "./dom";
import { counted } from "../study/fractions";
import { lastOutcome, say } from "./moves";
import { isolated, listed, memberWords } from "../study/names";
import { chairChoices, closedChair, type Place } from "../engine/standing";
import { withAdded, type Operation, type Scale, type Share } from "../study/study";
import { CHAIRS, MOST_CHAIRS } from "../study/words";
import { choiceForm, fieldForm, readField } from "./field";
import { memberTicks } from "./ticks";

/** The card of the chair to which an operation moves members; it has the focus if the one that had it is closed. */
function focusCard(place: string): void {
  const isLost = [document.body, byId("filter")].includes(document.activeElement as HTMLElement);
  if (isLost) document.getElementById(`card-${place}`)?.focus();
}

/** Adds an operation to the changes, and says what the register made of it. The card with the members is opened. */
async function operate(app: App, what: Operation, place: string): Promise<void> {
  const study = withAdded(app.study, [what]);
  if (place) app.open.cards.add(place);
  app.take(study);
  const outcome = await lastOutcome(app, study);
  const [change] = study.changes.slice(-1);
  if (outcome === null || !change || !app.shown) return;
  const { opening } = app.shown.counted;
  const words = changeWords(change, outcome, opening);
  if (outcome?.kind === "accepted") say(`${words}.`);
  else say(`Not carried out: ${words}: ${refusalWords(outcome, opening) || "the count ended in a fault"}.`);
  focusCard(place);
}

/** A chair by number and name, and its members. */
function chairOf(app: App, chair: number): { title: string; members: readonly Place[] } {
  const standing = app.shown?.counted.standing;
  const members = standing?.in(chair) ?? [];
  return { title: `chair ${chair} ${isolated(standing?.name(chair) ?? "")}`, members };
}

/** The warning that members are suspended, which the register doesn't move; empty if none is. */
function suspendedWords(members: readonly Place[]): string {
  const names = members.filter((it) => it.suspended).map(({ code, name }) => memberWords(code, name));
  if (names.length === 0) return "";
  const [are, them] = names.length === 1 ? ["is", "it"] : ["are", "them"];
  return `${listed(names)} ${are} suspended. Suspended members can't be moved, so the register will refuse the move: ` +
    `restore ${them} first.`;
}

const WHOLE = "This is one change: all of it is carried out, or nothing.";

/** Members that move to a chair which is chosen, and their chair, which is closed. */
function openEmptying(app: App, kind: "merge" | "dissolve", chair: number): void {
  const { title, members } = chairOf(app, chair);
  const others = app.shown ? chairChoices(app.shown.counted.standing).filter(([key]) => key !== String(chair)) : [];
  const isMerge = kind === "merge";
  const none: [string, string] = ["none", "no chair"];
  const options = isMerge ? others : [none, ...others];
  const [act, label, where] = isMerge
    ? ["Merge", "Into", "to the chosen chair"]
    : ["Dissolve", "Its members go to", "to the chosen chair, or to no chair, where no vote is cast"];
  const who = members.length === 1 ? "Its one member moves" : `Its ${members.length} members move`;
  openDialog(kind, `${act} ${title}`, (close) => [
    h("p", {}, `${who} ${where}, and chair ${chair} is closed. ${WHOLE}`),
    h("p", { class: "wrong" }, suspendedWords(members)),
    options.length === 0 && h("p", { class: "wrong" }, "No other chair is open."),
    options.length > 0 && choiceForm(kind, label, options, act, (choice) => {
      close();
      const to = choice === "none" ? null : Number(choice);
      const what: Operation = isMerge && to !== null ? { kind: "merge", chair, to } : { kind: "dissolve", chair, to };
      void operate(app, what, choice);
    }),
  ]);
}

/** Gives the codes of ticked members, or null after the sentence that none is. */
type Codes = () => readonly string[] | null;

/** A form that opens a chair for members: the lowest one that isn't open, or a chosen one. */
function splitForm(app: App, id: string, codes: Codes, close: () => void): Child {
  const open = app.shown?.counted.standing.open() ?? [];
  const lowest = closedChair(open);
  if (lowest === null) return h("p", { class: "wrong" }, `All ${MOST_CHAIRS} chairs are open: close one first.`);
  const first: [string, string] = ["lowest", `${lowest} (the lowest)`];
  const closed = CHAIRS.filter((it) => !open.includes(it)).map((it): [string, string] => [String(it), String(it)]);
  return choiceForm(id, "New chair", [first, ...closed], "Move", (choice) => {
    const found = codes();
    if (!found) return;
    close();
    const to = choice === "lowest" ? choice : Number(choice);
    void operate(app, { kind: "split", codes: found, to }, String(to === "lowest" ? lowest : to));
  });
}

/** A form that moves members to an open chair, or to none. */
function joinForm(app: App, id: string, codes: Codes, close: () => void): Child {
  const open = app.shown ? chairChoices(app.shown.counted.standing) : [];
  return choiceForm(id, "An open chair", [...open, ["none", "no chair"]], "Move", (choice) => {
    const found = codes();
    if (!found) return;
    close();
    void operate(app, { kind: "move", codes: found, to: choice === "none" ? null : Number(choice) }, choice);
  });
}

const OTHERS: readonly (readonly [Share["others"], string])[] = [
  ["pay", "pay for it in proportion"], ["keep", "keep their votes"],
];

/** A form that gives members a share of the total voting power together. */
function shareForm(app: App, id: string, codes: Codes, close: () => void): Child {
  let others: Share["others"] = "pay";
  const read = (text: string): Typed<string> => {
    const found = percentage(text, /^\s*[-+\u2212]/.test(text) ? "change" : "share");
    return "value" in found && Number(found.value) >= 100 ? { wrong: "A share is below 100 per cent." } : found;
  };
  const label = "Per cent of the total together, or with a sign points more or less";
  const field = readField(`${id}-share`, label, read, { placeholder: "20 or +6" });
  const form = fieldForm(field, "Give the share", (percent) => {
    const found = codes();
    if (!found) return;
    close();
    void operate(app, { kind: "share", codes: found, percent, others }, "");
  });
  const choose = (it: string) => (others = it === "keep" ? "keep" : "pay");
  return [choice(`${id}-others`, "The others", OTHERS, others, choose), form];
}

/** A form for votes plus or minus per cent. */
function scaleForm(app: App, id: string, of: () => Scale["of"] | null, place: string, close: () => void): Child {
  const read = (text: string) => percentage(text, "change");
  const label = "Plus or minus per cent of each member's votes";
  const field = readField(`${id}-percent`, label, read, { placeholder: "+40" });
  return fieldForm(field, "Change votes", (percent) => {
    const found = of();
    if (found === null) return;
    close();
    void operate(app, { kind: "scale", of: found, percent }, place);
  });
}

const ROUNDED =
  "Each member's votes are rounded to whole votes, half to even. Those of suspended members change, too; they still " +
  "aren't cast.";

function openScale(app: App, chair: number): void {
  const { title, members } = chairOf(app, chair);
  openDialog("scale", `Votes of ${title}`, (close) => [
    h("p", {}, `${counted(members.length, "member")}. ${ROUNDED}`),
    scaleForm(app, "scale", () => chair, String(chair), close),
  ]);
}

/** A dialog with ticked members, and forms for them. */
function openTicked(
  app: App,
  id: string,
  title: string,
  members: readonly Place[],
  forms: (codes: Codes, close: () => void) => Child,
): void {
  openDialog(id, title, (close) => {
    const suspended = h("p", { id: `${id}-suspended`, class: "wrong", role: "status" });
    const wrong = h("p", { id: `${id}-wrong`, class: "wrong", role: "alert" });
    const ticks = memberTicks(app, id, members, (ticked) => {
      wrong.textContent = "";
      suspended.textContent = suspendedWords(ticked);
    });
    const codes = () => {
      const found = ticks.ticked().map(({ code }) => code);
      wrong.textContent = found.length ? "" : "No member is ticked yet: tick at least one.";
      return found.length ? found : null;
    };
    return [ticks.content, wrong, forms(codes, close), suspended];
  });
}

function openSplit(app: App, chair: number): void {
  const { title, members } = chairOf(app, chair);
  openTicked(app, "split", `Split ${title}`, members, (codes, close) => [
    h("p", {}, "The ticked members move to a chair that is opened for them; the others stay."),
    splitForm(app, "split", codes, close),
  ]);
}

/** Asks for members of any chairs, and what to do with them. */
export function openGroup(app: App): void {
  const members = app.shown?.counted.standing.members() ?? [];
  openTicked(app, "group", "Several members", members, (codes, close) => [
    h("h3", {}, "Their votes"),
    scaleForm(app, "group", codes, "", close),
    h("p", { class: "note" }, ROUNDED),
    h("h3", {}, "A share of the total for all of them"),
    shareForm(app, "group", codes, close),
    h("p", { class: "note" }, "They keep their proportions. The votes are whole, and are shared out by the largest " +
      "remainders."),
    h("h3", {}, "Their chair"),
    splitForm(app, "group", codes, close),
    joinForm(app, "group-join", codes, close),
  ]);
}

/** The buttons of a chair with members. */
export function operationButtons(app: App, chair: number): Child {
  return [
    button("Merge into…", () => openEmptying(app, "merge", chair), { id: `merge-${chair}` }),
    button("Split…", () => openSplit(app, chair), { id: `split-${chair}` }),
    button("Votes ±%…", () => openScale(app, chair), { id: `scale-${chair}` }),
    button("Dissolve…", () => openEmptying(app, "dissolve", chair), { id: `dissolve-${chair}` }),
  ];
}
