/** A study: the base as a script, the changes, named scenarios, and a sweep. Nothing in it is changed in place. */
import type { Kind } from "../../../bindings/javascript/src/names";
import { OPERATIONS } from "../cited";
import type { Majority, Measure } from "./words";

/** A command of a script, as in docs/FORMATS.md, with the parts of its kind. A move to no chair has null. */
export interface Command {
  readonly kind: Kind;
  readonly code?: string | null;
  readonly chair?: number | null;
  readonly votes?: number | null;
}

/** Votes asked for in per cent: `+40` and `-40` of the member's own, `15` of the total voting power. */
export interface Percentage {
  readonly kind: "percent";
  readonly of: "own" | "total";
  readonly code: string;
  readonly percent: string;
}

/** All members of a chair move to another one, and the chair is closed. */
export interface Merge {
  readonly kind: "merge";
  readonly chair: number;
  readonly to: number;
}

/** All members of a chair move to another one, or with null to none, and the chair is closed. */
export interface Dissolve {
  readonly kind: "dissolve";
  readonly chair: number;
  readonly to: number | null;
}

/** A chair is opened, the lowest one that isn't open or a chosen one, and members move there. */
export interface Split {
  readonly kind: "split";
  readonly codes: readonly string[];
  readonly to: number | "lowest";
}

/** The votes of each member of a chair, or of each member with one of these codes, plus or minus per cent of them. */
export interface Scale {
  readonly kind: "scale";
  readonly of: number | readonly string[];
  readonly percent: string;
}

/** Members get a share of the total voting power together, in the proportions of their votes: `20` per cent of it, or
 * `+6` points more than they have. The others keep their votes, or pay: the total stays. */
export interface Share {
  readonly kind: "share";
  readonly codes: readonly string[];
  readonly percent: string;
  readonly others: "keep" | "pay";
}

/** Members move to an open chair, or with null to none; those that are there already stay. */
export interface Join {
  readonly kind: "move";
  readonly codes: readonly string[];
  readonly to: number | null;
}

/** An operation is carried out as several commands: all of them or none. */
export type Operation = Merge | Dissolve | Split | Scale | Share | Join;

/** What a change does. */
export type What = Command | Percentage | Operation;

/** Whether it is an operation. A move is one if it has several codes, and else a command. */
export function isOperation(what: What): what is Operation {
  return what.kind === "move" ? "codes" in what : what.kind in OPERATIONS;
}

/** A change in the list. One that is switched off stays in the list and isn't carried out. */
export interface Change {
  readonly id: number;
  readonly on: boolean;
  readonly what: What;
  /** The name of a member that is admitted. */
  readonly name?: string;
  /** The name of the chair that it opens. */
  readonly chairName?: string;
}

/** A named list of changes. */
export interface Scenario {
  readonly name: string;
  readonly changes: readonly Change[];
}

/** A chair is named by the name that it was given, such as its Director's, by its largest member, or by both. */
export const NAMINGS = ["given", "member", "both"] as const;
export type Naming = typeof NAMINGS[number];

/** The register that a table or a script gives, and how it was read. */
export interface Base {
  /** The beginning of a script, without the study's changes and readings; its last line has a line end. */
  readonly script: string;
  /** The names of members by their codes, and of chairs by their numbers. */
  readonly names: Readonly<Record<string, string>>;
  readonly chairNames: Readonly<Record<string, string>>;
  /** What chairs are named by; by the names that they were given if it is missing. */
  readonly naming?: Naming;
  /** The members' rows in the table, from 1. */
  readonly rows: Readonly<Record<string, number>>;
  /** Choices made when the base was read, each a sentence. */
  readonly choices: readonly string[];
  /** The SHA-256 of the table's text, and its columns by what they mean. */
  readonly hash: string;
  readonly columns: Readonly<Record<string, string>>;
}

export type Who =
  | { readonly kind: "member"; readonly code: string }
  | { readonly kind: "chair"; readonly chair: number };

/** A sweep's request. From, to and by are plain decimals: votes, or per cent of the total voting power. */
export interface SweepAsked {
  readonly who: Who;
  readonly on: "base" | "changed";
  readonly unit: "votes" | "percent";
  readonly from: string;
  readonly to: string;
  readonly by: string;
}

export interface Study {
  readonly name: string;
  readonly base: Base;
  readonly changes: readonly Change[];
  readonly scenarios: readonly Scenario[];
  /** The published total to compare with, or null. */
  readonly published: number | null;
  readonly sweep: SweepAsked | null;
}

export const TABS = ["power", "change", "curve", "table", "coalition"] as const;
export type Tab = typeof TABS[number];
export const ORDERS = ["number", "votes", "power", "gain"] as const;
export type Order = typeof ORDERS[number];

/** What stands beside the base: the list of changes as a whole, the board after each change, or each scenario. */
export const COLUMNS = ["changed", "steps", "scenarios"] as const;
export type ColumnsShown = typeof COLUMNS[number];
/** What each column is compared with: the base, or the column before it. */
export const AGAINST = ["base", "before"] as const;
export type Against = typeof AGAINST[number];

/** What columns of the table of chairs are of, beside the power: each can be left out. */
export const THINGS = ["added", "ratio", "votes", "share"] as const;
export type Thing = typeof THINGS[number];

/** The view of a study. It changes no number. */
export interface View {
  readonly majorities: readonly Majority[];
  readonly measure: Measure;
  readonly order: Order;
  readonly orderAt: Majority;
  readonly digits: number;
  readonly fractions: boolean;
  readonly tab: Tab;
  readonly columns: ColumnsShown;
  readonly against: Against;
  /** What the table of chairs leaves out. */
  readonly hidden: readonly Thing[];
  /** The chair whose curve is shown, or null for that of the sweep; and whether its votes are drawn, too. */
  readonly curveChair: number | null;
  readonly curveVotes: boolean;
}

export const FIRST_VIEW: View = {
  majorities: ["half", "85"],
  measure: "share",
  order: "votes",
  orderAt: "half",
  digits: 2,
  fractions: false,
  tab: "power",
  columns: "changed",
  against: "base",
  hidden: [],
  curveChair: null,
  curveVotes: false,
};

/** A study of a base, without changes. */
export function studyOf(name: string, base: Base, changes: readonly Change[] = []): Study {
  return { name, base, changes, scenarios: [], published: null, sweep: null };
}

/** The study with other changes. */
export function withChanges(study: Study, changes: readonly Change[]): Study {
  return { ...study, changes };
}

/** A number that no change of the study has. */
export function freshId(study: Study): number {
  const all = [study.changes, ...study.scenarios.map((it) => it.changes)];
  return all.flat().reduce((most, { id }) => Math.max(most, id), 0) + 1;
}

/** The study with these changes, which are kept as a scenario, too. */
export function withScenario(study: Study, name: string, given: readonly Omit<Change, "id" | "on">[]): Study {
  const first = freshId(study);
  const changes = given.map((it, at) => ({ ...it, id: first + at, on: true }));
  const again = changes.map((it) => ({ ...it, id: it.id + changes.length }));
  return { ...study, changes, scenarios: [...study.scenarios, { name, changes: again }] };
}

/** The study with changes added at the end. */
export function withAdded(study: Study, whats: readonly What[], name?: string): Study {
  const first = freshId(study);
  const added = whats.map((what, at) => ({ id: first + at, on: true, what, ...(name ? { name } : {}) }));
  return withChanges(study, [...study.changes, ...added]);
}
