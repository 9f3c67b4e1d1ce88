/** What the page asks of the registers, and the answers. Both go to a worker and back as plain data. */
import type { MemberRow } from "../../../bindings/javascript/src/tables";
import type { Reading } from "./reading";
import type { Seat, Snapshot } from "./standing";
import type { Change, Command, SweepAsked, Who } from "../study/study";
import type { Contents, Given } from "../tables/sources";
import type { Weights } from "./plain";
import type { Ratio } from "../study/fractions";
import type { Majority, Measure } from "../study/words";

/**
 * The outcome of a change: its commands in the script, and `before` their members before the change. A refused
 * operation has no commands there, since none of them is carried out; `refused` is the one that the register refused.
 */
export type Outcome =
  | { readonly kind: "off" }
  | { readonly kind: "impossible"; readonly why: string }
  | { readonly kind: "accepted"; readonly commands: readonly Command[]; readonly before: readonly Seat[] }
  | Refusal;

export interface Refusal {
  readonly kind: "refused";
  readonly commands: readonly Command[];
  readonly refused: Command;
  readonly number: number;
  readonly name: string;
}

/** A script that was read. */
export interface Opened {
  /** Its beginning, up to the first publication or reading; all of it if it has very many commands. */
  readonly base: string;
  /** The other commands, and the majorities of its readings. */
  readonly commands: readonly Command[];
  readonly majorities: readonly Majority[];
  /** The number of records in the base that it has as a long script, or 0. */
  readonly long: number;
}

/** A base with changes, counted. */
export interface Counts {
  readonly before: readonly Reading[];
  readonly after: readonly Reading[];
  readonly opening: Snapshot;
  readonly standing: Snapshot;
  /** The outcomes by the changes' numbers, and the commands of the changes that are on and have any. */
  readonly outcomes: ReadonlyMap<number, Outcome>;
  readonly commands: readonly Command[];
}

/** A point of a sweep: its value as requested, the votes of the swept members, the commands, and the readings. */
export interface Point {
  readonly value: string;
  readonly votes: number;
  readonly commands: readonly Command[];
  readonly readings: readonly Reading[];
}

/** What is asked of a chair: "leads" is that it has more swings than another chair, "reaches" that it has some power,
 * and "keeps" that it has this power with all greater votes, too. */
export type Statement = "prevents" | "carries" | "counts" | "leads" | "reaches" | "keeps";

/** A power that is asked for: the least value of a measure, as a plain decimal; of shares in per cent. */
export interface Power {
  readonly measure: Measure;
  readonly least: string;
}

/** Where a statement turns between two numbers of votes. `other` is the other chair of "leads", and `power` what
 * "reaches" and "keeps" speak of. */
export interface Question {
  readonly majority: Majority;
  readonly what: Statement;
  readonly other: number | null;
  readonly power: Power | null;
  readonly low: number;
  readonly high: number;
}

/** Whether a statement holds at the lower number, and the least votes from which it is otherwise; null for none. */
export interface Turn {
  readonly isAtLow: boolean;
  readonly votes: number | null;
  /** The commands for one vote less, and for these votes. */
  readonly commands: readonly (readonly Command[])[];
}

/** The turns of what was asked of a chair. */
export interface Turns {
  readonly chair: number;
  /** The votes of all others in the total, and the votes now of what was varied. */
  readonly rest: number;
  readonly votes: number;
  readonly turns: readonly Turn[];
}

/** The least votes from which a statement holds, or with `isFrom` false, from which it doesn't hold any more. */
export interface Threshold {
  readonly majority: Majority;
  readonly what: Statement;
  readonly isFrom: boolean;
  readonly votes: number;
  /** The share of the total voting power. */
  readonly share: Ratio | null;
}

/** A point with its readings as numbers. */
export interface PackedPoint extends Omit<Point, "readings"> {
  readonly readings: Float64Array;
}

/** Some points of a sweep, the chair that is swept, and the votes of all others in the total. */
export interface SweptPart {
  readonly chair: number;
  readonly rest: number;
  readonly points: readonly PackedPoint[];
}

export interface Swept extends Omit<SweptPart, "points"> {
  readonly points: readonly Point[];
  readonly thresholds: readonly Threshold[];
  readonly milliseconds: number;
  /** The number of workers at its end. */
  readonly desks: number;
}

/** The greatest gain or loss, and the chairs that have it. */
export interface Extreme {
  readonly chairs: readonly number[];
  readonly gain: Ratio;
}

/** A move that was tried: the measure of the chair that the member was moved to, its gain, and who gains and loses. */
export interface Tried {
  readonly code: string;
  readonly chair: number;
  readonly value: Ratio;
  readonly gain: Ratio;
  readonly most: Extreme | null;
  readonly least: Extreme | null;
}

/** A base with changes: the base by its number, under which it was sent. */
export interface Board {
  readonly base: number;
  readonly changes: readonly Change[];
}

/** Places in a list, from one up to another that isn't among them. */
export interface Interval {
  readonly from: number;
  readonly to: number;
}

/** The bases that are kept at most. */
export const MOST_BASES = 8;

/** The orders by their kinds: what they pass, and what answers them. */
export interface Orders {
  /** Loads the module. */
  module: { ask: Uint8Array; answer: null };
  /** Makes the script of a table's members. */
  table: { ask: readonly MemberRow[]; answer: string };
  /** Reads a script; one that ends in a fault is refused. */
  script: { ask: string; answer: Opened };
  /** Keeps a base under a number. */
  base: { ask: { readonly number: number; readonly script: string }; answer: null };
  count: { ask: Board & { readonly majorities: readonly Majority[] }; answer: Counts };
  /** Counts points of a sweep: those from one place among its values up to another. */
  sweep: { ask: Board & Interval & { readonly majorities: readonly Majority[]; readonly asked: SweepAsked };
    answer: SweptPart };
  /** Varies the votes of a member or a chair, and finds where statements turn. */
  turns: { ask: Board & { readonly who: Who; readonly questions: readonly Question[] }; answer: Turns };
  /** Moves each of some members to each of some chairs, and back. */
  best: {
    ask: Board & {
      readonly codes: readonly string[];
      readonly chairs: readonly number[];
      readonly majority: Majority;
      readonly measure: Measure;
    };
    answer: readonly Tried[];
  };
  /** Replays a script: the text that `board replay` prints. */
  lines: { ask: string; answer: string };
  /** Replays a script, and compares its last readings with others. */
  check: { ask: { readonly script: string; readonly readings: readonly Reading[] }; answer: boolean };
  /** Reads a file or a text. */
  read: { ask: Given; answer: Contents };
  /** Packs texts, by their paths, as a zip file. */
  pack: { ask: Readonly<Record<string, string>>; answer: Uint8Array };
  /** Counts a board over all its coalitions, without the module. */
  plain: { ask: Weights; answer: readonly number[] };
}

export type Kind = keyof Orders;

/** Whether a long order goes on: it says how much of it is done, from 0 to 1, and throws once it is cancelled. */
export type Progress = (done: number) => Promise<void>;
