/** What the reader of tables works with: sheets, layouts, answers, questions, and the table that comes out. */
import type { Thousands } from "./numbers";

/** The meanings of a column. */
export const MEANINGS = ["code", "name", "votes", "chair", "chairName", "chairTotal", "suspended"] as const;
export type Meaning = typeof MEANINGS[number];
export const MEANING_WORDS: Readonly<Record<Meaning, string>> = {
  code: "Code",
  name: "Name",
  votes: "Votes",
  chair: "Chair, by number or name",
  chairName: "Chair's name",
  chairTotal: "Printed total of the chair",
  suspended: "Suspended",
};

/** A row in which something is struck out, and what it is; nothing if it is all of the row. */
export interface Struck {
  readonly row: number;
  readonly words: string;
}

/** A table as cells without blanks around them. Row n of the sheet is `rows[n - 1]`. */
export interface Sheet {
  readonly rows: readonly (readonly string[])[];
  readonly width: number;
  /** What separates the cells of a text, or an empty string where the source has cells of its own. */
  readonly delimiter: string;
  /** How the sheet was read, each a sentence. */
  readonly notices: readonly string[];
  /** What is struck out. It isn't in the cells, but those of a row that is struck out as a whole. */
  readonly struck?: readonly Struck[];
}

/** A sheet of a workbook, or a table of a web page. */
export interface NamedSheet {
  readonly name: string;
  readonly sheet: Sheet;
}

/** How the columns of a sheet are read. */
export interface Layout {
  /** The row of the header, 0 if there is none. */
  readonly header: number;
  /** The column of each meaning, -1 if there is none. */
  readonly columns: Readonly<Record<Meaning, number>>;
  readonly thousands: Thousands;
  /** Columns that may be the votes, if the sheet doesn't say which. */
  readonly votesMaybe: readonly number[];
  /** Other columns with headings of votes. */
  readonly unread: readonly number[];
  /** Columns of per cent. */
  readonly percents: readonly number[];
}

/** The user's answers: the chosen option by the question's id, and the rows that the user leaves out. */
export interface Answers {
  readonly chosen: ReadonlyMap<string, string>;
  readonly leftOut: ReadonlySet<number>;
}
export const NO_ANSWERS: Answers = { chosen: new Map(), leftOut: new Set() };

/** What a question is about. */
export type QuestionKind =
  | "votes" // which of several columns has the votes
  | "chairs" // no column gives chairs
  | "merged" // blank chairs under filled ones
  | "alternate" // a second name in a chair's block
  | "headings" // rows that equal the sum of the rows below them
  | "single" // rows under no heading
  | "total" // a row that may be a total
  | "sums" // printed totals of chairs that differ from the sums
  | "repeat" // the same name twice
  | "aggregate" // a row that may be the sum of members, such as a group or a region
  | "struck" // rows that are struck out, or in which something is
  | "similar" // names of chairs that are nearly equal
  | "outside" // votes that the table leaves out
  | "percents" // per cents that the votes of their rows don't give
  | "counts" // a printed number of members or chairs that isn't that of the table
  | "suspended"; // words on a suspension outside of its column

export interface Option {
  readonly key: string;
  readonly words: string;
}

/** A number that is asked for: its least and greatest value, and the one that is taken now. */
export interface AskedNumber {
  readonly low: number;
  readonly high: number;
  readonly value: number;
}

/** A question in words. A null answer is open. */
export interface Question {
  readonly id: string;
  readonly kind: QuestionKind;
  /** The row that it is about, or 0 if it is about several. */
  readonly row: number;
  readonly words: string;
  readonly options: readonly Option[];
  readonly answer: string | null;
  /** A number that belongs to the answer, where only its range is known: its own answer has the id with `-number`. */
  readonly number: AskedNumber | null;
  /** The sentence for the list of choices, once it is answered. */
  readonly choice: string;
}

/** A cell that can't be read; its row is 0 where the fault is the table's. */
export interface CellFault {
  readonly row: number;
  readonly meaning: Meaning;
  readonly reason: string;
}

/** A member as a table gives it. Its row is 0 if the table leaves it out, and an answer adds it. */
export interface TableMember {
  readonly code: string;
  readonly name: string;
  readonly votes: number;
  readonly chair: number | null;
  readonly suspended: boolean;
  readonly row: number;
}

/** The members of a whole table, and how it was read. */
export interface TableBase {
  readonly members: readonly TableMember[];
  readonly chairNames: Readonly<Record<number, string>>;
  /** What was chosen or converted, each a sentence. */
  readonly choices: readonly string[];
  /** The name of the column of each meaning. */
  readonly columns: Readonly<Record<string, string>>;
}

/** A number that was read, beside what the table prints of it; `isOff` where they differ, or it looks odd. */
export interface Compared {
  readonly what: string;
  readonly read: string;
  readonly printed: string;
  readonly isOff: boolean;
}

/** The contents of a table. It has a base once nothing is wrong and nothing is open. */
export interface ReadTable {
  readonly base: TableBase | null;
  readonly faults: readonly CellFault[];
  readonly questions: readonly Question[];
  readonly notices: readonly string[];
  /** What a row is, if it isn't a member: in words, by its number. */
  readonly roles: ReadonlyMap<number, string>;
  /** What was read in numbers, once the table is whole. */
  readonly compared: readonly Compared[];
}

/** A file or a text that can't be read as a table: the message is the sentence to show. */
export class Unreadable extends Error {}
