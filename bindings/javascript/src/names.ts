/** The names, limits and sentences of the library. Made by tools/made from the sources: do not edit. */

/** The version of the package and of its module. */
export const VERSION = "1.0.0";
export const CHAIRS = 32;
export const MEMBERS = 256;
export const COMMANDS = 1_000_000;
export const READERS = 4;
export const INPUT_BYTES = 4_194_304;
export const MEMBER_VOTES = 1_099_511_627_776;
export const TOTAL_VOTES = 281_474_976_710_656;

/** Which coalitions win. */
export type Majority = "half" | "70" | "85" | "quorum";

/** The majorities in the order of the library's numbers, from 0. */
export const MAJORITIES: readonly Majority[] = Object.freeze(["half", "70", "85", "quorum"] as const);

/** What wins by each majority. */
export const MEANINGS: Readonly<Record<Majority, string>> = Object.freeze({
  half: "more than half of the votes cast, if all open chairs vote",
  "70": "at least one vote, and at least 70 per cent of the total",
  "85": "at least one vote, and at least 85 per cent of the total",
  quorum: "more than half of the open chairs, with at least half of the total",
});

/** What a command does. */
export type Kind = "open" | "close" | "move" | "votes" | "suspend" | "restore" | "admit" | "withdraw";
/** A part of a command. */
export type Part = "chair" | "code" | "votes";

/** The parts of each kind of command, in the order of the library's numbers, from 0. */
export const KINDS: Readonly<Record<Kind, readonly Part[]>> = Object.freeze({
  open: ["chair"],
  close: ["chair"],
  move: ["code", "chair"],
  votes: ["code", "votes"],
  suspend: ["code"],
  restore: ["code"],
  admit: ["code", "votes"],
  withdraw: ["code"],
});
export const PUBLISH = 8;
export const READ = 9;

/** The name and the reason of each refusal and each fault by its number. Number 0 has none. */
export const REFUSALS: readonly (readonly [name: string, reason: string])[] = Object.freeze([
  ["", ""],
  ["ChairOpen", "the chair is open already"],
  ["ChairNotOpen", "the chair is not open"],
  ["ChairHasMembers", "the chair has members, suspended ones counted"],
  ["UnknownMember", "no member has this code"],
  ["MemberSuspended", "the member's voting rights are suspended"],
  ["AlreadyThere", "the member is there already"],
  ["AlreadySuspended", "the member is suspended already"],
  ["NotSuspended", "the member is not suspended"],
  ["JournalFull", "as many commands as the journal limit were accepted"],
  ["OutOfMemory", "out of memory"],
  ["DuplicateMember", "two members have the same code"],
  ["TooManyMembers", "there are more than 256 members"],
  ["BadLimit", "a limit is out of its range"],
  ["BadChair", "a chair's number is not from 1 to 32"],
  ["BadMember", "a member's code is not three ASCII capitals"],
  ["VotesTooLarge", "a member has more than 2^40 votes"],
  ["BadRecord", "a record is not well formed"],
  ["NoEntry", "no place or no entry for a reader"],
  ["ReadFault", "the input could not be read"],
  ["WriteFault", "the output could not be written"],
  ["BadHeader", "the first record is not 'member,votes'"],
  ["BadReader", "there is no reader of this number"],
  ["Busy", "a reader is blocking the publication"],
  ["Mismatch", "a reading is not the sheet of a publication, or is older than the one before"],
  ["MemberExists", "a member has this code already"],
  ["MemberSeated", "the member sits in a chair"],
  ["GateClosed", "a gate was closed"],
  ["NoScript", "the input ends before the record 'script'"],
  ["TooLong", "the input has more than 4,194,304 bytes"],
  ["BadJournal", "a command of the journal is refused"],
  ["BadCuts", "the cuts are not in order, or one is past the journal's end"],
  ["BadSheet", "the words are not a sheet's"],
  ["TooManyChairs", "more chairs are open than are counted"],
  ["NoRegister", "the handle has no register"],
  ["BadIndex", "there is no item at this index"],
] as const);
export const CHAIR_OPEN = 1;
export const CHAIR_NOT_OPEN = 2;
export const CHAIR_HAS_MEMBERS = 3;
export const UNKNOWN_MEMBER = 4;
export const MEMBER_SUSPENDED = 5;
export const ALREADY_THERE = 6;
export const ALREADY_SUSPENDED = 7;
export const NOT_SUSPENDED = 8;
export const JOURNAL_FULL = 9;
export const OUT_OF_MEMORY = 10;
export const DUPLICATE_MEMBER = 11;
export const TOO_MANY_MEMBERS = 12;
export const BAD_LIMIT = 13;
export const BAD_CHAIR = 14;
export const BAD_MEMBER = 15;
export const VOTES_TOO_LARGE = 16;
export const BAD_RECORD = 17;
export const NO_ENTRY = 18;
export const READ_FAULT = 19;
export const WRITE_FAULT = 20;
export const BAD_HEADER = 21;
export const BAD_READER = 22;
export const BUSY = 23;
export const MISMATCH = 24;
export const MEMBER_EXISTS = 25;
export const MEMBER_SEATED = 26;
export const GATE_CLOSED = 27;
export const NO_SCRIPT = 28;
export const TOO_LONG = 29;
export const BAD_JOURNAL = 30;
export const BAD_CUTS = 31;
export const BAD_SHEET = 32;
export const TOO_MANY_CHAIRS = 33;
export const NO_REGISTER = 34;
export const BAD_INDEX = 35;

/** The columns of a table of members. */
export const COLUMNS: readonly string[] = ["code", "name", "votes", "chair", "chair_name", "suspended"];

/** What is allowed for a value. */
export const ALLOWED = Object.freeze({
  weight: "votes are whole numbers from 0",
  weights: "a board has at most 32 chairs",
  total: "votes are whole numbers from 0",
  total_most: "at most 281474976710656",
  total_least: "at least the sum of the weights",
  votes: "votes are whole numbers from 0 to 1099511627776",
  chair: "a chair is a whole number from 1 to 32",
  seat: "a chair is a whole number from 1 to 32, or null for no chair",
  code: "a code is three ASCII capitals",
  name: "a name is text",
  suspended: "true or false",
  majority: "half, 70, 85 or quorum",
  readers: "a whole number from 1 to 4",
  journal: "a whole number from 1 to 1000000",
  length: "a whole number from 0 to the number of accepted commands",
  columns: "the columns are code, name, votes, chair, chair_name and suspended",
});
