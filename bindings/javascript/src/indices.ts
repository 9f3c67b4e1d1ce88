/** The counts of a board with the power of its chairs, and the calls that count boards. */
import { fraction, type Fraction } from "./fraction.js";
import { loaded, shared } from "./load.js";
import { COUNTS, LARGEST, MEMBER, SHEET, WORD, putWord, wordIn, wordOf, type Shared } from "./memory.js";
import { ALLOWED, CHAIRS, MAJORITIES, TOTAL_VOTES, type Majority } from "./names.js";
import { BAD_RECORD, BAD_SHEET, Refused } from "./refused.js";
import { chairNames, rowsOf, type MemberTable, type Row } from "./tables.js";
import { isList, isWhole, items, majorityNumber, options, shown, whole, wrongType, type Whole } from "./values.js";
import { inWorker, processors } from "./worker.js";

/** An open chair and its voting power. */
export interface Chair {
  /** Its number, from 1 to 32. */
  readonly chair: number;
  /** Its name, if the chairs of the board have names; null if it has none. */
  readonly name?: string | null;
  /** The votes that it casts as one block. */
  readonly weight: number;
  /** How many sets of other chairs lose, and win once it is added. */
  readonly swings: number;
  /** The Banzhaf measure: its swings over the number of all sets of other chairs. */
  readonly banzhaf: Fraction;
  /** The normalised Banzhaf index: its swings over those of all chairs; null if no chair has one. */
  readonly share: Fraction | null;
  /** Coleman's power to prevent action: its swings over the winning coalitions; null if none wins. */
  readonly prevent: Fraction | null;
  /** Coleman's power to initiate action: its swings over the losing coalitions. */
  readonly initiate: Fraction;
}

/** The winning coalitions of a board by a majority, and the voting power of its chairs. */
export interface Indices {
  readonly majority: Majority;
  /** The least number of votes that can win. */
  readonly quota: number;
  /** The least number of chairs that can win; 0 if the majority requires none. */
  readonly leastSize: number;
  /** The votes of the open chairs together. */
  readonly cast: number;
  /** The total voting power, in votes. */
  readonly total: number;
  /** The number of winning coalitions. */
  readonly omega: number;
  /** The number of all coalitions: 2 to the power of the number of open chairs. */
  readonly coalitions: number;
  /** Coleman's power of the board to act: omega over coalitions. */
  readonly act: Fraction;
  /** The open chairs by number. */
  readonly chairs: readonly Chair[];
}

/** The names of chairs by their numbers. */
export type Names = ReadonlyMap<number, string>;

/** Weights in votes, those of chairs 1, 2 and so on: a list, or an object or a Map from names of chairs to weights. */
export type Weights = Iterable<Whole> | ReadonlyMap<string, Whole> | Readonly<Record<string, Whole>>;

/** The counts that a call has written, by a majority. @internal */
export function indicesIn(
  { view, counts }: Pick<Shared, "view" | "counts">,
  majority: Majority,
  names?: Names,
  at = counts,
): Indices {
  const wordAt = (place: number): number => wordIn(view, at + WORD * place);
  const [open, omega, coalitions] = [wordAt(4), wordAt(5), wordAt(6)];
  let all = 0;
  for (let row = 0; row < open; row++) all += wordAt(9 + 3 * row);
  const chairs = Array.from({ length: open }, (_, row): Chair => {
    const [chair, weight, swings] = [wordAt(7 + 3 * row), wordAt(8 + 3 * row), wordAt(9 + 3 * row)];
    return {
      chair,
      ...(names?.size ? { name: names.get(chair) ?? null } : {}),
      weight,
      swings,
      banzhaf: fraction(swings, coalitions / 2)!,
      share: fraction(swings, all),
      prevent: fraction(swings, omega),
      initiate: fraction(swings, coalitions - omega)!,
    };
  });
  const [quota, leastSize, cast, total] = [wordAt(0), wordAt(1), wordAt(2), wordAt(3)];
  return { majority, quota, leastSize, cast, total, omega, coalitions, act: fraction(omega, coalitions)!, chairs };
}

/** The counts by each majority that a call has written. @internal */
export function allIn(instance: Shared, names?: Names): Record<Majority, Indices> {
  const each = MAJORITIES.map((it, at) => [it, indicesIn(instance, it, names, instance.counts + COUNTS * at)]);
  return Object.fromEntries(each) as Record<Majority, Indices>;
}

/** The refusal of a majority that doesn't exist. */
export const noMajority = (majority: Majority): Refused =>
  new Refused(BAD_RECORD, `no majority ${shown(majority)}: ${ALLOWED.majority}`);

/** A board by its weights, ready to be counted. */
interface Board {
  readonly weights: readonly Whole[];
  readonly total: Whole;
  readonly names?: Names;
  /** Where it stands in a list of boards, for messages. */
  readonly place: string;
}

const sumOf = (votes: readonly Whole[]): bigint => votes.reduce((sum: bigint, it) => sum + BigInt(it), 0n);

/** The weights as a list, and the names that they have. */
function named(weights: Weights, place: string): { list: unknown[]; names?: Names } {
  if (isList(weights) && !(weights instanceof Map)) return { list: Array.from<unknown>(weights) };
  if (typeof weights !== "object" || weights === null) throw wrongType(`${place}the weights are`, weights, "a list");
  const pairs: [unknown, unknown][] = weights instanceof Map ? [...weights] : Object.entries(weights);
  const names = new Map<number, string>();
  pairs.forEach(([name], at) => {
    // An object puts names that are numbers before all others.
    if (typeof name === "string" && (weights instanceof Map || !/^\d+$/.test(name))) names.set(at + 1, name);
    else throw wrongType(`${place}the name of weight ${at + 1} is`, name, `${ALLOWED.name} and no number`);
  });
  return { list: pairs.map(([, weight]) => weight), names };
}

function boardOf(given: Weights, total: Whole | undefined, place = ""): Board {
  const { list, names } = named(given, place);
  const weights = list.map((it, at) => (isWhole(it) ? it : whole(it, `${place}weight ${at + 1} is`, ALLOWED.weight)));
  const board = { weights, names, place };
  if (total !== undefined) return { ...board, total: whole(total, `${place}the total is`, ALLOWED.total) };
  const sum = sumOf(weights);
  return { ...board, total: sum <= TOTAL_VOTES ? Number(sum) : sum };
}

/** Why weights and a total aren't a board's. */
function noBoard({ weights, total, place }: Board): Refused {
  if (weights.length > CHAIRS) return new Refused(BAD_SHEET, `${place}${weights.length} weights: ${ALLOWED.weights}`);
  const reason = total > TOTAL_VOTES ? ALLOWED.total_most : `${ALLOWED.total_least}, ${sumOf(weights)}`;
  return new Refused(BAD_SHEET, `${place}the total is ${total}: ${reason}`);
}

function counted(instance: Shared, board: Board, majority: Majority): Indices {
  const { weights, total, names } = board;
  const { view, struct } = instance;
  for (let at = 0; at < Math.min(weights.length, CHAIRS); at++) putWord(view, struct + WORD * at, weights[at]!);
  const given = [BigInt(struct), BigInt(weights.length), wordOf(total), majorityNumber(majority)];
  const answer = instance.count("board_counts_of_weights", ...given);
  if (answer === BAD_RECORD) throw noMajority(majority);
  if (answer !== 0) throw noBoard(board);
  return indicesIn(instance, majority, names);
}

function countedByAll(instance: Shared, board: Board): Record<Majority, Indices> {
  const { weights, total, names } = board;
  const { view, struct } = instance;
  // The words of a sheet: for each chair its weight plus 1, or 0 if it is closed; the total; and no commands.
  instance.bytes(struct, WORD * (CHAIRS + 2)).fill(0);
  const place = (at: number): number => struct + WORD * at;
  for (let at = 0; at < Math.min(weights.length, CHAIRS); at++) putWord(view, place(at), plusOne(weights[at]!));
  putWord(view, place(CHAIRS), total);
  const length = BigInt(Math.max(weights.length, CHAIRS) + 2);
  if (instance.count("board_all_counts_of_sheet", BigInt(struct), length) !== 0) throw noBoard(board);
  return allIn(instance, names);
}

const plusOne = (weight: Whole): Whole =>
  typeof weight === "number" && weight <= TOTAL_VOTES ? weight + 1 : BigInt(weight) + 1n;

/**
 * The voting power on a board by the weights of its chairs, in votes. `total`, the total voting power in votes, is at
 * least the sum of the weights and at most 2^48; without it, it is that sum.
 *
 * More than 32 weights, and numbers that aren't whole or are out of range, are `Refused` as BadSheet (32); an unknown
 * majority as BadRecord (17). Values of other types and unknown options are a TypeError.
 *
 * @example
 * const { quota, chairs } = indices([50, 49, 1], "half"); // 51 votes win
 * chairs.map(({ share }) => String(share)); // ["3/5", "1/5", "1/5"]
 * indices({ Alpha: 50, Beta: 49, Gamma: 1 }, "70").chairs[0].name; // "Alpha"
 */
export function indices(weights: Weights, majority: Majority, given: { total?: Whole } = {}): Indices {
  const { total } = options(given, "total");
  majorityNumber(majority);
  return counted(shared(), boardOf(weights, total), majority);
}

/** The voting power on such a board by each majority, from lists of coalitions that are made once. */
export function indicesOfAll(weights: Weights, given: { total?: Whole } = {}): Record<Majority, Indices> {
  const { total } = options(given, "total");
  return countedByAll(shared(), boardOf(weights, total));
}

/**
 * The voting power on many boards, of each by several majorities, or by all of them if none are given. `totals` has a
 * total for each board; undefined stands for the sum of its weights. A message names the board, counted from 1.
 *
 * @example
 * indicesOfMany([[50, 49, 1], [5, 5]], ["half", "85"]).map((board) => board.half.omega); // [3, 1]
 */
export function indicesOfMany<Chosen extends Majority = Majority>(
  rows: Iterable<Weights>,
  majorities: Iterable<Chosen> = MAJORITIES as Iterable<Chosen>,
  given: { totals?: Iterable<Whole | undefined> } = {},
): Record<Chosen, Indices>[] {
  const { totals } = options(given, "totals");
  const { boards, chosen } = boardsOf(rows, majorities, totals);
  const instance = shared();
  return boards.map((board) => {
    // One call by all four takes less time than four, and more than three.
    const found = chosen.length < MAJORITIES.length ? undefined : countedByAll(instance, board);
    return Object.fromEntries(chosen.map((it) => [it, found?.[it] ?? counted(instance, board, it)]));
  }) as Record<Chosen, Indices>[];
}

/** Many boards and majorities, checked. */
function boardsOf<Chosen extends Majority>(
  rows: Iterable<Weights>,
  majorities: Iterable<Chosen>,
  totals: Iterable<Whole | undefined> | undefined,
): { boards: Board[]; chosen: Chosen[] } {
  const chosen = items(majorities, "the majorities are");
  for (const it of chosen) if (!MAJORITIES[majorityNumber(it)]) throw noMajority(it);
  const given = items(rows, "the boards are");
  const all = totals === undefined ? given.map(() => undefined) : items(totals, "the totals are");
  if (all.length !== given.length) throw new TypeError(`${all.length} totals of ${given.length} boards`);
  return { boards: given.map((it, at) => boardOf(it, all[at], `board ${at + 1}: `)), chosen };
}

/** Boards as sheets, one after the other. The total of a board of too many chairs is one that is refused. */
function sheetsOf(boards: readonly Board[]): ArrayBuffer {
  const view = new DataView(new ArrayBuffer(SHEET * boards.length));
  boards.forEach(({ weights, total }, board) => {
    const [at, isOne] = [SHEET * board, weights.length <= CHAIRS];
    if (isOne) weights.forEach((weight, chair) => putWord(view, at + WORD * chair, plusOne(weight)));
    putWord(view, at + WORD * CHAIRS, isOne ? total : LARGEST);
  });
  return view.buffer as ArrayBuffer;
}

/**
 * What `indicesOfMany` returns, counted by several workers at a time while this thread goes on: by default one for each
 * processor. It takes and refuses the same.
 *
 * A browser must allow workers of a `blob:` URL. Where there are no workers it is an Error.
 *
 * @example
 * const [board] = await indicesOfManyInWorkers([[50, 49, 1]], ["half"], { workers: 2 });
 * board.half.omega; // 3
 */
export async function indicesOfManyInWorkers<Chosen extends Majority = Majority>(
  rows: Iterable<Weights>,
  majorities: Iterable<Chosen> = MAJORITIES as Iterable<Chosen>,
  given: { totals?: Iterable<Whole | undefined>; workers?: number } = {},
): Promise<Record<Chosen, Indices>[]> {
  const { totals, workers = processors() } = options(given, "totals", "workers");
  if (!Number.isSafeInteger(workers) || workers < 1) {
    throw wrongType("the number of workers is", workers, "a whole number from 1");
  }
  const { boards, chosen } = boardsOf(rows, majorities, totals);
  const numbers = chosen.map(majorityNumber);
  const share = Math.ceil(boards.length / workers);
  const starts = Array.from({ length: Math.min(workers, boards.length) }, (_, at) => share * at);
  const parts = await Promise.all(starts.map(async (start) => {
    const part = boards.slice(start, start + share);
    const { counts, refused } = await inWorker({ module: loaded(), sheets: sheetsOf(part), numbers });
    return { part, view: new DataView(counts), refused };
  }));
  return parts.flatMap(({ part, view, refused }) => {
    if (refused !== undefined) throw noBoard(part[refused]!);
    return part.map(({ names }, board) => {
      const at = (kind: number): number => COUNTS * (board * chosen.length + kind);
      return Object.fromEntries(chosen.map((it, kind) => [it, indicesIn({ view, counts: 0 }, it, names, at(kind))]));
    });
  }) as Record<Chosen, Indices>[];
}

/** The mask of open chairs, chair 1 in its lowest bit. */
function maskOf(chairs: Iterable<Whole>): number {
  const bits = items(chairs, "the open chairs are").map((it) => {
    const chair = whole(it, "an open chair is", ALLOWED.chair);
    if (chair < 1 || chair > CHAIRS) throw new Refused(BAD_SHEET, `an open chair is ${chair}: ${ALLOWED.chair}`);
    return 2 ** (Number(chair) - 1);
  });
  return bits.reduce((mask, bit) => mask | bit, 0);
}

function putMembers(view: DataView, at: number, rows: readonly Row[]): void {
  rows.forEach(({ votes, chair, suspended }, row) => {
    putWord(view, at + MEMBER * row, votes);
    putWord(view, at + MEMBER * row + WORD, chair ?? 0);
    putWord(view, at + MEMBER * row + 2 * WORD, Number(suspended));
  });
}

/**
 * The voting power on a board that is given by its members: a table with the columns `votes` and `chair`, and if wanted
 * `code`, `chair_name` and `suspended`. A chair is open if a member sits in it, suspended or not, or if its number is
 * among `openChairs`. Its weight is the votes of its members that aren't suspended, and the total is the votes of all
 * members that aren't suspended, in a chair or in none, at most 2^48. null stands for no chair.
 *
 * Numbers that aren't whole or are out of range are `Refused` as BadSheet (32), codes as BadMember (15) and
 * DuplicateMember (11), and an unknown majority as BadRecord (17). Unknown columns and other types are a TypeError.
 *
 * @example
 * indicesOfMembers([{ votes: 50, chair: 1 }, { votes: 49, chair: 2 }, { votes: 1, chair: null }], "85").omega; // 1
 */
export function indicesOfMembers(
  members: MemberTable,
  majority: Majority,
  given: { openChairs?: Iterable<Whole> } = {},
): Indices {
  const { openChairs = [] } = options(given, "openChairs");
  const number = majorityNumber(majority);
  const rows = rowsOf(members, "board");
  const [names, open, instance] = [chairNames(rows, "board"), maskOf(openChairs), shared()];
  const answer = instance.lend(MEMBER * rows.length, (at) => {
    putMembers(instance.view, at, rows);
    return instance.count("board_counts_of_members", BigInt(at), BigInt(rows.length), open, number);
  });
  if (answer === BAD_RECORD) throw noMajority(majority);
  const total = (): bigint => sumOf(rows.filter(({ suspended }) => !suspended).map(({ votes }) => votes));
  if (answer !== 0) throw new Refused(answer, `the total is ${total()}: ${ALLOWED.total_most}`);
  return indicesIn(instance, majority, names);
}
