/** Readings of a register: the counts by one majority, and the power of each open chair, as exact fractions. */
import type { Chair, Indices } from "../../../bindings/javascript/src/indices";
import type { Register } from "../../../bindings/javascript/src/register";
import { exact, over, quotient, type Ratio } from "../study/fractions";
import type { Majority, Measure } from "../study/words";

/** An open chair: its votes, its swings, and its measures; one that has no value is null. */
export interface ChairReading {
  readonly chair: number;
  readonly weight: number;
  readonly swings: number;
  readonly banzhaf: Ratio | null;
  readonly share: Ratio | null;
  readonly prevent: Ratio | null;
  readonly initiate: Ratio | null;
  /** Its share of power over its share of the votes cast, which is made here. */
  readonly ratio: Ratio | null;
}

/** A board that was counted by a majority. */
export interface Reading {
  readonly majority: Majority;
  readonly quota: number;
  /** The least number of chairs that wins; 0 if the majority asks for none. */
  readonly leastSize: number;
  readonly cast: number;
  readonly total: number;
  readonly winning: number;
  readonly coalitions: number;
  /** The power of the board to act. */
  readonly act: Ratio | null;
  readonly chairs: readonly ChairReading[];
}

/** The readings of one register by majority. */
export type Readings = ReadonlyMap<Majority, Reading>;

/** Readings of one register by their majorities. */
export function readings(list: readonly Reading[]): Readings {
  return new Map(list.map((it) => [it.majority, it]));
}

/** The ratio of a chair's power to its votes, where these votes are cast in all. */
function ratioOf(share: Ratio | null, weight: number, cast: number): Ratio | null {
  return quotient(share, over(weight, cast));
}

/** The counts of the package, with fractions of any size. */
export function readingOf(indices: Indices): Reading {
  const { majority, quota, leastSize, cast, total, omega, coalitions, act, chairs } = indices;
  return {
    majority,
    quota,
    leastSize,
    cast,
    total,
    winning: omega,
    coalitions,
    act: exact(act),
    chairs: chairs.map(({ chair, weight, swings, banzhaf, share, prevent, initiate }) => ({
      chair,
      weight,
      swings,
      banzhaf: exact(banzhaf),
      share: exact(share),
      prevent: exact(prevent),
      initiate: exact(initiate),
      ratio: ratioOf(exact(share), weight, cast),
    })),
  };
}

/** One measure of a chair of the package's counts. */
export function measureIn({ cast }: Indices, chair: Chair, measure: Measure): Ratio | null {
  if (measure === "swings") return over(chair.swings, 1);
  return measure === "ratio" ? ratioOf(exact(chair.share), chair.weight, cast) : exact(chair[measure]);
}

/** A chair whose fractions are made each time that one is asked for: of most chairs none is. */
class ChairOf implements ChairReading {
  readonly #board: ReadingOf;
  readonly chair: number;
  readonly weight: number;
  readonly swings: number;

  constructor(board: ReadingOf, chair: number, weight: number, swings: number) {
    this.#board = board;
    this.chair = chair;
    this.weight = weight;
    this.swings = swings;
  }

  get banzhaf(): Ratio | null {
    return over(this.swings, this.#board.coalitions / 2);
  }

  get share(): Ratio | null {
    return over(this.swings, this.#board.swings);
  }

  get prevent(): Ratio | null {
    return over(this.swings, this.#board.winning);
  }

  get initiate(): Ratio | null {
    return over(this.swings, this.#board.coalitions - this.#board.winning);
  }

  get ratio(): Ratio | null {
    return ratioOf(this.share, this.weight, this.#board.cast);
  }
}

/** A reading of whole numbers, whose chairs and fractions are made when they are asked for: a curve has many of which
 * one chair is drawn. It doesn't go to or from a worker. */
export class ReadingOf implements Reading {
  /** For each chair its number, its weight and its swings. */
  readonly #rows: Float64Array;

  constructor(
    readonly majority: Majority,
    readonly quota: number,
    readonly leastSize: number,
    readonly cast: number,
    readonly total: number,
    readonly winning: number,
    readonly coalitions: number,
    rows: Float64Array,
  ) {
    this.#rows = rows;
  }

  #at(row: number): ChairOf {
    const rows = this.#rows;
    return new ChairOf(this, rows[row] ?? 0, rows[row + 1] ?? 0, rows[row + 2] ?? 0);
  }

  get act(): Ratio | null {
    return over(this.winning, this.coalitions);
  }

  get chairs(): readonly ChairReading[] {
    return Array.from({ length: this.#rows.length / 3 }, (_, at) => this.#at(3 * at));
  }

  /** The swings of all chairs. */
  get swings(): number {
    let all = 0;
    for (let at = 2; at < this.#rows.length; at += 3) all += this.#rows[at] ?? 0;
    return all;
  }

  /** The chair of a number, or undefined if it isn't open. */
  chairOf(chair: number): ChairReading | undefined {
    for (let at = 0; at < this.#rows.length; at += 3) if (this.#rows[at] === chair) return this.#at(at);
    return undefined;
  }
}

/** Counting by all majorities together is faster than counting this number of them one by one. */
const MANY = 3;

/** The counts of a register as it stands. */
export function countsOf(register: Register, majorities: readonly Majority[]): Indices[] {
  const all = majorities.length < MANY ? null : register.indicesOfAll();
  return majorities.map((it) => all?.[it] ?? register.indices(it));
}

/** The readings of a register as it stands. */
export function readingsOf(register: Register, majorities: readonly Majority[]): Reading[] {
  return countsOf(register, majorities).map(readingOf);
}

/** A chair's share of the votes cast. */
export function voteShare(reading: Reading, chair: ChairReading): Ratio | null {
  return over(chair.weight, reading.cast);
}

/** A measure of a chair. Swings are a fraction over 1. */
export function measureOf(chair: ChairReading, measure: Measure): Ratio | null {
  return measure === "swings" ? over(chair.swings, 1) : chair[measure];
}

/** A chair of a reading, or undefined if it isn't open. */
export function chairIn(reading: Reading | undefined, chair: number): ChairReading | undefined {
  return reading instanceof ReadingOf ? reading.chairOf(chair) : reading?.chairs.find((it) => it.chair === chair);
}
