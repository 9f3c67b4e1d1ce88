/** The members and the open chairs of a register at one moment, with their names. */
import { isolated } from "../study/names";
import type { Base } from "../study/study";
import { CHAIRS } from "../study/words";

/** A member as the register has it. */
export interface Seat {
  readonly code: string;
  readonly votes: number;
  /** The number of its chair, or null if it is in none. */
  readonly chair: number | null;
  readonly suspended: boolean;
}

/** The members of a register in order of entry, and its open chairs by number. */
export interface Snapshot {
  readonly seats: readonly Seat[];
  readonly open: readonly number[];
  /** Those of them that changes opened, each with the number of the change that opened it last. */
  readonly opened: Readonly<Record<number, number>>;
}

/** A member with its name, and its row in the table, which is 0 for one that is in none. */
export interface Place extends Seat {
  readonly name: string;
  readonly row: number;
}

/** Members in order of entry, and open chairs. */
export class Standing {
  readonly #places: ReadonlyMap<string, Place>;
  readonly #inChair = new Map<number | null, Place[]>();

  constructor(
    readonly snapshot: Snapshot,
    private readonly base: Base,
    private readonly admitted: Readonly<Record<string, string>> = {},
    private readonly named: Readonly<Record<number, string>> = {},
  ) {
    const places = snapshot.seats.map((it) => ({
      ...it,
      name: this.memberName(it.code),
      row: base.rows[it.code] ?? 0,
    }));
    this.#places = new Map(places.map((it) => [it.code, it]));
    for (const it of places) this.#inChair.set(it.chair, [...this.in(it.chair), it]);
  }

  place(code: string): Place | undefined {
    return this.#places.get(code);
  }

  /** The name of a member, now or earlier; empty if it has none. */
  memberName(code: string): string {
    return this.admitted[code] ?? this.base.names[code] ?? "";
  }

  members(): Place[] {
    return [...this.#places.values()];
  }

  /** Members of a chair, or of none. */
  in(chair: number | null): readonly Place[] {
    return this.#inChair.get(chair) ?? [];
  }

  /** The open chairs by number. */
  open(): readonly number[] {
    return this.snapshot.open;
  }

  /** Whether a chair was opened by a change, so that it isn't the base's chair of this number. */
  isNew(chair: number): boolean {
    return this.opening(chair) !== undefined;
  }

  /** The number of the change that opened a chair, if one did. */
  opening(chair: number): number | undefined {
    return this.snapshot.opened[chair];
  }

  /** The name that was given to a chair: it belongs to the change that opened it, or to the base's chair. */
  given(chair: number): string | undefined {
    const [opening, { chairNames }] = [this.opening(chair), this.base];
    return opening === undefined ? chairNames[chair] : this.named[opening] ?? chairNames[chairKey(chair, true)];
  }

  /** A chair's name: the one that was given, else its member with the most votes and how many others there are; or as
   * the base says what chairs are named by. */
  name(chair: number): string {
    const given = this.given(chair);
    const { naming = "given" } = this.base;
    if (given && naming === "given") return given;
    const seated = this.in(chair);
    const [first] = [...seated].sort((left, right) => right.votes - left.votes);
    if (!first) return given || `chair ${chair}`;
    const largest = first.name || first.code;
    if (given && naming === "both") return given === largest ? given : `${largest} (${given})`;
    return largest + (seated.length > 1 ? ` and ${seated.length - 1} more` : "");
  }
}

/** The lowest number of a closed chair, or null where all are open. */
export function closedChair(open: readonly number[]): number | null {
  return CHAIRS.find((it) => !open.includes(it)) ?? null;
}

/** The open chairs as choices of a list: their numbers, with their names. */
export function chairChoices(standing: Standing): [string, string][] {
  return standing.open().map((it) => [String(it), `${it} ${isolated(standing.name(it))}`]);
}

/** The key of a chair in comparisons: that of the base's chair, or that of one that was opened by a change. Studies of
 * version 0.11 have by it the names of chairs that changes opened. */
export function chairKey(chair: number, isNew: boolean): string {
  return isNew ? `new ${chair}` : String(chair);
}
