/** Members from rows whose chairs are known: codes, votes and numbers of chairs, each cell read or refused. */
import { CHAIRS, MOST_MEMBERS, MOST_VOTES, reasonOf } from "../study/words";
import { chairNumber, chairNumbers, isName, keyOf } from "./chairs";
import { votesReason, wholeOf, type Thousands } from "./numbers";
import type { Line } from "./rows";
import type { CellFault, Meaning, TableMember } from "./types";
import * as words from "./words";

/** What says in the column of suspensions that a member is suspended, and that it isn't. */
export const TRUE = new RegExp(`^(${words.TRUE.join("|")}|yes|y|1|x|suspended|oui|ja)$`, "iu");
const FALSE = new RegExp(`^(${words.FALSE.join("|")}|no|n|0|-|non|nein|)$`, "iu");

/** What the rows of members give. */
export interface Members {
  readonly members: readonly TableMember[];
  readonly faults: readonly CellFault[];
  readonly chairNames: Readonly<Record<number, string>>;
  /** The chairs that the table gives by name: each number with its name. */
  readonly numbered: readonly (readonly [number, string])[];
  /** The names of chairs that have their number in them. */
  readonly labels: readonly string[];
}

/** Reads rows one by one, and keeps their faults. */
class Reader {
  readonly faults: CellFault[] = [];
  readonly members: TableMember[] = [];
  readonly names = new Map<number, string>();
  readonly numbered = new Map<string, readonly [number, string]>();
  readonly #thousands: Thousands;
  readonly #numbers: ReadonlyMap<string, number> | null;
  readonly #byName: boolean;
  readonly #rowOfCode = new Map<string, number>();

  constructor(thousands: Thousands, chairs: readonly string[]) {
    this.#thousands = thousands;
    const names = chairs.filter(isName);
    this.#byName = 2 * names.length > chairs.length;
    this.#numbers = this.#byName ? chairNumbers(names) : null;
  }

  take({ row, cells, raw }: Line, seat: string): void {
    const code = this.#code(row, cells.code);
    const votes = this.#votes(row, cells.votes, raw.votes);
    const chair = this.#chair(row, seat);
    const suspended = this.#suspended(row, cells.suspended);
    if (this.members.length === MOST_MEMBERS) {
      this.#refuse(row, "code", `TooManyMembers: ${reasonOf("TooManyMembers")}`);
    }
    this.members.push({ code, name: cells.name, votes, chair, suspended, row });
    if (cells.chairName) this.#name(row, chair, cells.chairName);
  }

  /** The names of chairs that have their number in them. */
  labels(): string[] {
    return [...(this.#numbers?.keys() ?? [])];
  }

  /** The chairs' names: those of the column of names, else the names in the chairs' cells. */
  chairNames(): Record<number, string> {
    return Object.fromEntries([...this.numbered.values(), ...this.names]);
  }

  #refuse(row: number, meaning: Meaning, reason: string): null {
    this.faults.push({ row, meaning, reason });
    return null;
  }

  #code(row: number, cell: string): string {
    const code = cell.toUpperCase();
    const other = this.#rowOfCode.get(code);
    if (cell === "") this.#refuse(row, "code", "an empty cell");
    else if (!/^[A-Za-z]{3}$/.test(cell)) this.#refuse(row, "code", `BadMember: ${reasonOf("BadMember")}`);
    else if (other) {
      this.#refuse(row, "code", `DuplicateMember: ${reasonOf("DuplicateMember")}, here and in row ${other}`);
    } else this.#rowOfCode.set(code, row);
    return code;
  }

  #votes(row: number, cell: string, raw: string): number {
    const votes = wholeOf(cell, this.#thousands)?.value ?? null;
    if (votes === null) this.#refuse(row, "votes", votesReason(raw));
    else if (votes > MOST_VOTES) this.#refuse(row, "votes", `VotesTooLarge: ${reasonOf("VotesTooLarge")}`);
    return votes ?? 0;
  }

  #chair(row: number, cell: string): number | null {
    if (cell === "") return null;
    if (this.#byName) return this.#numbers?.get(cell) ?? this.#numberOf(row, cell);
    return chairNumber(cell) ?? this.#refuse(row, "chair", `BadChair: ${reasonOf("BadChair")}`);
  }

  /** Numbers chairs in the order in which their names appear. */
  #numberOf(row: number, cell: string): number | null {
    if (!isName(cell)) return this.#refuse(row, "chair", "no chair: the other chairs have names");
    const key = keyOf(cell);
    const [number, name] = this.numbered.get(key) ?? [this.numbered.size + 1, cell];
    this.numbered.set(key, [number, name]);
    if (name !== cell) return this.#refuse(row, "chair", `the chair '${cell}' is written '${name}' above`);
    if (CHAIRS.includes(number)) return number;
    return this.#refuse(row, "chair", `BadChair: ${reasonOf("BadChair")}; it would be number ${number}`);
  }

  #suspended(row: number, cell: string): boolean {
    if (!TRUE.test(cell) && !FALSE.test(cell)) this.#refuse(row, "suspended", "neither true nor false");
    return TRUE.test(cell);
  }

  #name(row: number, chair: number | null, name: string): void {
    if (chair === null) this.#refuse(row, "chairName", "a chair's name, and no chair");
    else if ((this.names.get(chair) ?? name) !== name) {
      this.#refuse(row, "chairName", `chair ${chair} is named '${this.names.get(chair)}' above`);
    } else this.names.set(chair, name);
  }
}

/** The members of rows, with the chair's text of each row that has one. */
export function membersOf(
  lines: readonly Line[],
  seats: ReadonlyMap<number, string>,
  thousands: Thousands,
): Members {
  const reader = new Reader(thousands, lines.flatMap(({ row }) => seats.get(row) ?? []));
  for (const line of lines) reader.take(line, seats.get(line.row) ?? "");
  const { members, faults } = reader;
  const numbered = [...reader.numbered.values()];
  return { members, faults, chairNames: reader.chairNames(), numbered, labels: reader.labels() };
}
