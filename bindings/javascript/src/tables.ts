/** Tables of members: a row or a list of each column, by the columns' names. */
import { LARGEST } from "./memory.js";
import { ALLOWED, CHAIRS, COLUMNS } from "./names.js";
import { BAD_CHAIR, BAD_MEMBER, BAD_RECORD, BAD_SHEET, DUPLICATE_MEMBER, Refused } from "./refused.js";
import { isList, isWhole, shown, text, whole, wrongType, type Whole } from "./values.js";

/** A row of a table of members. */
export interface MemberRow {
  /** Three ASCII capitals. */
  readonly code?: string;
  /** Its name, which isn't used. */
  readonly name?: string | null;
  /** Its votes, a whole number from 0. */
  readonly votes: Whole;
  /** The number of its chair, from 1 to 32, or null for a member in no chair. */
  readonly chair?: Whole | null;
  /** The name of that chair. */
  readonly chair_name?: string | null;
  /** Whether its votes are suspended. */
  readonly suspended?: boolean;
}

/** A table of members by its columns, each a list with a value for each member. */
export type MemberColumns = { readonly [Column in keyof MemberRow]?: Iterable<MemberRow[Column]> };

/** A table of members: its rows, or its columns. */
export type MemberTable = Iterable<MemberRow> | MemberColumns;

/** A row that was read. */
export interface Row {
  /** Where it stands in the table, from 1; 0 if it is of no table. */
  readonly row: number;
  readonly code: string | null;
  readonly votes: Whole;
  readonly chair: number | null;
  readonly name: string | null;
  readonly suspended: boolean;
}

/** The columns that a table must have, and the numbers by which its values are refused. */
const WANTED = {
  board: { columns: ["votes", "chair"], votes: BAD_SHEET, votesAllowed: ALLOWED.weight, chair: BAD_SHEET },
  register: { columns: ["code", "votes"], votes: BAD_RECORD, votesAllowed: ALLOWED.votes, chair: BAD_CHAIR },
};
type Use = keyof typeof WANTED;
type Cells = Record<string, unknown>;

/** Whether a cell is empty. */
const isNone = (cell: unknown): boolean => cell === null || cell === undefined || Number.isNaN(cell);

/** The cells of each row of a table that is given by columns. */
function cellsOfColumns(columns: Record<string, unknown>): Cells[] {
  const lists = Object.entries(columns).map(([name, column]): [string, unknown[]] => {
    if (!isList(column)) throw wrongType(`the column ${name} is`, column, "a list, such as an array");
    return [name, Array.from(column)];
  });
  const first = lists[0]?.[1] ?? [];
  if (lists.some(([, list]) => list.length !== first.length)) {
    const lengths = lists.map(([name, list]) => `${name} ${list.length}`);
    throw new TypeError(`columns of unequal length: ${lengths.join(", ")}`);
  }
  return first.map((_, at) => Object.fromEntries(lists.map(([name, list]) => [name, list[at]])));
}

/** The cells of each row, and the names of the columns. */
function cellsOf(table: unknown): { cells: Cells[]; columns: Set<string> } {
  const isRows = isList(table);
  if (!isRows && (typeof table !== "object" || table === null)) {
    throw wrongType("the members are", table, "a list of rows, or an object of columns");
  }
  const cells = isRows ? (Array.from(table) as Cells[]) : cellsOfColumns(table as Record<string, unknown>);
  cells.forEach((it, at) => {
    if (typeof it === "object" && it !== null && !isList(it)) return;
    throw wrongType(`row ${at + 1} is`, it, "an object with the names of the columns");
  });
  return { cells, columns: new Set(isRows ? cells.flatMap((it) => Object.keys(it)) : Object.keys(table!)) };
}

/** The number of a chair, or null for none. */
export function chairOf(cell: unknown, place: string, allowed: string, number: number): number | null {
  if (isNone(cell)) return null;
  const chair = whole(cell, place, allowed, number);
  if (chair >= 1 && chair <= CHAIRS) return Number(chair);
  throw new Refused(number, `${place} ${chair}: ${allowed}`);
}

function rowOf(cells: Cells, row: number, use: Use): Row {
  const place = `row ${row}: `;
  const { votes, votesAllowed, chair } = WANTED[use];
  const { code, suspended = false, chair_name: name } = cells;
  if (isWhole(cells.votes) && cells.votes > LARGEST && use === "board") {
    throw new Refused(votes, `${place}the votes are ${cells.votes}: ${ALLOWED.total_most}`);
  }
  if (!isNone(cells.name)) text(cells.name, `${place}the name is`, ALLOWED.name);
  if (typeof suspended !== "boolean") throw wrongType(`${place}suspended is`, suspended, ALLOWED.suspended);
  return {
    row,
    code: use === "board" && isNone(code) ? null : text(code, `${place}the code is`, ALLOWED.code),
    votes: whole(cells.votes, `${place}the votes are`, votesAllowed, votes),
    chair: chairOf(cells.chair, `${place}the chair is`, ALLOWED.seat, chair),
    name: isNone(name) ? null : text(name, `${place}the chair_name is`, ALLOWED.name),
    suspended,
  };
}

/** The refusal of a row's code, if it is refused. */
export function wrongCode(rows: readonly Row[]): Refused | undefined {
  const places = new Map<string, number>();
  for (const { code, row } of rows) {
    if (code === null) continue;
    const [place, first] = [row ? `row ${row}: ` : "", places.get(code)];
    const at = row ? { row } : {};
    if (!/^[A-Z]{3}$/.test(code)) {
      return new Refused(BAD_MEMBER, `${place}the code is ${shown(code)}: ${ALLOWED.code}`, at);
    }
    if (first !== undefined) {
      return new Refused(DUPLICATE_MEMBER, `${place}the code '${code}' is there already, in row ${first}`, at);
    }
    places.set(code, row);
  }
  return undefined;
}

/** The rows of a table. */
export function rowsOf(table: unknown, use: Use): Row[] {
  const { cells, columns } = cellsOf(table);
  const other = [...columns].find((it) => !COLUMNS.includes(it));
  if (other !== undefined) throw new TypeError(`unknown column '${other}': ${ALLOWED.columns}`);
  // A table without columns has no members.
  const wanted = columns.size > 0 ? WANTED[use].columns : [];
  const missing = wanted.find((it) => !columns.has(it));
  if (missing !== undefined) {
    throw new TypeError(`no column '${missing}': a ${use} needs ${wanted.join(" and ")}, and ${ALLOWED.columns}`);
  }
  const rows = cells.map((it, at) => {
    try {
      return rowOf(it, at + 1, use);
    } catch (why) {
      throw why instanceof Refused ? new Refused(why.number, why.message, { row: at + 1 }) : why;
    }
  });
  const wrong = use === "board" ? wrongCode(rows) : undefined;
  if (wrong) throw wrong;
  return rows;
}

/** The names of chairs that rows give. Two names for one chair are refused. */
export function chairNames(rows: readonly Row[], use: Use): Map<number, string> {
  const named = new Map<number, Row>();
  for (const it of rows) {
    if (it.chair === null || it.name === null) continue;
    const first = named.get(it.chair) ?? it;
    if (first.name !== it.name) {
      const there = `in row ${first.row} it is '${first.name}'`;
      const message = `row ${it.row}: the name of chair ${it.chair} is '${it.name}', and ${there}`;
      throw new Refused(WANTED[use].chair, message, { row: it.row });
    }
    named.set(it.chair, first);
  }
  return new Map([...named].map(([chair, { name }]) => [chair, name!]));
}
