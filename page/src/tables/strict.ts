/** The strict table, which scripts and packages take: `code,name,votes,chair,chair_name,suspended`. */
import { CHAIRS } from "../study/words";
import type { Sheet, TableBase } from "./types";
import { FALSE, TRUE } from "./words";

const TRUTH = new RegExp(`^(${[...TRUE, ...FALSE].join("|")})$`, "iu");

export const STRICT_HEADER = ["code", "name", "votes", "chair", "chair_name", "suspended"] as const;

function quoted(cell: string): string {
  return /[",\r\n]/.test(cell) ? `"${cell.replace(/"/g, '""')}"` : cell;
}

/** A whole table as CSV. Reading it again asks nothing and gives the same members. */
export function strictTable(base: TableBase): string {
  const rows = base.members.map(({ code, name, votes, chair, suspended }) => {
    const chairName = chair === null ? "" : base.chairNames[chair] ?? "";
    return [code, name, String(votes), String(chair ?? ""), chairName, String(suspended)];
  });
  return [STRICT_HEADER, ...rows].map((row) => `${row.map(quoted).join(",")}\n`).join("");
}

function isStrictRow(row: readonly string[]): boolean {
  const [code = "", , votes = "", chair = "", , suspended = ""] = row;
  const isSeat = chair === "" || CHAIRS.some((number) => String(number) === chair);
  const isPlain = /^[A-Z]{3}$/.test(code) && /^[0-9]{1,20}$/.test(votes) && TRUTH.test(suspended);
  return row.length === STRICT_HEADER.length && isPlain && isSeat;
}

/** Whether a sheet is a strict table in each of its rows. Then its cells are taken as they are, without questions. */
export function isStrict({ rows, delimiter }: Sheet): boolean {
  const [header = [], ...body] = rows;
  return delimiter === "," && header.join() === STRICT_HEADER.join() && body.length > 0 && body.every(isStrictRow);
}
