/** The base of a study from the members of a table: the register makes its script. */
import type { Counter } from "../engine/count";
import type { Base } from "../study/study";
import type { TableBase } from "./types";

/** The base of a table, whose text has this SHA-256. */
export async function baseOf(counter: Counter, table: TableBase, hash: string): Promise<Base> {
  const { members, chairNames, choices, columns } = table;
  const rows = members.map(({ code, votes, chair, suspended }) => ({ code, votes, chair, suspended }));
  return {
    script: await counter.tableScript(rows),
    names: Object.fromEntries(members.map((it) => [it.code, it.name])),
    chairNames,
    rows: Object.fromEntries(members.filter(({ row }) => row > 0).map((it) => [it.code, it.row])),
    choices,
    hash,
    columns,
  };
}
