/** Tests of a second table as changes: the register that takes them has its members, votes and chairs. */
import assert from "node:assert/strict";
import { readFileSync } from "node:fs";
import { test } from "node:test";
import { loadSync } from "../../bindings/javascript/src/load";
import { Register } from "../../bindings/javascript/src/register";
import type { Place } from "../src/engine/standing";
import { recordOf } from "../src/study/script";
import { FIRST_VIEW, studyOf, withScenario, type Command, type What } from "../src/study/study";
import { dataText, readData } from "../src/study/studyData";
import { secondTable, type SecondTable } from "../src/tables/second";
import type { TableBase, TableMember } from "../src/tables/types";

loadSync(readFileSync(process.env["MODULE"] ?? ""));

type Row = readonly [code: string, name: string, votes: number, chair: number | null, suspended?: boolean];

function tableOf(rows: readonly Row[], chairNames: Record<number, string> = {}): TableBase {
  const members = rows.map(([code, name, votes, chair, suspended = false], at): TableMember => {
    return { code, name, votes, chair, suspended, row: at + 2 };
  });
  return { members, chairNames, choices: [], columns: {} };
}

/** The register of a table, with further open chairs. */
function registerOf({ members }: TableBase, empty: readonly number[] = []): Register {
  const rows = members.map(({ code, votes, chair, suspended }) => ({ code, votes, chair, suspended }));
  const register = new Register(rows);
  for (const chair of empty) register.open(chair);
  return register;
}

/** The second table as changes of the first, and the register that has taken them. */
function taken(first: TableBase, second: TableBase, empty: readonly number[] = []): SecondTable & { board: Register } {
  const board = registerOf(first, empty);
  const members: Place[] = first.members;
  const open = Object.keys(board.chairs).map(Number);
  const found = secondTable({ members, open, chairNames: first.chairNames }, second);
  board.submit(found.steps.map((it) => it.what));
  return { ...found, board };
}

/** The members' votes and suspensions, and who sits together, whatever the chairs' numbers are. */
function contents(members: readonly Omit<TableMember, "name" | "row">[]): unknown {
  const chairs = new Map<number, string[]>();
  for (const { code, chair } of members) if (chair !== null) chairs.set(chair, [...(chairs.get(chair) ?? []), code]);
  const own = members.map(({ code, votes, suspended }) => `${code} ${votes} ${suspended}`).sort();
  return [own, [...chairs.values()].map((it) => it.sort().join()).sort()];
}

const inBoard = (board: Register) => Object.entries(board.members).map(([code, it]) => ({ code, ...it }));

test("any second table is what the register has after the changes", () => {
  // Catches: a move to a chair that isn't open yet, a suspended member that is moved, a chair that is closed with
  // members in it, and the 33rd chair.
  let state = 90;
  const below = (most: number) => (state = (state * 48_271) % 2_147_483_647) % most;
  const codes = [..."ABCDEFGHIJKLMNOPQRSTUVWXYZ"].flatMap((one) => [`A${one}A`, `B${one}B`]);
  for (let run = 0; run < 300; run += 1) {
    const chairs = 1 + below(32);
    const drawn = () => tableOf(codes.filter(() => below(10) < 7).map((code): Row => {
      return [code, "", below(1000), below(9) ? 1 + below(chairs) : null, below(8) === 0];
    }));
    const [first, second] = [drawn(), drawn()];
    const used = new Set(first.members.map(({ chair }) => chair));
    const { board } = taken(first, second, Array.from({ length: 32 }, (_, at) => at + 1).filter((it) => !used.has(it)));
    assert.deepEqual(contents(inBoard(board)), contents(second.members), `run ${run}`);
    assert.ok(Object.values(board.chairs).every((it) => it.length > 0));
  }
});

/** A table with its changes, as the tests of the package for Python read it, too. */
interface Case {
  readonly title: string;
  readonly first: readonly Row[];
  readonly firstNames?: Record<number, string>;
  /** Chairs of the first table without members. */
  readonly open?: readonly number[];
  readonly second: readonly Row[];
  readonly secondNames?: Record<number, string>;
  readonly changes: SecondTable["steps"];
  readonly said: readonly string[];
}

const cases = JSON.parse(readFileSync(process.env["SECOND_TABLES"] ?? "", "utf8")) as Case[];
assert.ok(cases.length > 7);
for (const { title, first, firstNames, open, second, secondNames, changes, said } of cases) {
  test(`a second table: ${title}`, () => {
    // Catches: chairs that are compared by numbers that only say in which order a table names them; a member that left
    // and came in one, a code that two members have, a name that is lost, also in a saved study.
    const base = tableOf(first, firstNames);
    const found = taken(base, tableOf(second, secondNames), open);
    assert.deepEqual(found.steps, changes);
    assert.deepEqual(found.said, said);
    const empty = { script: "", names: {}, chairNames: {}, rows: {}, choices: [], hash: "", columns: {} };
    const study = studyOf("It", empty);
    const saved = readData(dataText({ study: withScenario(study, "Later", changes), view: FIRST_VIEW }, []));
    const told = (it: { what: What; name?: string; chairName?: string }) =>
      [recordOf(it.what as Command), it.name, it.chairName];
    assert.deepEqual(saved?.study.scenarios[0]?.changes.map(told), changes.map(told));
  });
}
