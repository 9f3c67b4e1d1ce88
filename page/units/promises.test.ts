/** Tests of saved studies and strict tables in tests/promises, over the built module: the page reads those of every
 * version. */
import assert from "node:assert/strict";
import { readFileSync, readdirSync } from "node:fs";
import { test } from "node:test";
import { loadSync } from "../../bindings/javascript/src/load";
import { Register } from "../../bindings/javascript/src/register";
import { outcomeOf } from "../src/engine/operations";
import type { Change, SweepAsked } from "../src/study/study";
import { readData } from "../src/study/studyData";
import { guessedLayout } from "../src/tables/columns";
import { readTable } from "../src/tables/read";
import { strictTable } from "../src/tables/strict";
import { sheetOf } from "../src/tables/text";

loadSync(readFileSync(process.env["MODULE"] ?? ""));
const FOLDER = `${process.env["PROMISES"]}/studies`;
const TABLES = `${process.env["PROMISES"]}/tables`;

/** The records of a list of changes on a base. */
function records(script: string, changes: readonly Change[]): string[] {
  const register = Register.fromScript(script);
  const before = register.accepted;
  for (const it of changes) assert.equal(outcomeOf(register, it).kind, "accepted");
  return register.journal.slice(before).map(String);
}

function sweepText({ who, on, from, to, by }: SweepAsked): string {
  assert.deepEqual([who, on], [{ kind: "member", code: "AAA" }, "changed"]);
  return `sweep AAA ${from}..${to} by ${by} % of the changed board`;
}

/** A saved study as the text next to it has it. */
function textOf(file: string): string {
  const { study } = readData(readFileSync(file, "utf8")) ?? assert.fail(file);
  const { base, changes, scenarios, sweep } = study;
  const lists = changes.length ? [...scenarios, { name: "changed", changes }] : scenarios;
  return [
    `study ${study.name}`,
    ...Object.entries(base.names).map(([code, name]) => `member ${code} ${name}`),
    ...Object.entries(base.chairNames).map(([chair, name]) => `chair ${chair} ${name}`),
    ...["base", ...base.script.trimEnd().split("\n")],
    ...lists.flatMap((it) => [`scenario ${it.name}`, ...records(base.script, it.changes)]),
    ...(sweep ? [sweepText(sweep)] : []),
    "",
  ].join("\n");
}

const files = readdirSync(FOLDER).filter((it) => it.endsWith(".study.json"));
assert.ok(files.length);
for (const file of files) {
  test(`the saved study ${file}`, () => {
    // Catches: a study of an earlier version that can't be opened any more, or opens as another one.
    const promised = readFileSync(`${FOLDER}/${file.replace(".study.json", ".txt")}`, "utf8");
    assert.deepEqual(textOf(`${FOLDER}/${file}`).split("\n"), promised.split("\n"));
  });
}

const tables = readdirSync(TABLES).filter((it) => /^strict-.*csv$/.test(it));
assert.ok(tables.length);
for (const file of tables) {
  test(`the strict table ${file}`, () => {
    // Catches: a strict table of an earlier version about which the page asks, or that it saves as another one.
    const text = readFileSync(`${TABLES}/${file}`, "utf8");
    const sheet = sheetOf(text);
    const { base } = readTable(sheet, guessedLayout(sheet), { chosen: new Map(), leftOut: new Set() });
    assert.equal(strictTable(base ?? assert.fail("it isn't whole")), text);
  });
}
