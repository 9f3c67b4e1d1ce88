/** Tests of names that are edited. */
import assert from "node:assert/strict";
import { test } from "node:test";
import { nameOf, withChairName, withMemberName } from "../src/study/naming";
import type { Study } from "../src/study/study";

const STUDY: Study = {
  name: "Council",
  base: {
    script: "member,votes\nAAA,5\nBBB,4\nscript\nopen,1\n",
    names: { AAA: "Alland", BBB: "Belland" },
    chairNames: { 1: "Hills" },
    rows: { AAA: 2, BBB: 3 },
    choices: [],
    hash: "",
    columns: {},
  },
  changes: [
    { id: 1, on: true, what: { kind: "admit", code: "ZAA", votes: 3 }, name: "Zealand" },
    { id: 2, on: true, what: { kind: "move", code: "ZAA", chair: 1 }, name: "Zealand" },
    { id: 3, on: true, what: { kind: "votes", code: "AAA", votes: 9 } },
  ],
  scenarios: [{ name: "Kept", changes: [{ id: 4, on: true, what: { kind: "admit", code: "ZAA", votes: 3 } }] }],
  published: null,
  sweep: null,
};

test("a member's name", () => {
  // Catches: a name that changes votes or another member, or that is added to a change that had none.
  const { base, changes } = withMemberName(STUDY, "AAA", "Aland");
  assert.deepEqual(base, { ...STUDY.base, names: { AAA: "Aland", BBB: "Belland" } });
  assert.deepEqual(changes, STUDY.changes);
});

test("the name of an admitted member", () => {
  // Catches: an old name that stays in the move of the member, or in a scenario that admits it.
  const { changes, scenarios, base } = withMemberName(STUDY, "ZAA", "Zee");
  const all = [...changes, ...(scenarios[0]?.changes ?? [])];
  assert.deepEqual(all.map((it) => "name" in it), [false, false, false, false]);
  assert.deepEqual(base.names, { AAA: "Alland", BBB: "Belland", ZAA: "Zee" });
  assert.deepEqual(withMemberName(STUDY, "ZAA", "").base.names, STUDY.base.names);
});

test("a chair's name", () => {
  // Catches: a chair without a name that keeps its old one, or is named by an empty text.
  const names = (chair: number, name: string) => withChairName(STUDY, chair, undefined, name).base.chairNames;
  assert.deepEqual(names(1, "Plains"), { 1: "Plains" });
  assert.deepEqual(names(2, "Plains"), { 1: "Hills", 2: "Plains" });
  assert.deepEqual(names(1, ""), {});
});

test("a text as a name", () => {
  // Catches: a name so long that a saved study can't be opened, or that is cut off without a word.
  assert.deepEqual(nameOf("  Alland "), { value: "Alland" });
  assert.deepEqual(nameOf("a".repeat(200)), { value: "a".repeat(200) });
  assert.deepEqual(nameOf("a".repeat(201)), { wrong: "This name has 201 characters; 200 are the most." });
});
