// Names of chairs, by the table that all packages and the page read: in the folder that BOARD_ANSWERS names.
import { deepEqual, equal, ok, throws } from "node:assert/strict";
import { readFileSync } from "node:fs";
import { join } from "node:path";
import { test } from "node:test";
import { Refused, Register } from "voting-board";

const table = readFileSync(join(process.env.BOARD_ANSWERS ?? "", "chair_names.txt"), "utf8");
const cases = table.trimEnd().split("\n\n").slice(1).map((it) => it.split("\n"));

const namesIn = (text) => Object.fromEntries(text.split(";").filter(Boolean).map((it) => it.split("=")));
const namesOf = ({ chairs }) =>
  Object.fromEntries(chairs.filter(({ name }) => typeof name === "string").map(({ chair, name }) => [chair, name]));
const stateOf = (it) => [it.script(), it.chairNames, namesOf(it.indices("half")), namesOf(it.read("half"))];
const fieldsOf = (text) => [text.split(",")[0], text.split(",").slice(1).join(",")];

function started(steps) {
  const rows = steps.filter((it) => it.startsWith("table,")).map((it) => it.split(",").slice(1));
  return new Register(
    rows.map(([code, votes, chair, name]) => ({
      code,
      votes: Number(votes),
      chair: chair ? Number(chair) : null,
      chair_name: name || null,
    })),
  );
}

const CHANGES = {
  submit: (it, given) => it.submit(given.split(";")),
  open: (it, given) => it.open(Number(fieldsOf(given)[0]), fieldsOf(given)[1]),
  rename: (it, given) => it.rename(Number(fieldsOf(given)[0]), fieldsOf(given)[1] || null),
  undo: (it, given) => it.undo(Number(given)),
};
const OTHERS = {
  copy: (it) => it.copy(),
  keep: (it) => it.copy(),
  save: (it) => Register.fromScript(it.script(), { names: it.chairNames }),
};

function refused(register, given) {
  const [number, step] = fieldsOf(given);
  const [kind, rest] = fieldsOf(step);
  const before = stateOf(register);
  throws(() => CHANGES[kind](register, rest), (why) => why instanceof Refused && why.number === Number(number));
  deepEqual(stateOf(register), before);
}

function check(register, kind, given) {
  if (kind === "read") return deepEqual(namesOf(register.read("half")), namesIn(given));
  for (const it of [register.chairNames, namesOf(register.indices("85")), namesOf(register.indicesOfAll().half)]) {
    deepEqual(it, namesIn(given));
  }
}

// Catches: a name that outlives its chair, is lost with `undo` or a copy, or comes from a refused call.
for (const [title, ...steps] of cases) {
  test(title, () => {
    let register = started(steps);
    let first;
    for (const [kind, given] of steps.map(fieldsOf)) {
      if (kind in CHANGES) CHANGES[kind](register, given);
      else if (kind === "refused") refused(register, given);
      else if (kind in OTHERS) {
        if (kind === "copy") first = [register, stateOf(register)];
        register = OTHERS[kind](register);
      } else if (kind !== "table") check(register, kind, given);
    }
    if (first) deepEqual(stateOf(first[0]), first[1]);
  });
}

// Catches: openings that are found wrongly where some of the journal was looked at before.
test("chairs that are opened and closed in turn", () => {
  const register = new Register([{ code: "AAA", votes: 5, chair: 1, chair_name: "North" }]);
  const expected = { 1: "North" };
  for (let number = 3; number < 200; number++) {
    const chair = 2 + ((number * 7) % 30);
    if (chair in register.chairs) {
      register.close(chair);
      delete expected[chair];
    } else {
      const name = number % 3 > 0 ? `name ${number}` : null;
      register.open(chair, name);
      if (name) expected[chair] = name;
    }
    if (number % 5 === 0) deepEqual(register.chairNames, expected);
  }
  deepEqual(Register.fromScript(register.script(), { names: new Map(Object.entries(expected)) }).chairNames, expected);
});

// Catches: a name that is no text, and a name of a closed chair, that are taken.
test("names are texts, and of open chairs", () => {
  ok(cases.length > 10);
  const register = new Register({ AAA: 5 });
  const wrong = (call, message) => throws(call, { name: "TypeError", message });
  wrong(() => register.open(1, 5), "the name is 5 (number): a name is text");
  equal(register.accepted, 0);
  register.open(1);
  wrong(() => register.rename(1), "the name is undefined: a name is text");
  const named = (names) => () => Register.fromScript(register.script(), { names });
  wrong(named("North"), "the names are 'North' (string): texts by chairs");
  wrong(named({ 1: 5 }), "the name of chair 1 is 5 (number): a name is text");
  const closed = "no name for chair 2: ChairNotOpen (2), the chair is not open";
  throws(named({ 2: "South" }), { number: 2, message: closed });
  throws(named({ x: "South" }), { number: 14 });
});
