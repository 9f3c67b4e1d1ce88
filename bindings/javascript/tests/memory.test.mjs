// Records are carried out as a whole or not at all, also where memory runs out: each call of the module that wants
// memory is refused in turn, once, or from there on.
import assert from "node:assert/strict";
import test from "node:test";

const OUT_OF_MEMORY = 10;
const LISTS = [
  "open,3\nmove,BBB,3\nvotes,AAA,5",
  "open,3\npublish\nopen,4",
  "open,3\nopen,3",
  "open,3\npublish\nopen,4\nopen,4",
  "votes,AAA,9\nbad",
  "open,3",
  "open,1",
  ["open,3", "publish", { kind: "open", chair: 3 }],
  "publish\nvotes,AAA,9\nread,1,half",
];
const refusing = { next: 0, all: false, many: 0 };

function isRefused() {
  if (refusing.next === 0) return false;
  if (refusing.next > 1) {
    refusing.next--;
    return false;
  }
  if (!refusing.all) refusing.next = 0;
  refusing.many++;
  return true;
}

const { Instance } = WebAssembly;
WebAssembly.Instance = function (...given) {
  const exports = { ...new Instance(...given).exports };
  for (const name of ["board_register_apply", "board_register_copy"]) {
    const call = exports[name];
    exports[name] = (...words) => (isRefused() ? OUT_OF_MEMORY : call(...words));
  }
  return { exports };
};
const { Register } = await import("voting-board");

const stateOf = (register) => [register.script(), register.published, JSON.stringify(register.members)];

/** Submits with a call refused: what came of it, or none if no call was. */
function submitted(records, isPublished, place) {
  refusing.next = 0;
  const register = new Register({ AAA: 50, BBB: 49 });
  register.submit("open,1\nmove,AAA,1");
  if (isPublished) register.publish();
  register.setVotes("AAA", 7);
  const [before, other] = [stateOf(register), register.copy()];
  tried(other, records);
  Object.assign(refusing, { next: place, many: 0 });
  const why = tried(register, records);
  refusing.next = 0;
  assert.deepEqual(stateOf(register), why ? before : stateOf(other), `${records}, ${place}`);
  if (refusing.many > 0) assert.equal(why?.number, OUT_OF_MEMORY, `${records}, ${place}`);
  return refusing.many > 0;
}

function tried(register, records) {
  try {
    register.submit(records);
    return undefined;
  } catch (why) {
    return why;
  }
}

// Catches: a list that is half carried out when memory runs out while it is taken back.
test("records are carried out as a whole or not at all, wherever memory runs out", () => {
  let places = 0;
  for (const records of LISTS)
    for (const isPublished of [false, true])
      for (refusing.all of [false, true]) for (let place = 1; submitted(records, isPublished, place); place++) places++;
  assert.ok(places > 50);
});
