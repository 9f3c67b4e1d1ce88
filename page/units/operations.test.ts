/** Tests of operations, over the built module: what they do to the register, and that they do all of it or nothing. */
import assert from "node:assert/strict";
import { readFileSync } from "node:fs";
import { test } from "node:test";
import { loadSync } from "../../bindings/javascript/src/load";
import { Register } from "../../bindings/javascript/src/register";
import { changeWords, refusalWords } from "../src/study/commandWords";
import { Engine } from "../src/engine/engine";
import { operationDetails } from "../src/study/operationWords";
import { outcomeOf } from "../src/engine/operations";
import type { Counts, Outcome } from "../src/engine/orders";
import { scriptOf, scriptWith } from "../src/study/script";
import { Standing } from "../src/engine/standing";
import { FIRST_VIEW, studyOf, withAdded, type Base, type Change, type Operation, type What } from "../src/study/study";
import { dataText, readData } from "../src/study/studyData";

const bytes = readFileSync(process.env["MODULE"] ?? "");
loadSync(bytes);

const change = (what: What, id = 1, on = true): Change => ({ id, on, what });
const move = (code: string, chair: number | null) => ({ kind: "move", code, chair }) as const;

/** Chair 1 has AAA, BBB and CCC, chair 2 has DDD, chair 3 nobody, and EEE is in no chair. */
function board(journal = 1000): Register {
  const register = new Register({ AAA: 50, BBB: 30, CCC: 20, DDD: 45, EEE: 5 }, { journal });
  for (const chair of [1, 2, 3]) register.open(chair);
  for (const code of ["AAA", "BBB", "CCC"]) register.move(code, 1);
  register.move("DDD", 2);
  return register;
}

const stateOf = ({ accepted, members, chairs, journal }: Register) =>
  JSON.stringify([accepted, members, chairs, journal.map(String)]);

/** The outcome of an operation; one that isn't accepted leaves the register as it was. */
function done(register: Register, what: What): Outcome {
  const before = stateOf(register);
  const outcome = outcomeOf(register, change(what));
  if (outcome.kind !== "accepted") assert.equal(stateOf(register), before);
  return outcome;
}

/** The records of an accepted operation. */
function records(register: Register, what: What): string[] {
  const outcome = done(register, what);
  assert.equal(outcome.kind, "accepted");
  const all = register.journal.map(String);
  return "commands" in outcome ? all.slice(-outcome.commands.length) : [];
}

/** The number of a refusal, and the record that was refused; or why an operation is impossible. */
function whyNot(register: Register, what: What): string {
  const outcome = done(register, what);
  if (outcome.kind === "impossible") return outcome.why;
  if (outcome.kind !== "refused") return outcome.kind;
  const { number, refused: { kind, code, chair } } = outcome;
  assert.deepEqual(outcome.commands, []);
  return `${number} ${kind} ${code ?? chair}`;
}

test("a merger moves the members that are then in the chair, and closes it", () => {
  // Catches: members of the base that left, or that came by an earlier change; a chair that stays open.
  const register = board();
  register.submit([move("BBB", null), move("EEE", 1)]);
  const outcome = done(register, { kind: "merge", chair: 1, to: 2 });
  assert.deepEqual(register.journal.slice(-4).map(String), ["move,AAA,2", "move,CCC,2", "move,EEE,2", "close,1"]);
  assert.deepEqual(register.chairs, { 2: ["AAA", "CCC", "DDD", "EEE"], 3: [] });
  const before = outcome.kind === "accepted" ? outcome.before.map(({ code, chair }) => [code, chair]) : [];
  assert.deepEqual(before, [["AAA", 1], ["CCC", 1], ["EEE", 1]]);
});

test("a chair is dissolved", () => {
  // Catches: members that a chair takes along, or that go to another chair than the chosen one.
  const register = board();
  const all = ["move,AAA,none", "move,BBB,none", "move,CCC,none", "close,1"];
  assert.deepEqual(records(register, { kind: "dissolve", chair: 1, to: null }), all);
  assert.deepEqual(register.chairs, { 2: ["DDD"], 3: [] });
  assert.deepEqual(records(register, { kind: "dissolve", chair: 2, to: 3 }), ["move,DDD,3", "close,2"]);
});

test("members are split off to the lowest closed chair, or to a chosen one", () => {
  // Catches: a chair that isn't opened first, or a lowest number that is the one of the base.
  const register = board();
  register.close(3);
  const some: Operation = { kind: "split", codes: ["CCC", "AAA"], to: "lowest" };
  assert.deepEqual(records(register, some), ["open,3", "move,CCC,3", "move,AAA,3"]);
  assert.deepEqual(records(register, { kind: "split", codes: ["DDD", "EEE"], to: 32 }).slice(0, 1), ["open,32"]);
  assert.deepEqual(register.chairs, { 1: ["BBB"], 2: [], 3: ["AAA", "CCC"], 32: ["DDD", "EEE"] });
});

test("votes in per cent are rounded for each member, half to even", () => {
  // Catches: the chair's sum that is rounded or shared out, another rule than that of one member's per cent.
  const votes = { AAA: 5, BBB: 15, CCC: 25, DDD: 45, EEE: 1, FFF: 0 };
  const halves = new Register(votes);
  const codes = Object.keys(votes);
  const tenth = records(halves, { kind: "scale", of: codes, percent: "+10" });
  // 5.5, 16.5, 27.5, 49.5, 1.1 and 0.
  assert.deepEqual(tenth, [6, 16, 28, 50, 1, 0].map((it, at) => `votes,${codes[at]},${it}`));
  for (const percent of ["+12.5", "-37.25", "+0.000000001", "-0", "+99999"]) {
    const [one, all] = [new Register(votes), new Register(votes)];
    for (const code of codes) outcomeOf(one, change({ kind: "percent", of: "own", code, percent }));
    records(all, { kind: "scale", of: codes, percent });
    assert.deepEqual(all.members, one.members, percent);
  }
});

test("a chair's votes in per cent, with a suspended member and none", () => {
  // Catches: a suspended member that keeps its votes, so that it returns with the old ones.
  const register = board();
  register.suspend("BBB");
  const halved = ["votes,AAA,25", "votes,BBB,15", "votes,CCC,10"];
  assert.deepEqual(records(register, { kind: "scale", of: 1, percent: "-50" }), halved);
  assert.equal(register.members["BBB"]?.suspended, true);
  assert.equal(whyNot(register, { kind: "scale", of: 3, percent: "+1" }), "chair 3 has no member");
  assert.equal(whyNot(register, { kind: "scale", of: 4, percent: "+1" }), "chair 4 is not open");
});

test("votes that no member can have", () => {
  // Catches: some members with new votes and some without, votes below 0, a sentence without the member.
  const register = board();
  const none = (code: string, votes: bigint) => `${code}: ${votes} votes, which is not from 0 to 2^40`;
  assert.equal(whyNot(register, { kind: "scale", of: 1, percent: "-110" }), none("AAA", -5n));
  assert.deepEqual(records(register, { kind: "scale", of: 2, percent: "-101" }), ["votes,DDD,0"]);
  register.setVotes("CCC", 2 ** 40);
  assert.equal(whyNot(register, { kind: "scale", of: 1, percent: "+1" }), none("CCC", 1_110_506_744_054n));
  const who: Operation = { kind: "scale", of: ["AAA", "ZZZ"], percent: "+1" };
  assert.equal(whyNot(register, who), "no member has the code ZZZ");
});

test("a suspended member in the middle", () => {
  // Catches: the members before it that have moved, a chair that is opened and stays, a refusal of another member.
  const register = board();
  register.suspend("BBB");
  assert.equal(whyNot(register, { kind: "merge", chair: 1, to: 2 }), "5 move BBB");
  assert.equal(whyNot(register, { kind: "dissolve", chair: 1, to: null }), "5 move BBB");
  assert.equal(whyNot(register, { kind: "split", codes: ["AAA", "BBB"], to: "lowest" }), "5 move BBB");
  assert.deepEqual(records(register, { kind: "split", codes: ["AAA", "CCC"], to: "lowest" }).length, 3);
  assert.equal(whyNot(register, { kind: "merge", chair: 1, to: 2 }), "5 move BBB");
  register.restore("BBB");
  assert.deepEqual(records(register, { kind: "merge", chair: 1, to: 2 }), ["move,BBB,2", "close,1"]);
});

test("chairs that are closed, empty or the same", () => {
  // Catches: an empty chair that is merged into a closed one, a member that is moved to where it is.
  const register = board();
  assert.equal(whyNot(register, { kind: "merge", chair: 1, to: 7 }), "2 move AAA");
  assert.equal(whyNot(register, { kind: "merge", chair: 7, to: 1 }), "2 close 7");
  assert.equal(whyNot(register, { kind: "dissolve", chair: 7, to: null }), "2 close 7");
  assert.equal(whyNot(register, { kind: "merge", chair: 3, to: 7 }), "chair 7 is not open");
  assert.equal(whyNot(register, { kind: "merge", chair: 1, to: 1 }), "chair 1 can't be merged into itself");
  assert.equal(whyNot(register, { kind: "dissolve", chair: 3, to: 3 }), "chair 3 can't be merged into itself");
  assert.equal(whyNot(register, { kind: "split", codes: ["AAA", "ZZZ"], to: 9 }), "4 move ZZZ");
  assert.equal(whyNot(register, { kind: "split", codes: ["AAA", "AAA"], to: 9 }), "6 move AAA");
  assert.deepEqual(records(register, { kind: "merge", chair: 3, to: 1 }), ["close,3"]);
});

test("a board with all chairs open", () => {
  // Catches: a chair 33, or a split that takes a chair which is in use.
  const register = board();
  for (let chair = 4; chair <= 32; chair += 1) register.open(chair);
  assert.equal(whyNot(register, { kind: "split", codes: ["AAA"], to: "lowest" }), "all 32 chairs are open");
  assert.equal(whyNot(register, { kind: "split", codes: ["AAA"], to: 17 }), "1 open 17");
  assert.deepEqual(records(register, { kind: "dissolve", chair: 17, to: null }), ["close,17"]);
  assert.deepEqual(records(register, { kind: "split", codes: ["AAA"], to: "lowest" }), ["open,17", "move,AAA,17"]);
});

test("a journal that is full in the middle", () => {
  // Catches: commands that are carried out up to the limit; a second try that is refused for another reason.
  for (const [journal, refused] of [[7, "9 move AAA"], [8, "9 move BBB"], [10, "9 close 1"]] as const) {
    const register = board(journal);
    const what: Operation = { kind: "merge", chair: 1, to: 2 };
    assert.equal(whyNot(register, what), refused);
    assert.equal(whyNot(register, what), refused);
  }
  const last = board(11);
  assert.equal(records(last, { kind: "merge", chair: 1, to: 2 }).length, 4);
  assert.equal(whyNot(last, { kind: "scale", of: 2, percent: "+1" }), "9 votes AAA");
});

test("256 members in one operation", () => {
  // Catches: an operation that some limit on members cuts.
  const codes = Array.from({ length: 256 }, (_, at) => `A${"ABCDEFGHIJKLMNOP"[at >> 4]}${"ABCDEFGHIJKLMNOP"[at & 15]}`);
  const register = new Register(Object.fromEntries(codes.map((code, at) => [code, at])));
  assert.equal(records(register, { kind: "split", codes, to: 5 }).length, 257);
  assert.equal(records(register, { kind: "scale", of: 5, percent: "+100" }).length, 256);
  register.suspend("APP");
  assert.equal(whyNot(register, { kind: "dissolve", chair: 5, to: null }), "5 move APP");
  assert.equal(register.indices("half").chairs[0]?.weight, 255 * 256 - 2 * 255);
});

const engine = new Engine();
await engine.carryOut("module", bytes, async () => {});
const SCRIPT = board().script();
const AT = ["half", "85"] as const;

async function counted(changes: readonly Change[]): Promise<Counts> {
  await engine.carryOut("base", { number: 1, script: SCRIPT }, async () => {});
  return engine.carryOut("count", { base: 1, changes, majorities: AT }, async () => {});
}

test("the script of a list with operations gives the readings", async () => {
  // Catches: commands of a refused operation in the script, where some of them would be carried out.
  const whats: What[] = [
    { kind: "suspend", code: "CCC" },
    { kind: "merge", chair: 1, to: 2 },
    { kind: "split", codes: ["AAA", "EEE"], to: "lowest" },
    { kind: "scale", of: 4, percent: "+10" },
    { kind: "move", code: "CCC", chair: 2 },
    { kind: "dissolve", chair: 2, to: 3 },
  ];
  const changes = whats.map((it, at) => change(it, at));
  const first = [...changes.slice(1, 2), ...changes.slice(0, 1), ...changes.slice(2)];
  const off = changes.map((it) => ({ ...it, on: it.id !== 0 }));
  const kinds: string[] = [];
  for (const list of [changes, first, off, changes]) {
    const { outcomes, commands, before, after } = await counted(list);
    const script = scriptOf(SCRIPT, commands, AT);
    assert.equal(await engine.carryOut("check", { script, readings: [...before, ...after] }, async () => {}), true);
    kinds.push([...outcomes.values()].map((it) => it.kind[0]).join(""));
  }
  // By first letters: accepted, refused, impossible, off. While CCC is suspended, nothing moves it. Once chair 1 is
  // merged, the split opens chair 1, so chair 4 isn't open.
  assert.deepEqual(kinds, ["araara", "aaairr", "oaaira", "araara"]);
  // A refused command stays in the script, and opens no chair.
  const { commands, standing } = await counted([...changes, change({ kind: "open", chair: 3 }, 9)]);
  assert.deepEqual(commands.map((it) => it.kind), [
    "suspend", "open", "move", "move", "votes", "votes", "move", "move", "close", "open",
  ]);
  assert.deepEqual([standing.open, standing.opened], [[1, 3, 4], { 4: 2 }]);
});

const BASE: Base = {
  script: SCRIPT,
  names: { AAA: "Alland", BBB: "בלנד", DDD: "Delland" },
  chairNames: {},
  rows: {},
  choices: [],
  hash: "",
  columns: {},
};
const names = new Standing({ seats: [], open: [], opened: {} }, BASE);

test("operations in words", () => {
  // Catches: a sentence without old or new values, a member that isn't named, a name that turns the words around it.
  const words = (what: What, register = board()) => {
    const outcome = outcomeOf(register, change(what));
    return `${changeWords(change(what), outcome, names)} | ${refusalWords(outcome, names)}`;
  };
  const [bbb, all] = ["BBB \u2068בלנד\u2069", "AAA Alland, BBB \u2068בלנד\u2069 and CCC"];
  const suspended = board();
  suspended.suspend("BBB");
  const refused = "refused 5 MemberSuspended: the member's voting rights are suspended (move,BBB,2)";
  const nothing = "nothing of the operation was carried out";
  const merge: Operation = { kind: "merge", chair: 1, to: 2 };
  assert.equal(words(merge), `Chair 1 is merged into chair 2 (3 members: ${all}) | `);
  assert.equal(words(merge, suspended), `Chair 1 is merged into chair 2 | ${bbb}: ${refused}; ${nothing}`);
  assert.equal(words(move("BBB", 2), suspended), `${bbb} → chair 2 | ${refused}`);
  assert.equal(words({ kind: "merge", chair: 3, to: 2 }), "Chair 3 is merged into chair 2 (it had no member) | ");
  const dissolved = "Chair 2 is dissolved, and its members go to no chair (1 member: DDD Delland) | ";
  assert.equal(words({ kind: "dissolve", chair: 2, to: null }), dissolved);
  const open = "refused 1 ChairOpen: the chair is open already (open,3)";
  const split: Operation = { kind: "split", codes: ["AAA", "CCC"], to: "lowest" };
  assert.equal(words(split), "Chair 1 is split: AAA Alland and CCC → new chair 4 | ");
  assert.equal(words({ ...split, to: 3 }), `AAA Alland and CCC → new chair 3 | chair 3: ${open}; ${nothing}`);
  assert.equal(words({ ...split, codes: ["AAA", "DDD"] }), "AAA Alland and DDD Delland → new chair 4 | ");
  const votes = `AAA Alland 50 → 55, ${bbb} 30 → 33 and CCC 20 → 22`;
  const scale: Operation = { kind: "scale", of: 1, percent: "+10" };
  assert.equal(words(scale), `Each member of chair 1: votes +10 % (${votes}) | `);
  const codes = ["AAA", "BBB", "CCC", "DDD"];
  const group = `4 members: votes +10 % (AAA Alland 50 → 55, ${bbb} 30 → 33, CCC 20 → 22 and 1 more) | `;
  assert.equal(words({ ...scale, of: codes }), group);
  const few = `AAA Alland, ${bbb}, CCC and 1 more: votes -200 % | AAA Alland: -50 votes, which is not from 0 to 2^40`;
  assert.equal(words({ ...scale, of: codes, percent: "-200" }), few);
  const details = operationDetails({ ...scale, of: codes }, outcomeOf(board(), change({ ...scale, of: codes })), names);
  assert.equal(details, `AAA Alland 50 → 55; ${bbb} 30 → 33; CCC 20 → 22; DDD Delland 45 → 50`);
});

/** The cases that the package for Python reads, too: an operation on the board after some commands. */
interface Case {
  readonly start: readonly string[];
  readonly text: string;
  readonly data: Operation;
  readonly records?: readonly string[];
  readonly why?: string;
}

test("operations as board-study carries them out", () => {
  // Catches: another meaning of an operation than in board-study, also where members or all others have no votes.
  const cases = JSON.parse(readFileSync(process.env["OPERATIONS"] ?? "", "utf8")) as readonly Case[];
  for (const it of cases) {
    const register = Register.fromScript(scriptWith(board().script(), it.start));
    if (it.why) assert.equal(whyNot(register, it.data), it.why, it.text);
    else assert.deepEqual(records(register, it.data), it.records, it.text);
    const [read] = readData(saved(it.data))?.study.changes ?? [];
    assert.deepEqual(read?.what, it.data);
  }
});

test("a share of the others keeps the total", () => {
  // Catches: a vote that is lost by rounding, or points of another total, where a member is suspended.
  const register = board();
  register.submit([{ kind: "suspend", code: "AAA" }, { kind: "votes", code: "DDD", votes: 0 }]);
  records(register, { kind: "share", codes: ["BBB", "CCC"], percent: "7.7", others: "pay" });
  assert.equal(Object.values(register.members).reduce((sum, member) => sum + member.votes, 0), 105);
  assert.equal(whyNot(register, { kind: "move", codes: ["BBB", "DDD"], to: 9 }), "2 move BBB");
});

/** The data of a study with a change. */
function saved(what: unknown): string {
  const study = withAdded(studyOf("It", BASE), [what as What]);
  return dataText({ study, view: FIRST_VIEW }, []);
}

test("operations in a saved study", () => {
  // Catches: a part of an operation that isn't saved, or an operation that the page could carry out as another one.
  const whole: Operation[] = [
    { kind: "merge", chair: 1, to: 2 },
    { kind: "dissolve", chair: 32, to: null },
    { kind: "dissolve", chair: 1, to: 2 },
    { kind: "split", codes: ["AAA", "BBB"], to: "lowest" },
    { kind: "split", codes: ["AAA"], to: 9 },
    { kind: "scale", of: 1, percent: "+12.5" },
    { kind: "scale", of: ["AAA", "BBB"], percent: "-3" },
    { kind: "share", codes: ["AAA", "BBB"], percent: "+6", others: "pay" },
    { kind: "share", codes: ["AAA"], percent: "20.5", others: "keep" },
    { kind: "move", codes: ["AAA", "BBB"], to: null },
  ];
  for (const it of whole) assert.deepEqual(readData(saved(it))?.study.changes, [change(it)]);
  // As earlier versions saved it.
  const old = saved({ kind: "percent", of: "own", code: "AAA", percent: "+40" });
  assert.match(old, /"format": "board study 2"/);
  assert.deepEqual(readData(old)?.study.changes.map((it) => it.what.kind), ["percent"]);
  const bad: unknown[] = [
    { kind: "merge", chair: 1, to: null },
    { kind: "merge", chair: 33, to: 2 },
    { kind: "merge", chair: "1", to: 2 },
    { kind: "dissolve", chair: 1 },
    { kind: "split", codes: [], to: 2 },
    { kind: "split", codes: ["AAA", "AAA"], to: 2 },
    { kind: "split", codes: ["AAA"], to: null },
    { kind: "split", codes: ["AAA"], to: "highest" },
    { kind: "scale", of: 1, percent: "5" },
    { kind: "scale", of: 1, percent: "+5e3" },
    { kind: "scale", of: "AAA", percent: "+5" },
    { kind: "move", chair: 1, to: 2 },
  ];
  for (const it of bad) assert.throws(() => readData(saved(it)), /this is no study of this page/, JSON.stringify(it));
});
