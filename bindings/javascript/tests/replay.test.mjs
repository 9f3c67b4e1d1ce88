import { deepEqual, equal } from "node:assert/strict";
import { test } from "node:test";
import { Register, Script, replay, replayBytes, replayText } from "voting-board";
import { refused, thrown, wrongType } from "./misuse.mjs";

const EXAMPLE = `member,votes
AAA,50
BBB,49
CCC,1
script
open,1
open,2
open,3
move,AAA,1
move,BBB,2
move,CCC,3
publish
read,1,half
`;
const BEGUN = "member,votes\nAAA,10\nscript\n";
const bytesOf = (text) => new TextEncoder().encode(text);
const fault = (record, number, name, reason) => ({ record, number, name, reason });

test("the outcomes of an example", () => {
  const run = replay(EXAMPLE);
  const outcomes = [...run];
  deepEqual(outcomes.slice(0, 7).map(({ kind, record, number }) => [kind, record, number]), [
    ...Array.from({ length: 6 }, (_, at) => ["accepted", at + 6, at + 1]), ["published", 12, 6],
  ]);
  const { kind, record, reader, front, ...indices } = outcomes[7];
  deepEqual([kind, record, reader, front, outcomes.length], ["reading", 13, 1, 6, 8]);
  deepEqual(indices, run.register().indices("half"));
  deepEqual([run.fault, [...run.refused], [...run.readings]], [null, [], [outcomes[7]]]);
  deepEqual([...replay(bytesOf(EXAMPLE))], outcomes);
  equal(replayText(EXAMPLE).text.endsWith("\nchair,3,1,1,1/4,1/5,1/3,1/5\n"), true);
});

test("a refused command and a fault have the numbers of their records, also through quotes and line ends", () => {
  const run = replay(`${BEGUN}open,1\nopen,1\nmove,AAB,1\nclose\n`);
  const kind = "refused";
  deepEqual([...run.refused], [
    { kind, record: 5, number: 1, name: "ChairOpen", reason: "the chair is open already", command: "open,1" },
    { kind, record: 6, number: 4, name: "UnknownMember", reason: "no member has this code", command: "move,AAB,1" },
  ]);
  deepEqual(run.fault, fault(7, 17, "BadRecord", "a record is not well formed"));
  for (const input of [
    "\uFEFFmember,votes\r\n\r\n\"AAA\",10\r\n\"script\"\r\nopen,1\r\nclose,2",
    "\uFEFF\n\nmember,votes\rAAA,10\rscript\ropen,1\r\rclose,2\r",
    'member,votes\nAAA,10\n"scr"ipt\n"op"en,1\n\n\nclose,"2"\n',
  ]) {
    deepEqual([...replay(input).refused].map(({ record, command }) => [record, command]), [[5, "close,2"]]);
  }
});

test("faults before the script", () => {
  const codes = Array.from({ length: 257 }, (_, at) => `A${String.fromCharCode(65 + at / 26, 65 + (at % 26))},1\n`);
  for (const [input, number, name, record] of [
    ["", 21, "BadHeader", 0],
    ["member,votes\n", 28, "NoScript", 0],
    ["member,votes\nAAA,1\nAAA,1\nscript\nopen,1\n", 11, "DuplicateMember", 0],
    ["member,votes\naaa,1\n", 17, "BadRecord", 2],
    [new Uint8Array(4_194_305), 29, "TooLong", 0],
    [`member,votes\n${codes.join("")}script\n`, 12, "TooManyMembers", 0],
  ]) {
    const run = replay(input);
    deepEqual([run.fault.number, run.fault.name, run.fault.record, [...run]], [number, name, record, []]);
    deepEqual(replayText(input), { text: `fault,${record},${name}\n`, fault: run.fault });
    deepEqual(refused(() => run.register()).slice(0, 2), [name, number]);
  }
});

test("a fault after the opening leaves a register", () => {
  for (const [script, accepted] of [["foo\n", 0], ["open,1\nfoo\n", 1], ["open,1\nread,2,half\nopen,2\n", 1]]) {
    const run = replay(`${BEGUN}${script}`);
    deepEqual([run.register().accepted, run.register().opening, run.fault === null], [accepted, { AAA: 10 }, false]);
  }
});

test("readers and the journal have limits", () => {
  const script = `${BEGUN}open,1\nopen,2\nread,2,half\n`;
  deepEqual(
    [...replay(script, { readers: 2, journal: 1 })].map(({ kind }) => kind), ["accepted", "refused", "reading"],
  );
  equal(replay(script).fault.name, "BadReader");
  for (const call of [replay, replayText, replayBytes]) {
    for (const readers of [0, 5, -1, 1.5, NaN, 2 ** 32 + 1]) {
      deepEqual(
        refused(() => call(script, { readers })), ["BadLimit", 13, `readers is ${readers}: a whole number from 1 to 4`],
      );
    }
    for (const journal of [0, 1_000_001, 2 ** 32 + 1]) {
      deepEqual(
        refused(() => call(script, { journal })),
        ["BadLimit", 13, `journal is ${journal}: a whole number from 1 to 1000000`],
      );
    }
    equal(wrongType(() => call(script, { readers: "1" })), "readers is '1' (string): a whole number from 1 to 4");
    equal(wrongType(() => call(script, { journal: null })), "journal is null: a whole number from 1 to 1000000");
    equal(wrongType(() => call(script, { reader: 1 })), "unknown option 'reader': the options are readers and journal");
  }
});

test("an input is a script as text or bytes, and no path", () => {
  for (const call of [replay, replayText, (it) => new Script(it), (it) => Register.fromScript(it)]) {
    equal(wrongType(() => call("script.csv")),
      "the input is 'script.csv': a script has several lines; replayFile takes the path of a file");
    for (const input of [undefined, null, 1, NaN, [BEGUN], new ArrayBuffer(1)]) wrongType(() => call(input));
  }
  equal(replay(bytesOf("script.csv")).fault.name, "BadHeader");
});

test("the records of a script with the places of their bytes", () => {
  const begun = '\ufeffmember,votes\r\nAAA,1\n\n"script"\r\n\n';
  const input = bytesOf(`${begun}"op"en,2\r\nmove,AAA,none\rread,1,"70"`);
  const script = new Script(input);
  deepEqual([script.members, script.fault, script.length], [[{ code: "AAA", votes: 1 }], null, 3]);
  const nothing = { code: null, chair: null, votes: null, reader: null, majority: null };
  deepEqual([...script].map(({ from, to, ...item }) => [new TextDecoder().decode(input.subarray(from, to)), item]), [
    ['"op"en,2', { ...nothing, record: 4, kind: "open", chair: 2 }],
    ["move,AAA,none", { ...nothing, record: 5, kind: "move", code: "AAA" }],
    ['read,1,"70"', { ...nothing, record: 6, kind: "read", reader: 1, majority: "70" }],
  ]);
  deepEqual(
    [script.item(2), script.item(3), script.item(-1), script.item(0.5)],
    [[...script][2], undefined, undefined, undefined],
  );
  const bad = new Script(`${begun}open,1\nop"en,1\nopen,2`);
  deepEqual([bad.members.length, bad.length, bad.fault.number, bad.fault.record], [1, 1, 17, 5]);
  equal(new Script(`${begun}read,4,half`, { readers: 4 }).item(0).reader, 4);
});

test("each iteration begins again, and a loop may end at any time", () => {
  const run = replay(EXAMPLE);
  for (const it of run) if (it.record === 8) break;
  equal([...run].length, 8);
  const [first, second] = [run[Symbol.iterator](), run[Symbol.iterator]()];
  first.next();
  deepEqual([first.next().value.number, second.next().value.number], [2, 1]);
});

test("a register of a replay is the caller's", () => {
  const run = replay(EXAMPLE);
  const register = run.register();
  register.setVotes("AAA", 7);
  deepEqual([register.accepted, register.published, run.register().accepted], [7, 6, 6]);
});

test("texts that are longer than the room at first, whatever the quotes of a reading", () => {
  const chairs = Array.from({ length: 32 }, (_, at) => `open,${at + 1}\n`).join("");
  for (
    const read of ["read,1,half\n", 're"ad,1,half\n', '"rea"d,1,half\n', '"re""ad",1,half\n', '"read","1","half"\n']
  ) {
    const input = `member,votes\nAAA,1\n"script"\n${chairs}publish\n${read.repeat(300)}`;
    const isFault = read.startsWith('re"') || read.includes('""');
    const { text, fault } = replayText(input);
    equal(text.split("\n").length, isFault ? 35 : 33 + 33 * 300 + 1);
    equal([...replay(input).readings].length, isFault ? 0 : 300);
    equal(fault?.record ?? 0, isFault ? 37 : 0);
  }
});

test("4 MiB of one bad record, or of bad records, is a bad record", () => {
  for (
    const [input, record] of [["read".repeat(1_040_000), 4], ["read\n".repeat(800_000), 4], ['"'.repeat(4_000_000), 4]]
  ) {
    equal(replayText(`${BEGUN}${input}`).text, `fault,${record},BadRecord\n`);
    equal(replay(`${BEGUN}${input}`).fault.name, "BadRecord");
    equal(thrown(() => new Register({}).submit(input)).code, "BadRecord");
  }
  equal(replay(`${BEGUN}${"read".repeat(1_060_000)}`).fault.name, "TooLong");
});

test("4 MiB of readings are counted as they are asked for, and once if they are the same", () => {
  const chairs = Array.from({ length: 32 }, (_, at) => `open,${at + 1}\n`).join("");
  const begun = `${BEGUN}${chairs}publish\n`;
  const run = replay(begun + "read,1,70\n".repeat(Math.floor((4_194_304 - begun.length) / 10)));
  let [many, first] = [0, undefined];
  for (const { chairs, omega } of run.readings) {
    first ??= chairs;
    if (chairs !== first || omega !== 0) break;
    many += 1;
  }
  equal(many, Math.floor((4_194_304 - begun.length) / 10));
});
