// Calls the registers of a WebAssembly module by the package for JavaScript: node registers.mjs MODULE
// replays|answers|copies|limits. Standard input has the replays; a register and its commands, in the form of
// tests/register/commands.c; or for copies and limits a script that ends without a fault.
import assert from "node:assert/strict";
import { readFileSync, writeSync } from "node:fs";
import {
  REFUSALS, Refused, Register, Script, indices, loadSync, replay, replayBytes,
} from "../../bindings/javascript/dist/esm/index.js";

const [path, what] = process.argv.slice(2);
const module = new WebAssembly.Module(readFileSync(path));
const is64 = path.endsWith("64.wasm");
const NUMBER = Object.fromEntries(REFUSALS.map(([name], number) => [name, number]));
const KINDS = ["open", "close", "move", "votes", "suspend", "restore", "admit", "withdraw"];
const HANDLE = 16;
const ENTRY = 16;
const COMMAND = 24;
const ROOM = 1048576;
const CHAIRS = 32;
const READS = 300;
const COPIES = 10000;
const SIDE = 20;
const TURNS = 200;
const BEGUN = "member,votes\nAAA,1\nscript\n";

/** The exports of the instances in use, the last one last; and what is done before an export is called. */
const instances = [];
const before = {};
const { Instance } = WebAssembly;
WebAssembly.Instance = function (...given) {
  const { memory, ...calls } = new Instance(...given).exports;
  const exports = { memory };
  for (const [name, call] of Object.entries(calls)) {
    exports[name] = (...words) => (before[name]?.(exports, ...words), call(...words));
  }
  instances.push(new WeakRef(exports));
  return { exports };
};
loadSync(module);

/** Writes all bytes: a pipe may take fewer at once. */
function write(bytes) {
  for (let at = 0; at < bytes.length; ) at += writeSync(1, bytes, at);
}

/** The number of the refusal of a call, or 0. */
function refusal(call) {
  try {
    call();
    return 0;
  } catch (why) {
    if (!(why instanceof Refused)) throw why;
    assert.equal(why.code, REFUSALS[why.number][0]);
    return why.number;
  }
}

const fraction = (swings, over) => (over ? `${swings}/${over}` : "-");

/** The lines of an outcome. */
function linesOf(it) {
  if (it.kind === "refused") return [`refused,${it.number},${it.name}`];
  if (it.kind !== "reading") return [`${it.kind},${it.number}`];
  const { reader, front, majority, quota, cast, total, omega, coalitions, chairs } = it;
  const all = chairs.reduce((sum, { swings }) => sum + swings, 0);
  const overs = [coalitions / 2, all, omega, coalitions - omega];
  const rows = chairs.map(({ chair, weight, swings }) =>
    ["chair", chair, weight, swings, ...overs.map((over) => fraction(swings, over))].join(),
  );
  return [["reading", reader, front, majority, chairs.length, quota, cast, total, omega, coalitions].join(), ...rows];
}

/** Replays an input as data: the lines that `board replay` prints. */
function replayed(input, limits) {
  // The package refuses bad limits before it reads.
  const bad = refusal(() => replay(input, limits));
  const { outcomes, fault } = bad ? { outcomes: [], fault: { number: bad, record: 0 } } : outcomesOf(input, limits);
  const lines = outcomes.flatMap(linesOf);
  if (fault) lines.push(`fault,${fault.record},${REFUSALS[fault.number][0]}`);
  return { text: lines.map((line) => `${line}\n`).join(""), fault: fault?.number ?? 0, record: fault?.record ?? 0 };
}

function outcomesOf(input, limits) {
  const run = replay(input, limits);
  return { outcomes: [...run], fault: run.fault };
}

/** Replays the inputs of a JSON list, and writes the list of their answers. */
function replays(given) {
  const calls = JSON.parse(given.toString());
  const ran = calls.map(({ text, ...limits }) => replayed(Buffer.from(text, "base64"), limits));
  write(Buffer.from(JSON.stringify(ran)));
}

/** The code of a struct. Bytes that are no code become a text that is none. */
const codeIn = (bytes) => bytes.toString("latin1").replace(/\0+$/, "");

/** The parts that a kind has. */
function partsOf(kind, { code, chair, votes }) {
  if (["open", "close"].includes(kind)) return { chair };
  if (kind === "move") return { code, chair: chair || null };
  return ["votes", "admit"].includes(kind) ? { code, votes } : { code };
}

/** The register and the commands of bytes. */
function madeOf(given) {
  const [journal, many] = [0, 8].map((at) => Number(given.readBigUInt64LE(at)));
  const rows = given.subarray(16, 16 + ENTRY * many);
  const rest = given.subarray(16 + ENTRY * many + 8);
  const wordAt = (bytes, at) => bytes.readBigUInt64LE(at);
  const entries = Array.from({ length: many }, (_, at) => rows.subarray(ENTRY * at));
  const commands = Array.from({ length: rest.length / COMMAND }, (_, at) => rest.subarray(COMMAND * at));
  return {
    journal,
    members: entries.map((it) => [codeIn(it.subarray(0, 4)), wordAt(it, 8)]),
    commands: commands.map((it) => {
      const kind = KINDS[it.readUInt32LE(0)] ?? "none";
      return {
        kind,
        ...partsOf(kind, { code: codeIn(it.subarray(4, 8)), chair: wordAt(it, 8), votes: wordAt(it, 16) }),
      };
    }),
  };
}

/** The number of the refusal that a call throws or returns, or 0. */
function answerOf(call) {
  let answer = null;
  return refusal(() => (answer = call())) || (answer?.number ?? 0);
}

/** Carries out commands, and writes each answer, the number of accepted commands, and the sheet at the end. */
function answers(given) {
  const { journal, members, commands } = madeOf(given);
  const register = new Register(new Map(members), { journal });
  const all = commands.map((command) => {
    const checked = answerOf(() => register.check(command));
    const answer = answerOf(() => register.attempt(command));
    assert.equal(answer, checked);
    const bytes = Buffer.alloc(5, answer);
    bytes.writeUInt32LE(register.accepted, 1);
    return bytes;
  });
  write(Buffer.concat([...all, Buffer.from(BigUint64Array.from(sheetOf(register), BigInt).buffer)]));
}

/** The words of the sheet: for each chair its weight plus 1, or 0 if it is closed; the total; the commands. */
function sheetOf(register) {
  const { chairs, total } = register.indices("half");
  const words = Array(CHAIRS).fill(0);
  for (const { chair, weight } of chairs) words[chair - 1] = weight + 1;
  return [...words, total, register.accepted];
}

/** What a register shows. */
const shownOf = (register) => ({
  members: register.members,
  opening: register.opening,
  journal: register.journal,
  published: register.published,
  counts: register.indicesOfAll(),
  read: register.read("half"),
});

/** A register that has carried out a script. */
const registerOf = (text, options) => Register.fromScript(text, options);

/** The length of an instance's memory. */
const memoryOf = (exports) => exports.memory.buffer.byteLength;

/** The instance of the registers that was made last: the others are of one call and have no room for counts. */
const sharedInstance = () => instances.flatMap((it) => it.deref() ?? []).findLast((it) => memoryOf(it) > ROOM);

/** Reserves all memory, and returns the addresses. */
function exhausted({ board_reserve: reserve }) {
  const held = [];
  for (let size = 2n ** 30n; size >= 1n; size /= 2n) {
    for (let at = reserve(size); at; at = reserve(size)) held.push(at);
  }
  return held;
}

/** Calls after which memory is as it was: copies, and refused copies and starts. */
function memoryIsUsedAgain(register) {
  const [code] = Object.keys(register.members);
  const entries = Array.from({ length: 100 }, () => [code, 1]);
  const ask = () => {
    const copy = register.copy();
    copy.setVotes(code, 7);
    copy.indices("half");
    copy.free();
    assert.equal(refusal(() => copy.copy()), NUMBER.NoRegister);
    assert.equal(refusal(() => new Register(entries)), NUMBER.DuplicateMember);
  };
  ask();
  const length = memoryOf(sharedInstance());
  for (let times = 0; times < COPIES; times++) ask();
  assert.equal(memoryOf(sharedInstance()), length);
}

/** A handle into which a call puts a register must be zeros. */
function mustBeZeros({ memory }, handle) {
  assert.deepEqual(new Uint8Array(memory.buffer, Number(handle), HANDLE), new Uint8Array(HANDLE));
}

/** The memory of copies is used again, and the register from which they are made stays as it is. */
async function copies(text) {
  before.board_register_start = (exports, entries, many, journal, handle) => mustBeZeros(exports, handle);
  before.board_register_copy = (exports, register, accepted, handle) => mustBeZeros(exports, handle);
  const register = registerOf(text);
  const whole = shownOf(register);
  memoryIsUsedAgain(register);
  const copy = register.copy();
  assert.deepEqual(shownOf(copy), whole);
  copy.free();
  const length = memoryOf(sharedInstance());
  copiesOfEachLength(register, whole);
  assert.equal(memoryOf(sharedInstance()), length);
  sideBySide(whole);
  await collectedCopies(registerOf(text));
  assert.deepEqual(shownOf(register), whole);
}

/** A copy that went back is the register of its first commands. */
function copiesOfEachLength(register, { opening, journal }) {
  for (let length = 0; length <= journal.length; length++) {
    const copy = register.copy();
    assert.equal(copy.undo(length), length);
    const same = new Register(opening);
    for (const it of journal.slice(0, length)) same.submit(it);
    assert.deepEqual(sheetOf(copy), sheetOf(same));
    assert.deepEqual(copy.members, same.members);
    copy.free();
    same.free();
  }
  const copy = register.copy();
  assert.equal(refusal(() => copy.undo(journal.length + 1)), NUMBER.BadIndex);
  copy.free();
}

/** Registers in one memory, which change by turns and are replaced by copies, are as those alone in another memory. */
function sideBySide({ opening }) {
  const codes = Object.keys(opening);
  const registers = Array.from({ length: SIDE }, () => ({ register: new Register(opening), commands: [] }));
  for (let turn = 0; turn < SIDE * TURNS; turn++) {
    const at = (turn * turn) % SIDE;
    const from = registers[(turn * 7 + 3) % SIDE];
    if (turn % 11 === 0) {
      const copy = { register: from.register.copy(), commands: [...from.commands] };
      registers[at].register.free();
      registers[at] = copy;
    }
    const command = { kind: "votes", code: codes[turn % codes.length], votes: turn };
    registers[at].commands.push(command);
    assert.equal(registers[at].register.submit(command), registers[at].commands.length);
  }
  loadSync(module);
  for (const { register, commands } of registers) {
    const same = new Register(opening);
    for (const it of commands) same.submit(it);
    assert.deepEqual(shownOf(register), shownOf(same));
    register.free();
    same.free();
  }
}

/** Copies that nothing refers to are freed with their memory, in which later ones are made. */
async function collectedCopies(register) {
  let freed = 0;
  before.board_register_free = () => (freed += 1);
  const make = () => {
    for (let times = 0; times < 100; times++) register.copy();
  };
  make();
  for (let tries = 0; freed < 100 && tries < 50; tries++) {
    globalThis.gc();
    await new Promise((resolve) => setTimeout(resolve, 10));
  }
  assert(freed >= 100, `${freed} are freed`);
  const length = memoryOf(sharedInstance());
  for (let times = 0; times < 100; times++) register.copy().free();
  assert.equal(memoryOf(sharedInstance()), length);
}

/** A freed register refuses all calls, and a second free does nothing. */
function limitsOfFreed(text) {
  const [register, other] = [registerOf(text), registerOf(text)];
  const whole = shownOf(other);
  register.free();
  register.free();
  const calls = [
    () => register.open(1),
    () => register.check("open,1"),
    () => register.publish(),
    () => register.members,
    () => register.opening,
    () => register.journal,
    () => register.accepted,
    () => register.published,
    () => register.indices("half"),
    () => register.indicesOfAll(),
    () => register.read("half"),
    () => register.copy(),
  ];
  for (const call of calls) assert.equal(refusal(call), NUMBER.NoRegister);
  other[Symbol.dispose ?? Symbol.for("Symbol.dispose")]();
  assert.equal(refusal(() => other.members), NUMBER.NoRegister);
  assert.deepEqual(shownOf(registerOf(text)), whole);
}

/** After a trap no register of the instance answers, and others are in another instance. */
function limitsOfTraps(text) {
  const [register, other] = [registerOf(text), registerOf(text)];
  const whole = shownOf(register);
  // The register is past the end of memory, so that the module itself traps.
  before.board_register_apply = ({ memory }, handle) => {
    new DataView(memory.buffer).setBigUint64(Number(handle), 2n ** 31n, true);
  };
  const { RuntimeError } = WebAssembly;
  const isClear = ({ message, cause }) => /can't be used any more: /.test(message) && cause instanceof RuntimeError;
  const traps = (call) => assert.throws(call, isClear);
  traps(() => register.open(9));
  delete before.board_register_apply;
  for (const it of [register, other]) {
    traps(() => it.members);
    traps(() => it.copy());
    traps(() => it.indices("half"));
    it.free();
  }
  assert.deepEqual(shownOf(registerOf(text)), whole);
  assert.equal(indices([50, 49, 1], "half").omega, 3);
}

/** A register as it was where memory is refused, which later has memory again. */
function limitsOfMemory(text) {
  if (is64) return;
  const register = registerOf(text);
  const shared = sharedInstance();
  const whole = shownOf(register);
  const [code] = Object.keys(whole.members);
  const spare = shared.board_reserve(16n);
  const held = exhausted(shared);
  assert.equal(memoryOf(shared), 2 ** 32);
  assert.equal(refusal(() => register.copy()), NUMBER.OutOfMemory);
  assert.equal(refusal(() => new Register({})), NUMBER.OutOfMemory);
  // There is memory for the handle of the copy, and for no more.
  shared.board_release(spare);
  assert.equal(refusal(() => register.copy()), NUMBER.OutOfMemory);
  let [answer, accepted] = [0, 0];
  for (let times = 0; times < 100000 && !answer; times++) {
    accepted = register.accepted;
    answer = refusal(() => register.setVotes(code, 7));
  }
  assert.equal(answer, NUMBER.OutOfMemory);
  assert.equal(register.accepted, accepted);
  for (const at of held) shared.board_release(at);
  const copy = register.copy();
  copy.undo(whole.journal.length);
  assert.deepEqual([copy.journal, copy.opening], [whole.journal, whole.opening]);
  register.setVotes(code, 7);
  assert.equal(memoryOf(shared), 2 ** 32);
}

/** Replays and scripts where memory is refused in the call. */
function limitsOfMemoryOfRuns(text) {
  if (is64) return;
  const { OutOfMemory } = NUMBER;
  Object.assign(before, { board_script: exhausted, board_replay_length: exhausted });
  assert.equal(refusal(() => new Script(text)), OutOfMemory);
  assert.equal(refusal(() => replayBytes(longText())), OutOfMemory);
  before.board_replay = exhausted;
  const { bytes, fault } = replayBytes(text);
  assert.deepEqual([Buffer.from(bytes).toString(), fault.number], ["fault,0,OutOfMemory\n", OutOfMemory]);
  for (const name of Object.keys(before)) delete before[name];
}

/** An input whose text is longer than the room that a replay has at first. */
function longText() {
  const chairs = Array.from({ length: CHAIRS }, (_, at) => `open,${at + 1}\n`).join("");
  return new TextEncoder().encode(`${BEGUN}${chairs}publish\n${"read,1,half\n".repeat(READS)}`);
}

function limits(text) {
  limitsOfFreed(text);
  limitsOfMemoryOfRuns(text);
  loadSync(module);
  limitsOfTraps(text);
  limitsOfMemory(text);
}

await { replays, answers, copies, limits }[what](readFileSync(0));
