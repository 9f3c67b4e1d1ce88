// Calls a WebAssembly module of the board: node calls.mjs MODULE replays|counts|limits. Standard input has the
// replays, the boards, or an input that ends without a fault.
import assert from "node:assert/strict";
import { readFileSync, writeSync } from "node:fs";
import {
  MAJORITIES, Refused, indices, indicesOfAll, indicesOfMembers, loadSync, replayBytes,
} from "../../bindings/javascript/dist/esm/index.js";

const [path, what] = process.argv.slice(2);
const module = new WebAssembly.Module(readFileSync(path));
loadSync(module);
const UNTOUCHED = 0xaa;
const CHAIRS = 32;
const COUNTS = 8 * (7 + 3 * CHAIRS);
const ROOM = 1048576n;
const BAD_LIMIT = { text: "fault,0,BadLimit\n", fault: 13, record: 0 };
const UNKNOWN = "none";

/** Writes all bytes: a pipe may take fewer at once. */
function write(bytes) {
  for (let at = 0; at < bytes.length; ) at += writeSync(1, bytes, at);
}

/** The text of a replay, and the fault that ended it. The package refuses bad limits before it calls. */
function ranOf(input, limits) {
  try {
    const { bytes, fault } = replayBytes(input, limits);
    return { text: Buffer.from(bytes).toString(), fault: fault?.number ?? 0, record: fault?.record ?? 0 };
  } catch (why) {
    if (why instanceof Refused && why.number === BAD_LIMIT.fault) return BAD_LIMIT;
    throw why;
  }
}

/** Replays the inputs of a JSON list, and writes the list of their answers. */
function replays(given) {
  const calls = JSON.parse(given.toString());
  const ran = calls.map(({ text, ...limits }) => ranOf(Buffer.from(text, "base64"), limits));
  write(Buffer.from(JSON.stringify(ran)));
}

/** The words of a board_counts. */
function wordsOf({ quota, leastSize, cast, total, omega, coalitions, chairs }) {
  const rows = chairs.flatMap(({ chair, weight, swings }) => [chair, weight, swings]);
  const closed = Array(3 * CHAIRS - rows.length).fill(0);
  return [quota, leastSize, cast, total, chairs.length, omega, coalitions, ...rows, ...closed];
}

/** The answer of a call and its counts, as counts.c writes them. */
function answered(many, call) {
  try {
    return [Buffer.of(0), Buffer.from(BigUint64Array.from(call().flatMap(wordsOf), BigInt).buffer)];
  } catch (why) {
    if (!(why instanceof Refused)) throw why;
    return [Buffer.of(why.number), Buffer.alloc(COUNTS * many, UNTOUCHED)];
  }
}

/** Counts the boards of words, and writes them as counts.c does. */
function counts(given) {
  const words = new BigUint64Array(Uint8Array.from(given).buffer);
  const byEach = (call) => [...MAJORITIES, UNKNOWN].flatMap((majority) => answered(1, () => [call(majority)]));
  for (let at = 0; at < words.length; ) {
    const list = (width) => words.subarray(at + 1, (at += 1 + width * Number(words[at])));
    const [weights, total, members, mask] = [list(1), words[at++], list(3), Number(words[at++])];
    const rows = Array.from({ length: members.length / 3 }, (_, it) => members.subarray(3 * it));
    // The package refuses a table without rows. A suspended member in no chair changes nothing.
    if (rows.length === 0) rows.push([0n, 0n, 1n]);
    const columns = {
      votes: rows.map(([votes]) => votes),
      chair: rows.map(([, chair]) => chair || null),
      suspended: rows.map(([, , suspended]) => suspended !== 0n),
    };
    const openChairs = Array.from({ length: CHAIRS }, (_, it) => it + 1).filter((it) => (mask >>> (it - 1)) & 1);
    write(Buffer.concat(byEach((majority) => indices(weights, majority, { total }))));
    write(
      Buffer.concat(answered(MAJORITIES.length, () => MAJORITIES.map((it) => indicesOfAll(weights, { total })[it]))),
    );
    write(Buffer.concat(byEach((majority) => indicesOfMembers(columns, majority, { openChairs }))));
  }
}

/** An instance's exports; `bytes` is a view of its memory; `put` copies bytes there and returns their address. */
function instance() {
  const calls = new WebAssembly.Instance(module).exports;
  const bytes = (at, length) => new Uint8Array(calls.memory.buffer, Number(at), length);
  const put = (given) => {
    const at = calls.board_reserve(BigInt(given.length));
    bytes(at, given.length).set(given);
    return at;
  };
  return { calls, bytes, put };
}

/** Replays an input into room between bytes that must stay as they are. `before` may change the instance first. */
function replayed(text, { readers = 1, journal = 1000000, room = 65536, before = () => {} } = {}) {
  const margin = 64;
  const { calls, bytes, put } = instance();
  const [from, out] = [put(text), put(Buffer.alloc(margin + room + margin, UNTOUCHED))];
  const numbers = put(Buffer.alloc(16));
  before(calls);
  const to = [out + BigInt(margin), BigInt(room), numbers, numbers + 8n];
  const fault = calls.board_replay(from, BigInt(text.length), readers, journal, ...to);
  const view = new DataView(calls.memory.buffer, Number(numbers));
  const end = margin + Number(view.getBigUint64(0, true));
  const all = Buffer.from(bytes(out, margin + room + margin));
  const isUntouched = Buffer.concat([all.subarray(0, margin), all.subarray(end)]).every((it) => it === UNTOUCHED);
  assert(isUntouched, "bytes beside the text are changed");
  return { text: all.subarray(margin, end).toString(), fault, record: view.getUint32(8, true) };
}

/** Room for the text that is too small by all, by much and by one byte, and that is just large enough. */
function limitsOfRoom(text) {
  const whole = replayed(text);
  assert.equal(whole.fault, 0);
  for (const room of [0, 1, whole.text.length - 1]) {
    assert.deepEqual(replayed(text, { room }), { text: whole.text.slice(0, room), fault: 20, record: 0 });
  }
  assert.deepEqual(replayed(text, { room: whole.text.length }), whole);
  assert.deepEqual(replayed(text, { readers: 5, room: 5 }), { text: "fault", fault: 20, record: 0 });
}

/** Limits out of their ranges. */
function limitsOfLimits(text) {
  const [readers, journals] = [[0, 5, 255, 256, 257], [0, 1000001, 2 ** 32 - 1]];
  for (const bad of [...readers.map((readers) => ({ readers })), ...journals.map((journal) => ({ journal }))]) {
    assert.deepEqual(replayed(text, bad), BAD_LIMIT);
  }
}

/** Majorities that don't exist. */
function limitsOfCounts() {
  for (const majority of [MAJORITIES.length, 255, 256, 2 ** 32 - 1]) {
    const { calls, bytes, put } = instance();
    const [weights, room] = [put(Buffer.alloc(8)), calls.board_reserve(ROOM)];
    const counts = put(Buffer.alloc(COUNTS, UNTOUCHED));
    assert.equal(calls.board_counts_of_weights(weights, 1n, 0n, majority, room, counts), 17);
    assert(bytes(counts, COUNTS).every((it) => it === UNTOUCHED));
  }
}

/** More memory than exists: an impossible room, and a replay that reserves all memory of a 32-bit address space. */
function limitsOfMemory(text) {
  for (const size of [2n ** 48n + 1n, 2n ** 63n, 2n ** 64n - 1n]) {
    assert.equal(instance().calls.board_reserve(size), 0n);
  }
  if (path.endsWith("64.wasm")) return;
  const before = ({ board_reserve }) => {
    for (let size = 2n ** 30n; size >= 16n; size /= 2n) while (board_reserve(size));
  };
  assert.deepEqual(replayed(text, { before }), { text: "fault,0,OutOfMemory\n", fault: 10, record: 0 });
}

function limits(text) {
  limitsOfRoom(text);
  limitsOfLimits(text);
  limitsOfCounts();
  limitsOfMemory(text);
}

({ replays, counts, limits })[what](readFileSync(0));
