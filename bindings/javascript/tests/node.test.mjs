// What is so in Node alone: its consoles, its modules, its workers, and its memory.
import { deepEqual, equal, match, rejects } from "node:assert/strict";
import { execFileSync, spawnSync } from "node:child_process";
import { mkdtempSync, readFileSync, rmSync, writeFileSync } from "node:fs";
import { createServer } from "node:http";
import { createRequire } from "node:module";
import { tmpdir } from "node:os";
import { join } from "node:path";
import { test } from "node:test";
import { fileURLToPath, pathToFileURL } from "node:url";
import { inspect } from "node:util";
import { Worker } from "node:worker_threads";
import * as board from "voting-board";
import { refused, thrown, wrongType } from "./misuse.mjs";

const { Register, indices, load, loadSync, replay, replayFile } = board;
const here = fileURLToPath(new URL(".", import.meta.url));
const require = createRequire(import.meta.url);
const WASM = require.resolve("voting-board/board.wasm");
const bytes = readFileSync(WASM);
const EXAMPLE = "member,votes\nAAA,50\nscript\nopen,1\nmove,AAA,1\npublish\nread,1,half\n";
const folder = mkdtempSync(join(tmpdir(), "voting-board-"));
process.on("exit", () => rmSync(folder, { recursive: true }));

/** Runs a script in a fresh Node, and returns what it prints. */
const run = (code, ...flags) => execFileSync(
  process.execPath, [...flags, "--input-type=module", "--eval", code], { cwd: here, encoding: "utf8" },
);

test("the exports, the same by import and by require", () => {
  const names = [
    "Command", "Difference", "Fraction", "MAJORITIES", "MEANINGS", "REFUSALS", "Refused", "Register", "Replay",
    "Script", "VERSION",
  ];
  const calls = [
    "indices",
    "indicesOfAll",
    "indicesOfMany",
    "indicesOfManyInWorkers",
    "indicesOfMembers",
    "load",
    "loadSync",
    "replay",
    "replayBytes",
    "replayFile",
    "replayText",
  ];
  deepEqual(Object.keys(board).sort(), [...names, ...calls].sort());
  const required = require("voting-board");
  for (const name of Object.keys(board)) equal(required[name], board[name]);
  equal(require("voting-board/package.json").version, board.VERSION);
});

test("many boards are counted by workers as by one call", async () => {
  const rows = Array.from({ length: 23 }, (_, at) => Array.from({ length: at % 9 }, (_, chair) => (at * chair) % 7));
  rows.push({ North: 50, South: 49 }, [2 ** 48]);
  const totals = rows.map((_, at) => (at === 3 ? 100 : undefined));
  for (const majorities of [["85"], ["quorum", "half"], board.MAJORITIES, [], undefined]) {
    const wanted = board.indicesOfMany(rows, majorities, { totals });
    for (const workers of [1, 3, 40]) {
      deepEqual(await board.indicesOfManyInWorkers(rows, majorities, { totals, workers }), wanted);
    }
  }
  deepEqual(await board.indicesOfManyInWorkers([], ["half"]), []);
  // Catches: workers whose code runs by the flags of this Node, as a module or not.
  const code = `import { indicesOfManyInWorkers } from "voting-board";
    console.log((await indicesOfManyInWorkers([[50, 49, 1]], ["half"]))[0].half.omega);`;
  equal(run(code), "3\n");
  // Catches: a refusal of a later board, and one that loses its board's place.
  const bad = [...rows, [1, 2 ** 48], new Array(33).fill(0), [2 ** 48, 2 ** 48]];
  for (const given of [bad, bad.slice(-2), bad.slice(-1), [[-1]], [["1"]]]) {
    const { message } = thrown(() => board.indicesOfMany(given, ["half"]));
    await rejects(board.indicesOfManyInWorkers(given, ["half"], { workers: 2 }), { message });
  }
  for (const workers of [0, 1.5, "2", null]) {
    await rejects(board.indicesOfManyInWorkers([[1]], ["half"], { workers }), /^TypeError: the number of workers is/);
  }
  await rejects(board.indicesOfManyInWorkers([[1]], ["half"], { threads: 2 }), /unknown option 'threads'/);
});

// Catches: copies that stay in memory until a loop ends.
test("thousands of questions take the memory of one", () => {
  const script = `import { Register } from "voting-board";
    const register = new Register({ AAA: 1 });
    register.submit("open,1\\nclose,1\\n".repeat(50_000));
    const before = process.memoryUsage.rss();
    let accepted = 0;
    for (let at = 0; at < 200; at++) accepted += register.whatIf((copy) => copy.open(1));
    console.log(accepted, process.memoryUsage.rss() - before < 100e6);`;
  equal(run(script), `${200 * 100_001} true\n`);
  const register = new Register({ AAA: 1 });
  let kept;
  const why = thrown(() => register.whatIf((copy) => (kept = copy).close(1)));
  equal(why.code, "ChairNotOpen");
  equal(thrown(() => kept.accepted).code, "NoRegister");
  match(wrongType(() => register.whatIf()), / is not a function$/);
  equal(register.accepted, 0);
});

test("console.log and console.table show all", () => {
  const shown = inspect(indices({ Alpha: 50, Beta: 49, Gamma: 1 }, "half"));
  match(shown, /omega: 3,[^]*act: 3\/8,[^]*name: 'Alpha',[^]*banzhaf: 3\/4,\s+share: 3\/5,\s+prevent: 1,/);
  const table = run('import { indices } from "voting-board"; console.table(indices([50, 49, 1], "half").chairs)');
  match(table, /│ chair │ weight │ swings │ banzhaf │ share │ prevent │ initiate │/);
  match(table, /│ 1 +│ 50 +│ 3 +│ 3\/4 +│ 3\/5 +│ 1 +│ 3\/5 +│/);
  equal(inspect(new Register({ AAA: 1 })), "Register(members: 1, chairs: 0, accepted: 0, published: 0)");
  const why = inspect(thrown(() => new Register({}).close(1)));
  match(why, /^Refused: refused 'close,1': ChairNotOpen \(2\), .*[^]*code: 'ChairNotOpen'/);
});

test("files are replayed by their paths and URLs", () => {
  const path = join(folder, "script.csv");
  writeFileSync(path, EXAMPLE);
  for (const it of [path, pathToFileURL(path)]) deepEqual([...replayFile(it)], [...replay(EXAMPLE)]);
  equal(thrown(() => replayFile(join(folder, "none.csv"))).code, "ENOENT");
  for (const it of [5, undefined, Buffer.from(path)]) wrongType(() => replayFile(it));
});

test("load takes bytes, a module, a response, a promise and a URL, and no type of the server is needed", async () => {
  const server = createServer((request, answer) => {
    if (request.url !== "/board.wasm") answer.statusCode = 404;
    answer.end(bytes);
  });
  await new Promise((resolve) => server.listen(0, "127.0.0.1", resolve));
  const url = `http://127.0.0.1:${server.address().port}/board.wasm`;
  const kept = new Register({ AAA: 5 });
  const module = new WebAssembly.Module(bytes);
  const { buffer, byteOffset, byteLength } = bytes;
  const copy = buffer.slice(byteOffset, byteOffset + byteLength);
  for (
    const source of [
      bytes, copy, module, url, new URL(url), fetch(url), await fetch(url), pathToFileURL(WASM), undefined,
    ]
  ) {
    await load(source);
    equal(indices([50, 49, 1], "half").omega, 3);
  }
  for (const source of [bytes, copy, module, undefined]) loadSync(source);
  equal(kept.indices("half").total, 5);
  await rejects(load(`${url}x`), /board\.wasm isn't at .*: status 404/);
  server.close();
});

test("a source that isn't board.wasm", async () => {
  for (const source of [5, null, {}, []]) await rejects(load(source), { name: "TypeError" });
  for (const source of [5, null, "board.wasm", new URL("file:///board.wasm")]) wrongType(() => loadSync(source));
  const other = Uint8Array.of(0, 97, 115, 109, 1, 0, 0, 0);
  equal(wrongType(() => loadSync(other)), "the source isn't the board.wasm of this package");
  await rejects(load(other), /the source isn't the board\.wasm of this package/);
  await rejects(load(Uint8Array.of(1, 2, 3)), WebAssembly.CompileError);
  await rejects(load(bytes.subarray(0, 5000)), WebAssembly.CompileError);
  equal(indices([1], "half").omega, 1);
});

test("a worker counts, also by a module that it is given", async () => {
  const code = `import { parentPort, workerData } from "node:worker_threads";
    import { Register, indices, loadSync } from "voting-board";
    loadSync(workerData); parentPort.postMessage(
      [indices([50, 49, 1], "half").chairs, { ...new Register({ AAA: 5 }) }],
    );`;
  writeFileSync(join(here, "worker.mjs"), code);
  const worker = new Worker(join(here, "worker.mjs"), { workerData: new WebAssembly.Module(bytes) });
  const [chairs, register] = await new Promise(
    (resolve, reject) => worker.once("message", resolve).once("error", reject),
  );
  rmSync(join(here, "worker.mjs"));
  deepEqual(chairs[0].share, { numerator: 3, denominator: 5 });
  deepEqual(register.members, { AAA: { votes: 5, chair: null, suspended: false } });
});

test("after a call failed in the module, its registers say so, and others go on", () => {
  const { Instance } = WebAssembly;
  // The register is past the end of memory, so that the module itself traps.
  WebAssembly.Instance = function (module) {
    const { exports } = new Instance(module);
    const board_register_apply = (handle, ...given) => {
      new DataView(exports.memory.buffer).setBigUint64(Number(handle), 2n ** 31n, true);
      return exports.board_register_apply(handle, ...given);
    };
    return { exports: { ...exports, board_register_apply } };
  };
  loadSync();
  const [register, other] = [new Register({ AAA: 5 }), new Register({ BBB: 5 })];
  WebAssembly.Instance = Instance;
  const why = thrown(() => register.open(1));
  match(why.message, /^a call of the module failed, so the registers in its memory can.t be used any more: Runtime/);
  equal(why.cause instanceof WebAssembly.RuntimeError, true);
  for (const it of [register, other]) equal(thrown(() => it.members).cause, why.cause);
  other.free();
  equal(new Register({ CCC: 5 }).setVotes("CCC", 6), 1);
});

test("10,000 copies and 1,000 replays take no more memory", () => {
  const code = `import { Register, replay, replayText } from "voting-board";
    const register = new Register(
      Array.from({ length: 190 }, (_, at) => [String.fromCharCode(65 + at / 26, 65 + at % 26, 65), at]),
    );
    const text = register.script() + "open,1\\npublish\\n" + "read,1,half\\n".repeat(9);
    const turn = () => {
      const copy = register.copy();
      copy.setVotes("AAA", 7);
      copy.free();
    };
    const replays = () => [...replay(text)].length + replayText(text).text.length;
    for (let at = 0; at < 100; at++) turn(), replays();
    gc();
    const before = process.memoryUsage();
    for (let at = 0; at < 10000; at++) turn();
    for (let at = 0; at < 1000; at++) replays();
    gc();
    const after = process.memoryUsage();
    console.log(Math.max(after.rss - before.rss, after.arrayBuffers - before.arrayBuffers) >> 20);`;
  const grown = Number(run(code, "--expose-gc"));
  equal(grown < 64, true, `${grown} MiB`);
});

test("registers that nothing refers to are given back", () => {
  const code = `import { Register } from "voting-board";
    const members = Object.fromEntries(
      Array.from({ length: 200 }, (_, at) => ["A" + String.fromCharCode(65 + at / 26, 65 + at % 26), at]),
    );
    let most = 0;
    for (let turn = 0; turn < 60; turn++) {
      for (let at = 0; at < 500; at++) new Register(members);
      gc();
      await new Promise((resolve) => setTimeout(resolve, 1));
      if (turn === 20) most = process.memoryUsage().rss;
    }
    console.log((process.memoryUsage().rss - most) >> 20);`;
  equal(Number(run(code, "--expose-gc")) < 32, true);
});

test("readings of 4 MiB one by one take little memory", () => {
  const code = `import { replay } from "voting-board";
    const open = Array.from({ length: 8 }, (_, at) => "open," + (at + 1) + "\\n").join("");
    const run = replay("member,votes\\nAAA,1\\nscript\\n" + open + "publish\\nread,1,70\\n".repeat(200000));
    let many = 0;
    for (const it of run) many += it.kind === "reading";
    console.log(many, process.resourceUsage().maxRSS >> 10);`;
  const [many, most] = run(code).split(" ").map(Number);
  equal(many, 200000);
  equal(most < 400, true, `${most} MiB`);
});

test("where memory is limited the error says so", () => {
  const [start, said] = ["new Register({ AAA: 1 })", "console.log(why.code, why.number, why.message)"];
  const code = `import("voting-board").then(({ Register }) => ${start}).catch((why) => ${said})`;
  const limited = `ulimit -v 6000000; exec "${process.execPath}" --eval '${code}'`;
  const { stdout, stderr } = spawnSync("bash", ["-c", limited], { cwd: here, encoding: "utf8" });
  match(stdout, /^OutOfMemory 10 OutOfMemory \(10\), out of memory: the module can't have its memory: /, stderr);
});

test("a replay in a bundle or a browser can't read files", () => {
  const { getBuiltinModule } = process;
  process.getBuiltinModule = undefined;
  const why = thrown(() => replayFile("script.csv"));
  process.getBuiltinModule = getBuiltinModule;
  equal(why.message, "files are read in Node 20.16 or later only: fetch the file, and pass its bytes");
});
