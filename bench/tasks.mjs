// The tasks of bench/tasks.c by the package for JavaScript in Node, and the boards by one call with workers, timed by
// the clock: node tasks.mjs BOARDS SCRIPT COMMANDS
import { readFileSync } from "node:fs";
import { MAJORITIES, Register, indicesOfAll, indicesOfManyInWorkers } from "voting-board";

const [CHAIRS, ROUNDS] = [24, 3];
const [boards, script, commands] = process.argv.slice(2).map((it) => readFileSync(it));
const words = new BigUint64Array(boards.buffer.slice(boards.byteOffset, boards.byteOffset + boards.byteLength));
const weights = Array.from(words, Number);
const rows = Array.from({ length: weights.length / CHAIRS }, (_, at) => weights.slice(at * CHAIRS, (at + 1) * CHAIRS));
const changes = String(commands).trim().split("\n").map((line) => line.split(" "));

const total = (indices) => Object.values(indices).reduce((sum, { omega }) => sum + omega, 0);

function carryOut() {
  const register = Register.fromScript(script);
  let sum = 0;
  for (const [code, votes] of changes) {
    register.setVotes(code, Number(votes));
    sum += register.indices("half").omega;
  }
  register.free();
  return sum;
}

const processor = () => process.cpuUsage().user + process.cpuUsage().system;
const clock = () => performance.now() * 1000;

async function timed(name, now, work) {
  let [least, sum] = [Infinity, 0];
  for (let round = 0; round < ROUNDS; round++) {
    const begun = now();
    sum = await work();
    least = Math.min(least, now() - begun);
  }
  console.log(`${name} ${Math.round(least * 1000)} ${sum}`);
}

await timed("boards", processor, () => rows.reduce((sum, row) => sum + total(indicesOfAll(row)), 0));
await timed("commands", processor, carryOut);
await timed("many", clock, async () => {
  const many = await indicesOfManyInWorkers(rows, MAJORITIES);
  return many.reduce((sum, board) => sum + total(board), 0);
});
