// What the package for JavaScript promises: it prints printed.txt, as the programs of the other packages do. It needs
// the package installed where it runs, and the script replayed.csv as its word.
import assert from "node:assert/strict";
import {
  MAJORITIES, Refused, Register, indices, indicesOfAll, indicesOfMany, indicesOfMembers, replayFile, replayText,
} from "voting-board";
import { readFileSync } from "node:fs";

const WEIGHTS = { North: 50, South: 49, East: 1 };
const MEMBERS = {
  code: ["AAA", "BBB", "CCC", "DDD"],
  votes: [50, 40, 9, 7],
  chair: [1, 2, 2, null],
  chair_name: ["North", "South", "South", null],
  suspended: [false, false, true, false],
};

/** A board by a majority. */
function show(board) {
  console.log(`${board.majority}: ${board.quota} and ${board.leastSize} of ${board.total}, ${board.cast} cast`);
  console.log(`  ${board.omega} of ${board.coalitions} win`);
  for (const { chair, name, weight, swings, banzhaf, share, prevent, initiate } of board.chairs) {
    const indices = [banzhaf, share, prevent, initiate].map((index) => index ?? "-").join(" ");
    console.log(`  ${chair} ${name ?? "-"} ${weight} ${swings} ${indices}`);
  }
}

function counts() {
  for (const board of Object.values(indicesOfAll(WEIGHTS)).sort((one, other) => order(one) - order(other))) show(board);
  show(indices(WEIGHTS, "85", { total: 1000 }));
  show(indicesOfMembers(MEMBERS, "half"));
  const many = indicesOfMany([[50, 49, 1], [1, 1, 1]], ["half"]);
  console.log("many:", many.flatMap((board) => board.half.chairs.map(({ swings }) => swings)).join(" "));
}

// An object has keys that are numbers, such as "70", before the others.
const order = ({ majority }) => MAJORITIES.indexOf(majority);

function register() {
  const board = new Register(MEMBERS);
  console.log(`start: ${board.accepted} accepted, ${board.published} published`);
  console.log("open:", board.open(3, "East"));
  console.log("submit:", board.submit("move,DDD,3\nvotes,AAA,60\nadmit,EEE,1\n"));
  console.log("publish:", board.publish());
  console.log("withdraw:", board.withdraw("EEE"));
  for (const command of ["open,1", "close,2", "move,CCC,1", "admit,DDD,1"]) {
    const { number, code } = board.check(command);
    console.log(`check ${command}: ${number} ${code}`);
  }
  try {
    board.submit("suspend,AAA\nsuspend,AAA");
  } catch (why) {
    assert(why instanceof Refused);
    console.log(`submit: ${why.number} ${why.code}, and ${board.accepted} accepted`);
  }
  const other = board.copy();
  console.log("what if:", other.move("DDD", 1));
  show(other.indices("half"));
  console.log("undo:", board.undo());
  board.rename(2, "West");
  console.log("names:", Object.entries(board.chairNames).map((it) => it.join(" ")).join(" "));
  show(board.read("half"));
  process.stdout.write(board.script());
}

function replays(script) {
  const { text, fault } = replayText(readFileSync(script));
  process.stdout.write(text);
  console.log(`fault: record ${fault.record}, ${fault.number} ${fault.name}`);
  const run = replayFile(script);
  for (const { record, majority, chairs } of run.readings) {
    console.log(`reading: record ${record}, ${majority}`, chairs.map(({ swings }) => swings).join(" "));
  }
  for (const { record, number, name, command } of run.refused) {
    console.log(`refused: record ${record}, ${number} ${name}: ${command}`);
  }
}

assert.deepEqual(MAJORITIES, ["half", "70", "85", "quorum"]);
counts();
register();
replays(process.argv[2]);
