// The three chairs of the first example, by the package for JavaScript, which is installed where this runs.
import { readFileSync } from "node:fs";
import { indices, replayText } from "voting-board";

const board = indices([50, 49, 1], "half");
console.log(`${board.quota} votes win, ${board.omega} of ${board.coalitions} coalitions`);
for (const { chair, weight, swings } of board.chairs) {
  console.log(`chair ${chair}: weight ${weight}, swings ${swings}`);
}

const input = readFileSync(new URL("../three-chairs.csv", import.meta.url));
process.stdout.write(replayText(input).text);
