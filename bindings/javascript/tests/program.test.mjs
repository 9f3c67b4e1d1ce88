// The program voting-board: what it prints, its status, and its standard error.
import { deepEqual, equal, match, ok } from "node:assert/strict";
import { spawnSync } from "node:child_process";
import { closeSync, mkdtempSync, openSync, rmSync, writeFileSync } from "node:fs";
import { tmpdir } from "node:os";
import { join } from "node:path";
import { test } from "node:test";
import { fileURLToPath } from "node:url";
import { VERSION, replayText } from "voting-board";

const PROGRAM = fileURLToPath(new URL("../node_modules/.bin/voting-board", import.meta.url));
const SCRIPT = "member,votes\nAAA,50\nscript\nopen,1\nmove,AAA,1\nopen,1\npublish\nread,1,half\n";
const folder = mkdtempSync(join(tmpdir(), "voting-board-"));
process.on("exit", () => rmSync(folder, { recursive: true }));

function ran(words, input = "", stdio = "pipe", options = "") {
  const env = { ...process.env, NODE_OPTIONS: options };
  const given = { input, encoding: "utf8", stdio, env, maxBuffer: 2 ** 30 };
  const { status, stdout, stderr } = spawnSync(PROGRAM, words, given);
  return [status, stdout, stderr];
}

test("a script from standard input and from a file", () => {
  const { text } = replayText(SCRIPT);
  const path = join(folder, "script.csv");
  writeFileSync(path, SCRIPT);
  deepEqual(ran(["replay"], SCRIPT), [0, text, ""]);
  deepEqual(ran(["replay", path]), [0, text, ""]);
  deepEqual(
    ran(["replay", "--readers=2", "--journal", "+01", path]),
    [0, replayText(SCRIPT, { readers: 2, journal: 1 }).text, ""],
  );
});

test("a fault is the last line, the status and the name on standard error", () => {
  deepEqual(
    ran(["replay"], `${SCRIPT}read,2,half\n`),
    [1, `${replayText(SCRIPT).text}fault,9,BadReader\n`, "board: BadReader\n"],
  );
  deepEqual(ran(["replay"], ""), [1, "fault,0,BadHeader\n", "board: BadHeader\n"]);
  deepEqual(ran(["replay"], "x".repeat(5_000_000)), [1, "fault,0,TooLong\n", "board: TooLong\n"]);
  const file = openSync(folder, "r");
  deepEqual(ran(["replay"], "", [file, "pipe", "pipe"]), [1, "fault,0,ReadFault\n", "board: ReadFault\n"]);
  closeSync(file);
  const full = openSync("/dev/full", "w");
  deepEqual(ran(["replay"], SCRIPT, ["pipe", full, "pipe"]).filter((it) => it !== null), [1, "board: WriteFault\n"]);
  closeSync(full);
});

test("a rejected command line", () => {
  for (const words of [
    [], ["serve"], ["replay", "--readers", "0"], ["replay", "--readers", "5"], ["replay", "--readers", "x"], [
      "replay", "--journal", "1000001",
    ],
    ["replay", "--readers", "1", "--readers", "1"], ["replay", "--reader", "1"], ["replay", "one", "two"], [
      "replay", join(folder, "none.csv"),
    ],
  ]) {
    const [status, output, reason] = ran(words, SCRIPT);
    deepEqual([status, output], [2, ""]);
    match(reason, /^board: ./);
  }
});

test("help and the version", () => {
  const [status, output, reason] = ran(["--help"]);
  deepEqual([status, reason], [0, ""]);
  match(output, /Usage: voting-board replay \[--readers N\] \[--journal N\] \[FILE\]/);
  deepEqual(ran(["--version"]), [0, `voting-board ${VERSION}\n`, ""]);
  const full = openSync("/dev/full", "w");
  for (const word of ["--help", "--version"]) deepEqual(ran([word], "", ["pipe", full, "pipe"]), [0, null, ""]);
  closeSync(full);
});

// What the program says at its end: the most memory that it had, in KiB.
const MOST_MEMORY = "process.on('exit',()=>process.stderr.write(String(process.resourceUsage().maxRSS)))";

// Catches: a text that is cut, and one that is held in memory.
test("a long text is printed whole, as it comes", () => {
  const chairs = Array.from({ length: 32 }, (_, at) => `open,${at + 1}\n`).join("");
  const begun = `member,votes\nAAA,1\nscript\n${chairs}publish\n`;
  const script = begun + "read,1,70\nread,1,half\n".repeat(10_000);
  const [status, output, most] = ran(["replay"], script, "pipe", `--import=data:text/javascript,${MOST_MEMORY}`);
  equal(status, 0);
  ok(output === replayText(script).text);
  const [, , least] = ran(["replay"], begun, "pipe", `--import=data:text/javascript,${MOST_MEMORY}`);
  ok((Number(most) - Number(least)) * 1024 < output.length / 2, `${most} KiB, and ${least} for a short text`);
});

// Catches: a line that differs from the program's after a refusal or a publication, or a reading of an older board.
test("lines are those of the text of the replay", () => {
  const script = `${SCRIPT}read,2,85\nopen,2\nread,1,half\npublish\nread,1,half\nread,2,quorum\nclose,1\n`;
  const lines = replayText(script, { readers: 2 }).text;
  deepEqual(ran(["replay", "--readers", "2"], script), [0, lines, ""]);
  const [status, text] = ran(["replay"], `${SCRIPT}opne,1\n`);
  deepEqual([status, text], [1, replayText(`${SCRIPT}opne,1\n`).text]);
});
