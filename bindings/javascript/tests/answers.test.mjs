// The answers of the program, in the folder that BOARD_ANSWERS names, and those of the package.
import { deepEqual, equal } from "node:assert/strict";
import { readFileSync } from "node:fs";
import { join } from "node:path";
import { test } from "node:test";
import {
  MAJORITIES,
  Refused,
  Register,
  Script,
  indices,
  indicesOfAll,
  indicesOfMany,
  indicesOfMembers,
  replay,
  replayText,
} from "voting-board";

const fileOf = (name) => {
  const { BOARD_ANSWERS: folder } = process.env;
  if (!folder) throw new Error("BOARD_ANSWERS must name the folder that tests/packages/answers.py writes");
  return readFileSync(join(folder, name), "utf8");
};
const linesOf = (text) => text.split("\n").slice(0, -1);

/** A fraction as the program prints it, not reduced. */
function printed(fraction, numerator, denominator) {
  if (denominator === 0) return fraction === null ? "-" : "not null";
  equal(fraction.numerator * denominator, fraction.denominator * numerator);
  return `${numerator}/${denominator}`;
}

/** The lines of indices, in the form of boards.txt. */
function indicesLines({ majority, quota, cast, total, omega, coalitions, act, chairs }) {
  const all = chairs.reduce((sum, { swings }) => sum + swings, 0);
  printed(act, omega, coalitions);
  const rows = chairs.map(({ chair, weight, swings, banzhaf, share, prevent, initiate }) => {
    const fractions = [[banzhaf, coalitions / 2], [share, all], [prevent, omega], [initiate, coalitions - omega]];
    return ["chair", chair, weight, swings, ...fractions.map(([it, over]) => printed(it, swings, over))].join();
  });
  return [[majority, chairs.length, quota, cast, total, omega, coalitions].join(), ...rows];
}

const readingLines = (reader, front, it) => {
  const [head, ...rows] = indicesLines(it);
  return [`reading,${reader},${front},${head}`, ...rows];
};

/** The lines of an outcome of a replay. */
function outcomeLines(it) {
  if (it.kind === "reading") return readingLines(it.reader, it.front, it);
  return [[it.kind, it.number, ...(it.kind === "refused" ? [it.name] : [])].join()];
}

test("boards are counted as by the program: one majority, all, many boards, and members", () => {
  const lines = linesOf(fileOf("boards.txt"));
  const boards = lines.filter((it) => it.startsWith("board,"));
  const given = boards.map((board) => board.split(",").slice(1).map(Number));
  const many = indicesOfMany(
    given.map(([, ...weights]) => weights), ["85", "half"], { totals: given.map(([total]) => total) },
  );
  const got = given.flatMap(([total, ...weights], at) => {
    const members = weights.map((votes, chair) => ({ votes, chair: chair + 1 }));
    members.push({ votes: total - weights.reduce((sum, it) => sum + it, 0), chair: null });
    const all = indicesOfAll(weights, { total });
    for (const majority of MAJORITIES) {
      deepEqual(indices(weights, majority, { total }), all[majority]);
      deepEqual(indicesOfMembers(members, majority), all[majority]);
    }
    deepEqual(many[at], { 85: all["85"], half: all.half });
    return [boards[at], ...MAJORITIES.flatMap((majority) => indicesLines(all[majority]))];
  });
  equal(boards.length > 0, true);
  equal(got.join("\n"), lines.join("\n"));
});

test("scripts are replayed as by the program, as text and as data", () => {
  const scripts = linesOf(fileOf("scripts.txt"));
  equal(scripts.length > 0, true);
  for (const script of scripts) {
    const [readers, journal, status, input, wanted] = script.split(",");
    const [bytes, limits] = [Buffer.from(input, "hex"), { readers: Number(readers), journal: Number(journal) }];
    const { text, fault } = replayText(bytes, limits);
    equal(text, Buffer.from(wanted, "hex").toString());
    equal(Number(fault !== null), Number(status));
    const run = replay(bytes, limits);
    const lines = [...run].flatMap(outcomeLines);
    if (run.fault) lines.push(`fault,${run.fault.record},${run.fault.name}`);
    equal(lines.map((it) => `${it}\n`).join(""), text);
    deepEqual(run.fault, fault);
    if (run.script.length > 0) checkRecords(run, bytes);
  }
});

/** The bytes of each record read alone as the record. */
function checkRecords({ script }, bytes) {
  // A quote that is open at the end of the last record would take in a line end after it.
  const alone = [...script].flatMap(({ from, to }) => [Buffer.from("\n"), bytes.subarray(from, to)]);
  const again = new Script(Buffer.concat([Buffer.from("member,votes\nscript"), ...alone]), { readers: 4 });
  const partsOf = ({ record, from, to, ...parts }) => parts;
  deepEqual([...again].map(partsOf), [...script].map(partsOf));
}

/** Carries out a record by the methods of a register; the lines that the program prints for it. */
function lineByMethods(register, [kind, first, second]) {
  const chair = second === "none" ? null : Number(second);
  const calls = {
    open: () => register.open(Number(first)),
    close: () => register.close(Number(first)),
    move: () => register.move(first, chair),
    votes: () => register.setVotes(first, Number(second)),
    suspend: () => register.suspend(first),
    restore: () => register.restore(first),
    admit: () => register.admit(first, Number(second)),
    withdraw: () => register.withdraw(first),
  };
  if (kind === "publish") return [`published,${register.publish()}`];
  if (kind === "read") return readingLines(first, register.published, register.read(second));
  try {
    return [`accepted,${calls[kind]()}`];
  } catch (why) {
    if (!(why instanceof Refused)) throw why;
    return [`refused,${why.number},${why.code}`];
  }
}

/** Carries out a record as text. */
function lineByText(register, record) {
  if (record === "publish") return register.submit(record), [`published,${register.published}`];
  if (record.startsWith("read,")) return readingLines(1, register.published, register.read(record.split(",")[2]));
  const why = register.attempt(record);
  return [why ? `refused,${why.number},${why.code}` : `accepted,${register.accepted}`];
}

test("a register of many commands answers as the program, by methods and by records", () => {
  const [members, script] = fileOf("register.csv").split("script\n").map(linesOf);
  const entries = members.slice(1).map((line) => [line.split(",")[0], Number(line.split(",")[1])]);
  const wanted = fileOf("register.txt");
  const registers = [new Register(entries), new Register(entries)];
  equal(script.flatMap((it) => lineByMethods(registers[0], it.split(","))).join("\n") + "\n", wanted);
  equal(script.flatMap((it) => lineByText(registers[1], it)).join("\n") + "\n", wanted);
  const [register, other] = registers;
  const shownOf = (it) => [it.members, it.chairs, it.journal, it.opening, it.published, it.indicesOfAll()];
  deepEqual(shownOf(other), shownOf(register));
  deepEqual(shownOf(Register.fromScript(register.script())), shownOf(register));
  deepEqual(shownOf(replay(fileOf("register.csv")).register()), shownOf(register));
  const openChairs = Object.keys(register.chairs).map(Number);
  const counted = indicesOfMembers(Object.values(register.members), "half", { openChairs });
  deepEqual(counted, register.indices("half"));
});
