import { deepEqual, equal } from "node:assert/strict";
import { test } from "node:test";
import { Command, MAJORITIES, Refused, Register, indicesOfMembers, replay } from "voting-board";
import { refused, thrown, wrongType } from "./misuse.mjs";

const CODE = "a code is three ASCII capitals";
const VOTES = "votes are whole numbers from 0 to 1099511627776";
const COLUMNS = "the columns are code, name, votes, chair, chair_name and suspended";
const CHAIR = "a chair is a whole number from 1 to 32";
const BAD = "BadRecord (17), a record is not well formed";
/** The answers of commands, by number: 0 for accepted, else the refusal. */
const ANSWERS = [0, 1, 2, 3, 4, 5, 6, 7, 8, 9, 25, 26];
const TABLE = [
  { code: "AAA", votes: 50, chair: 3, chair_name: "North" },
  { code: "BBB", votes: 49, chair: 1 },
  { code: "CCC", votes: 1, chair: null, suspended: true },
];

/** The register of the first example. */
function threeChairs(limits) {
  const register = new Register({ AAA: 50, BBB: 49, CCC: 1 }, limits);
  for (const chair of [1, 2, 3]) register.open(chair);
  Object.keys(register.members).forEach((code, at) => register.move(code, at + 1));
  return register;
}

/** All that a register shows. */
const shownOf = (it) => [
  it.script(), it.members, it.chairs, it.accepted, it.published, it.indicesOfAll(), it.read("half"),
];

test("a register of three chairs", () => {
  const register = new Register({ AAA: 50, BBB: 49, CCC: 1 });
  deepEqual([1, 2, 3].map((chair) => register.open(chair)), [1, 2, 3]);
  deepEqual(["AAA", "BBB", "CCC"].map((code, at) => register.move(code, at + 1)), [4, 5, 6]);
  deepEqual(register.indices("half").chairs.map(({ share }) => String(share)), ["3/5", "1/5", "1/5"]);
  deepEqual(register.members.BBB, { votes: 49, chair: 2, suspended: false });
  deepEqual(register.chairs, { 1: ["AAA"], 2: ["BBB"], 3: ["CCC"] });
  deepEqual(register.opening, { AAA: 50, BBB: 49, CCC: 1 });
  equal(register.journal.join(" "), "open,1 open,2 open,3 move,AAA,1 move,BBB,2 move,CCC,3");
  deepEqual([register.accepted, register.published], [6, 0]);
  deepEqual(register.read("half").chairs, []);
  equal(register.publish(), 6);
  deepEqual(register.read("half"), register.indices("half"));
  deepEqual(register.indicesOfAll(), Object.fromEntries(MAJORITIES.map((it) => [it, register.indices(it)])));
});

test("each command, and what it changes", () => {
  const register = threeChairs();
  equal(register.setVotes("AAA", 60n), 7);
  equal(register.suspend("BBB"), 8);
  deepEqual(register.members.BBB, { votes: 49, chair: 2, suspended: true });
  equal(register.restore("BBB"), 9);
  equal(register.move("CCC", null), 10);
  equal(register.close(3), 11);
  equal(register.withdraw("CCC"), 12);
  equal(register.admit("DDD", 7), 13);
  equal(register.move("DDD", 2n), 14);
  deepEqual(
    Object.entries(register.members).map(([code, it]) => [code, it.votes]), [["AAA", 60], ["BBB", 49], ["DDD", 7]],
  );
  deepEqual(register.chairs, { 1: ["AAA"], 2: ["BBB", "DDD"] });
  equal(register.journal.slice(-2).join(" "), "admit,DDD,7 move,DDD,2");
});

test("a refused command has its refusal and itself, and changes nothing", () => {
  const register = threeChairs({ journal: 7 });
  const before = shownOf(register);
  for (const [call, code, number, command, reason] of [
    [() => register.open(1), "ChairOpen", 1, "open,1", "the chair is open already"],
    [() => register.close(4), "ChairNotOpen", 2, "close,4", "the chair is not open"],
    [() => register.close(1), "ChairHasMembers", 3, "close,1", "the chair has members, suspended ones counted"],
    [() => register.setVotes("DDD", 1), "UnknownMember", 4, "votes,DDD,1", "no member has this code"],
    [() => register.move("AAA", 1), "AlreadyThere", 6, "move,AAA,1", "the member is there already"],
    [() => register.restore("AAA"), "NotSuspended", 8, "restore,AAA", "the member is not suspended"],
    [() => register.admit("AAA", 1), "MemberExists", 25, "admit,AAA,1", "a member has this code already"],
    [() => register.withdraw("AAA"), "MemberSeated", 26, "withdraw,AAA", "the member sits in a chair"],
  ]) {
    const why = thrown(call);
    const message = `refused '${command}': ${code} (${number}), ${reason}`;
    deepEqual([why.code, why.number, why.command, why.message], [code, number, command, message]);
    deepEqual(shownOf(register), before);
  }
  register.suspend("AAA");
  equal(refused(() => register.open(4))[0], "JournalFull");
  equal(refused(() => register.move("AAA", 2))[0], "MemberSuspended");
  equal(refused(() => register.suspend("AAA"))[0], "AlreadySuspended");
});

test("values that no record has", () => {
  const register = threeChairs();
  for (const code of ["aaa", "AAAA", "", "ÄÄÄ", "AAA,1", "AAA\nopen", 'AAA"', " AAA", "A\0A"]) {
    deepEqual(refused(() => register.suspend(code)), ["BadMember", 15, `the code is '${code}': ${CODE}`]);
    deepEqual(refused(() => new Register(new Map([[code, 1]]))), ["BadMember", 15, `the code is '${code}': ${CODE}`]);
  }
  for (const votes of [-1, 1.5, NaN, Infinity, -1n]) {
    const message = `the votes of AAA are ${votes}: ${VOTES}`;
    for (const call of [() => register.setVotes("AAA", votes), () => new Register({ AAA: votes })]) {
      deepEqual(refused(call), ["BadRecord", 17, message]);
    }
  }
  for (const votes of [2 ** 40 + 1, 2n ** 64n, 1e21]) {
    const message = `the votes of AAA are ${votes}: ${VOTES}`;
    for (const call of [() => register.setVotes("AAA", votes), () => new Register({ AAA: votes })]) {
      deepEqual(refused(call), ["VotesTooLarge", 16, message]);
    }
  }
  for (const chair of [0, 33, -1, 1.5, NaN, 2n ** 64n + 1n]) {
    deepEqual(refused(() => register.open(chair)), ["BadChair", 14, `the chair is ${chair}: ${CHAIR}`]);
    deepEqual(
      refused(() => register.move("AAA", chair)),
      ["BadChair", 14, `the chair is ${chair}: ${CHAIR}, or null for no chair`],
    );
  }
  equal(register.accepted, 6);
});

test("wrong types", () => {
  const register = threeChairs();
  equal(wrongType(() => register.open("1")), `the chair is '1' (string): ${CHAIR}`);
  equal(wrongType(() => register.open(true)), `the chair is true (boolean): ${CHAIR}`);
  equal(wrongType(() => register.open(null)), `the chair is null: ${CHAIR}`);
  equal(wrongType(() => register.move("AAA")), `the chair is undefined: ${CHAIR}, or null for no chair`);
  equal(wrongType(() => register.setVotes("AAA", "5")), `the votes of AAA are '5' (string): ${VOTES}`);
  equal(wrongType(() => register.setVotes("AAA")), `the votes of AAA are undefined: ${VOTES}`);
  equal(wrongType(() => register.suspend(null)), `the code is null: ${CODE}`);
  equal(wrongType(() => new Register({ AAA: null })), `the votes of AAA are null: ${VOTES}`);
  equal(wrongType(() => register.indices(70)), "the majority is 70 (number): half, 70, 85 or quorum");
  equal(refused(() => register.read("HALF"))[2], "no majority 'HALF': half, 70, 85 or quorum");
  for (const members of [null, undefined, 5, "AAA"]) wrongType(() => new Register(members));
  equal(wrongType(() => new Register({}, { Journal: 1 })), "unknown option 'Journal': the options are journal");
  for (const journal of [0, 1_000_001, 1.5, NaN, 2n ** 32n + 1n]) {
    deepEqual(
      refused(() => new Register({}, { journal })),
      ["BadLimit", 13, `journal is ${journal}: a whole number from 1 to 1000000`],
    );
  }
  wrongType(() => new Register({}, { journal: "7" }));
});

test("members are an object, a Map, pairs, rows or columns", () => {
  const wanted = { AAA: 50, BBB: 49 };
  for (const members of [
    { AAA: 50, BBB: 49n }, new Map(Object.entries(wanted)), [["AAA", 50], ["BBB", 49]], Object.entries(wanted).values(),
    [{ code: "AAA", votes: 50 }, { votes: 49, code: "BBB" }], { code: ["AAA", "BBB"], votes: new Uint8Array([50, 49]) },
  ]) {
    deepEqual(new Register(members).opening, wanted);
  }
  deepEqual(new Register({}).members, {});
  deepEqual(
    refused(() => new Register([["AAA", 1], ["AAA", 2]])),
    ["DuplicateMember", 11, "row 2: the code 'AAA' is there already, in row 1"],
  );
  deepEqual(refused(() => new Register([["AAA", 1.5]]))[2], `row 1: the votes are 1.5: ${VOTES}`);
  const codes = Array.from({ length: 257 }, (_, at) => `A${String.fromCharCode(65 + at / 26, 65 + (at % 26))}`);
  deepEqual(
    refused(() => new Register(codes.map((it) => [it, 1]))),
    ["TooManyMembers", 12, "257 members: a register has at most 256 members"],
  );
  equal(Object.keys(new Register(new Map(codes.slice(1).map((it) => [it, 1]))).members).length, 256);
});

test("a table seats its members by commands", () => {
  const register = new Register(TABLE);
  equal(register.journal.join(" "), "open,1 open,3 move,AAA,3 move,BBB,1 suspend,CCC");
  deepEqual(register.chairNames, { 3: "North" });
  deepEqual(register.indices("half").chairs.map(({ name }) => name), [null, "North"]);
  deepEqual(register.copy().indicesOfAll().half, register.indices("half"));
  deepEqual(register.members.CCC, { votes: 1, chair: null, suspended: true });
  const { columns } = {
    columns: Object.fromEntries(
      Object.keys({ ...TABLE[0], suspended: 0 }).map((name) => [name, TABLE.map((it) => it[name])]),
    ),
  };
  deepEqual(shownOf(new Register(columns)), shownOf(register));
});

test("rows that no register has", () => {
  const by = (row, also) => () => new Register([{ code: "AAA", votes: 1, ...also }, row]);
  const why = thrown(by({ code: "BBB", votes: 1.5 }));
  deepEqual([why.code, why.row, why.message], ["BadRecord", 2, `row 2: the votes are 1.5: ${VOTES}`]);
  deepEqual(
    refused(by({ code: "BBB", votes: 2 ** 41 })), ["VotesTooLarge", 16, `row 2: the votes are ${2 ** 41}: ${VOTES}`],
  );
  deepEqual(refused(by({ code: "aaa", votes: 1 })), ["BadMember", 15, `row 2: the code is 'aaa': ${CODE}`]);
  deepEqual(
    refused(by({ code: "BBB", votes: 1, chair: 0 })),
    ["BadChair", 14, `row 2: the chair is 0: ${CHAIR}, or null for no chair`],
  );
  deepEqual(
    refused(by({ code: "AAA", votes: 1 })), ["DuplicateMember", 11, "row 2: the code 'AAA' is there already, in row 1"],
  );
  equal(
    wrongType(by({ code: "BBB", Votes: 1 })),
    "unknown column 'Votes': the columns are code, name, votes, chair, chair_name and suspended",
  );
  equal(new Register([{ code: "AAA", name: "Alland", votes: 1 }, { code: "BBB", name: null, votes: 2 }]).accepted, 0);
  equal(wrongType(by({ code: "BBB", name: 5, votes: 1 })), "row 2: the name is 5 (number): a name is text");
  equal(wrongType(by({ code: 5, votes: 1 })), `row 2: the code is 5 (number): ${CODE}`);
  equal(wrongType(by({ code: "BBB", votes: 1, suspended: 1 })), "row 2: suspended is 1 (number): true or false");
  equal(
    wrongType(() => new Register([{ code: "AAA" }])),
    `no column 'votes': a register needs code and votes, and ${COLUMNS}`,
  );
  deepEqual(
    refused(by({ code: "BBB", votes: 1, chair: 1, chair_name: "B" }, { chair: 1, chair_name: "A" })),
    ["BadChair", 14, "row 2: the name of chair 1 is 'B', and in row 1 it is 'A'"],
  );
  for (const empty of [[], { code: [], votes: [] }]) {
    deepEqual(new Register(empty).members, {});
  }
  equal(wrongType(() => new Register([["AAA", 1, 2]])), "row 1 is a list: a code and its votes");
});

test("submit carries out records, commands and lists of them, all or none", () => {
  const register = threeChairs();
  equal(register.submit("open,4\r\n\n\"mo\"ve,AAA,4\rpublish"), 8);
  equal(register.published, 8);
  equal(register.submit({ kind: "votes", code: "AAA", votes: 7n }), 9);
  equal(
    register.submit(
      ["open,5\nopen,6\n", { kind: "move", code: "AAA", chair: null }, new Command({ kind: "close", chair: 6 })],
    ),
    13,
  );
  equal(register.submit([]), 13);
  equal(register.submit(""), 13);
  const before = shownOf(register);
  const none = (commands, record, message) => {
    const why = thrown(() => register.submit(commands));
    deepEqual([why.record, why.message], [record, `record ${record}: ${message}`]);
    deepEqual(shownOf(register), before);
  };
  const open = "refused 'open,9': ChairOpen (1), the chair is open already";
  none("open,9\npublish\n\nopen,9\nfoo", 3, open);
  none(["publish\nopen,9\n\nvotes,AAA,9", "publish", { kind: "open", chair: 9 }], 5, open);
  none("open,9\nmvoe,AAA,9\nopen,10", 2, `refused 'mvoe,AAA,9': ${BAD}`);
  none("mvoe", 1, `refused 'mvoe': ${BAD}`);
  none("publish\nread,1,half", 2, `refused 'read,1,half': ${BAD}`);
  none(["open,9", { kind: "open", chair: 33 }], 2, `the chair is 33: ${CHAIR}`);
  none("script\n", 1, `refused 'script': ${BAD}`);
  // Catches: a text that is refused in other words than the call of its kind.
  const [chair, votes] = ["a chair is a whole number from 1 to 32", "votes are whole numbers from 0 to 1099511627776"];
  none("open,99", 1, `refused 'open,99': ${BAD}: the chair is 99: ${chair}`);
  none("move,AAA,0", 1, `refused 'move,AAA,0': ${BAD}: the chair is 0: ${chair}, or null for no chair`);
  none("votes,AAA,-5", 1, `refused 'votes,AAA,-5': ${BAD}: the votes of AAA are '-5' (string): ${votes}`);
  none("suspend,aaa", 1, `refused 'suspend,aaa': ${BAD}: the code is 'aaa': a code is three ASCII capitals`);
  none("constructor,1", 1, `refused 'constructor,1': ${BAD}`);
  equal(
    refused(() => register.submit({ kind: "mvoe", code: "AAA" }))[2],
    "no kind 'mvoe': open, close, move, votes, suspend, restore, admit, withdraw",
  );
  deepEqual(refused(() => register.submit({ kind: "toString" })).slice(0, 2), ["BadRecord", 17]);
  equal(
    wrongType(() => register.submit({ kind: "open", Chair: 1 })),
    "a command 'open' has no part 'Chair': its parts are chair",
  );
  equal(
    wrongType(() => register.submit({ kind: "open", chair: 1, votes: 5 })),
    "a command 'open' has no part 'votes': its parts are chair",
  );
  equal(
    wrongType(() => register.submit({ kind: "move", code: "AAA" })),
    `the chair is undefined: ${CHAIR}, or null for no chair`,
  );
  for (const wrong of [5, null, undefined, [5], [null]]) wrongType(() => register.submit(wrong));
  deepEqual(shownOf(register), before);
  let asked = 0;
  const twice = { kind: "move", code: "AAA", get chair() { return (asked += 1) === 1 ? 4 : null; } };
  register.submit(twice);
  equal(register.members.AAA.chair, 4);
});

test("a refused list leaves the limit of the journal, as a copy and undo do", () => {
  const register = new Register({ AAA: 1 }, { journal: 4 });
  register.submit("open,1\npublish\nopen,2");
  equal(thrown(() => register.submit("publish\nopen,3\nopen,1")).record, 3);
  for (const it of [register, register.copy()]) {
    deepEqual([it.accepted, it.published, it.submit("open,4\nopen,5")], [2, 1, 4]);
    equal(refused(() => it.open(6))[0], "JournalFull");
    it.undo();
    it.open(6);
    equal(refused(() => it.open(7))[0], "JournalFull");
  }
});

test("a refusal as a value", () => {
  const register = threeChairs();
  const why = register.check("open,1");
  deepEqual([why instanceof Refused, why.code, why.command], [true, "ChairOpen", "open,1"]);
  equal(why.message, "refused 'open,1': ChairOpen (1), the chair is open already");
  equal(register.check({ kind: "open", chair: 4 }), null);
  equal(register.accepted, 6);
  equal(register.attempt("open,4"), null);
  equal(register.attempt({ kind: "open", chair: 4 }).number, 1);
  equal(register.attempt(new Command({ kind: "open", chair: 33 })).code, "BadChair");
  equal(register.accepted, 7);
  for (const several of ["open,8\nopen,9", "", "publish", "read,1,half"]) equal(
    refused(() => register.attempt(several))[0], "BadRecord",
  );
  equal(register.accepted, 7);
});

test("commands are their records", () => {
  const records = [
    "open,1",
    "close,2",
    "move,AAA,none",
    "move,AAA,3",
    "votes,AAA,5",
    "suspend,AAA",
    "restore,AAA",
    "admit,BBB,6",
    "withdraw,BBB",
  ];
  const parts = [
    { kind: "open", chair: 1 }, { kind: "close", chair: 2n }, { kind: "move", code: "AAA", chair: null }, {
      kind: "move",
      code: "AAA",
      chair: 3,
    },
    { kind: "votes", code: "AAA", votes: 5 }, { kind: "suspend", code: "AAA" }, {
      kind: "restore",
      code: "AAA",
      chair: null,
    },
    { kind: "admit", code: "BBB", votes: 6n }, { kind: "withdraw", code: "BBB" },
  ];
  deepEqual(parts.map((it) => String(new Command(it))), records);
  const [one, two] = [new Command(parts[2]), new Command(parts[3])];
  deepEqual([one.equals(parts[2]), one.equals(two), new Command(one).equals(one)], [true, false, true]);
  deepEqual({ ...one }, { kind: "move", code: "AAA", chair: null, votes: null });
  const register = threeChairs();
  const again = new Register(register.opening);
  again.submit(register.journal);
  deepEqual(shownOf(again), shownOf(register));
  equal(register.journal.every((it, at) => it.equals(again.journal[at])), true);
});

test("a copy changes on its own, and undo goes back", () => {
  const register = threeChairs();
  register.publish();
  const before = shownOf(register);
  const copy = register.copy();
  deepEqual(shownOf(copy), before);
  copy.move("BBB", 1);
  copy.open(4);
  deepEqual(shownOf(register), before);
  deepEqual(copy.indices("half").chairs.map(({ weight }) => weight), [99, 0, 1, 0]);
  equal(copy.undo(), 7);
  equal(copy.undo(6), 6);
  deepEqual(shownOf(copy), before);
  equal(copy.undo(2n), 2);
  deepEqual([copy.published, copy.chairs], [2, { 1: [], 2: [] }]);
  // Catches: readers that see commands that were taken back, or none of those that stay.
  deepEqual(copy.read("half"), copy.indices("half"));
  equal(copy.undo(0), 0);
  const message = (to) => `the length is ${to}: a whole number from 0 to the number of accepted commands, 0`;
  for (const to of [1, -1, 0.5]) deepEqual(refused(() => copy.undo(to)), ["BadIndex", 35, message(to)]);
  deepEqual(refused(() => copy.undo())[2], message(-1));
  wrongType(() => copy.undo("1"));
  const other = register.copy();
  register.free();
  register.free();
  other[Symbol.dispose ?? Symbol.for("Symbol.dispose")]();
  for (const it of [register, other]) {
    deepEqual(refused(() => it.accepted), ["NoRegister", 34, "the register was freed"]);
  }
  deepEqual(copy.opening, { AAA: 50, BBB: 49, CCC: 1 });
});

test("a script is the register, and a register is its script", () => {
  const register = new Register(TABLE);
  equal(
    register.script(),
    "member,votes\nAAA,50\nBBB,49\nCCC,1\nscript\nopen,1\nopen,3\nmove,AAA,3\nmove,BBB,1\nsuspend,CCC\n",
  );
  register.publish();
  register.open(7);
  const again = Register.fromScript(register.script());
  deepEqual(again.script(), register.script());
  deepEqual([again.accepted, again.published, again.members], [6, 5, register.members]);
  const read = Register.fromScript(
    new TextEncoder().encode(`${register.script()}read,4,half\nread,1,70\n`), { journal: 6 },
  );
  equal(read.script(), register.script());
  equal(refused(() => read.open(8))[0], "JournalFull");
  const replayed = replay(register.script()).register();
  equal(replayed.script(), register.script());
  deepEqual(refused(() => Register.fromScript("member,votes\nAAA,1\nscript\nopen,1\nopen,1\n")),
    ["ChairOpen", 1, "record 5: refused 'open,1': ChairOpen (1), the chair is open already"]);
  deepEqual(
    refused(() => Register.fromScript("member,votes\nAAA,1\nscript\nopen,1\nfoo,1\n")),
    ["BadRecord", 17, `record 5: refused 'foo,1': ${BAD}`],
  );
  deepEqual(refused(() => Register.fromScript("member,votes\nAAA,x\n")), ["BadRecord", 17, `record 2: ${BAD}`]);
  deepEqual(refused(() => Register.fromScript("member,votes\nAAA,1\n")).slice(0, 2), ["NoScript", 28]);
  deepEqual(
    refused(() => Register.fromScript("member,votes\nAAA,1\nAAA,1\nscript\n")).slice(0, 2), ["DuplicateMember", 11],
  );
  deepEqual(refused(() => Register.fromScript("")).slice(0, 2), ["BadHeader", 21]);
  equal(wrongType(() => Register.fromScript("script.csv")),
    "the input is 'script.csv': a script has several lines; replayFile takes the path of a file");
  deepEqual(Register.fromScript("member,votes\nscript").members, {});
});

/** Numbers from 0 and below `limit`, the same in each run. */
function drawer(seed) {
  let state = seed;
  return (limit) => {
    for (const shift of [13, -17, 5]) state ^= shift > 0 ? state << shift : state >>> -shift;
    return (state >>> 0) % limit;
  };
}

/** Tries a command at random; the number of its refusal, or 0. */
function tried(register, draw) {
  const code = ["AAA", "BBB", "CCC", "DDD", "EEE"][draw(5)];
  const [chair, votes] = [1 + draw(4), draw(100)];
  const calls = [
    () => register.open(chair), () => register.close(chair), () => register.move(code, chair),
    () => register.move(code, null), () => register.setVotes(code, votes), () => register.suspend(code),
    () => register.restore(code), () => register.admit(code, votes), () => register.withdraw(code),
  ];
  try {
    calls[draw(calls.length)]();
    return 0;
  } catch (why) {
    return why.number;
  }
}

test("after commands at random, readings are those of the members, of the replay, and of lists of commands", () => {
  const draw = drawer(20261126);
  const seen = new Set();
  for (let run = 0; run < 20; run += 1) {
    const register = new Register({ AAA: 50, BBB: 49, CCC: 1 }, { journal: 14 });
    for (let step = 0; step < 40; step += 1) seen.add(tried(register, draw));
    const rows = Object.values(register.members);
    const openChairs = Object.keys(register.chairs).map(Number);
    if (rows.length > 0) {
      for (const it of MAJORITIES) deepEqual(register.indices(it), indicesOfMembers(rows, it, { openChairs }));
    }
    const [reading] = replay(`${register.script()}publish\nread,1,85\n`).readings;
    const { kind, record, reader, front, ...indices } = reading;
    deepEqual([indices, front], [register.indices("85"), register.accepted]);
    const other = new Register(register.opening, { journal: 14 });
    other.submit(register.journal);
    equal(other.script(), register.script());
  }
  deepEqual([...seen].sort((one, other) => one - other), ANSWERS);
});

test("a text in pieces is the same wherever it is cut", () => {
  const records = [
    ['"op"en,1\r\n', "open,1"], ['move,"AAA",1\r', "move,AAA,1"], ['votes,AAA,"0012"\n\n', "votes,AAA,12"],
    ["suspend,AAA\r\n\r\n", "suspend,AAA"], ["restore,AAA\n", "restore,AAA"], ["move,AAA,none\n", "move,AAA,none"],
    ["votes,AAA,123\n", "votes,AAA,123"], ['"close",1\n', "close,1"],
  ];
  const turn = records.map(([text]) => text).join("");
  const wanted = records.map(([, record]) => record);
  // In Node the gate cuts at each third place, so in each record, and not beside each of their ends.
  const step = globalThis.process && !process.env.DEEP ? 3 : 1;
  for (let shift = 1; shift <= turn.length + 3; shift += step) {
    const begun = "\n".repeat(4_194_304 - 20 - turn.length - shift);
    const register = new Register({ AAA: 5 });
    register.submit(`${begun}${turn}publish\n${turn}`);
    deepEqual([register.journal.map(String), register.published], [[...wanted, ...wanted], 8]);
    if (shift % 2 === 0) {
      const script = `member,votes\nAAA,5\nscript\n${begun}${turn}publish\n${turn}`;
      equal(Register.fromScript(script).script(), register.script());
    } else {
      const why = thrown(() => register.submit(`${begun}${turn}opne,1\n`));
      deepEqual([why.record, why.command, register.accepted], [9, "opne,1", 16]);
    }
    register.free();
  }
});

test("a million commands", () => {
  const register = new Register({ AAA: 1 });
  const votes = "votes,AAA,12\nvotes,AAA,3\n";
  equal(register.submit(votes.repeat(500_000)), 1_000_000);
  equal(refused(() => register.open(1))[0], "JournalFull");
  const script = register.script();
  const again = Register.fromScript(script);
  deepEqual([again.accepted, again.members], [1_000_000, { AAA: { votes: 3, chair: null, suspended: false } }]);
  const why = thrown(() => Register.fromScript(`${script}votes,AAA,7\n`));
  deepEqual([why.code, why.record, why.command], ["JournalFull", 1_000_004, "votes,AAA,7"]);
  again.undo(999_990);
  const bad = thrown(() => again.submit(`${"\n".repeat(4_194_300)}votes,AAA,1\nvotes,AAA,2\nfoo,1`));
  deepEqual([bad.code, bad.record, bad.command, again.accepted], ["BadRecord", 3, "foo,1", 999_990]);
  for (const it of [register, again]) it.free();
});
