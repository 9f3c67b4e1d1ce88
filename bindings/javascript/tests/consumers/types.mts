// Calls that the types accept, and calls that they refuse.
import {
  Command, Fraction, Majority, Refused, Register, Script, indices, indicesOfAll, indicesOfMany, indicesOfMembers, load,
  replay, replayText,
} from "voting-board";

const share: Fraction | null = indices(new Set([50n, 49, 1]), "half", { total: 100n }).chairs[0]!.share;
const quota: number = indicesOfAll(new Uint8Array([50, 49, 1]))["70"].quota;
const name: string | null | undefined = indices({ Alpha: 50 }, "half").chairs[0]!.name;
indices(new Map([["Alpha", 50]]), "half");
const omega: number = indicesOfMembers([{ votes: 1, chair: null }], "85", { openChairs: [1] }).omega;
indicesOfMembers({ votes: [1, 2n], chair: [1, null], suspended: [true, false] }, "quorum");
const quorum: number = indicesOfMany([[1]])[0]!.quorum.omega;
const half: number = indicesOfMany([[1], { A: 1 }], ["half", "85"])[0]!.half.omega;

const registers: Register[] = [
  new Register({ AAA: 50 }),
  new Register(new Map([["AAA", 50]]), { journal: 10 }),
  new Register([["AAA", 50], ["BBB", 49n]]),
  new Register([{ code: "AAA", votes: 50, chair: 1, chair_name: "North" }]),
  new Register({ code: ["AAA"], votes: [50] }),
  Register.fromScript("member,votes\nscript\n"),
];
const names: string[] = Array.from(replay(new Uint8Array()).refused, (it) => it.name);
const [register] = registers as [Register];
const accepted: number = register.move("AAA", null);
const why: Refused | null = register.check({ kind: "move", code: "AAA", chair: 1 });
register.submit(["open,1", { kind: "open", chair: 2n }, new Command({ kind: "close", chair: 2 })]);
const votes: (number | undefined)[] = [register.members.AAA?.votes];
const codes: string[] | undefined = register.chairs[1];
for (const command of register.journal) names.push(command.kind, `${command}`);

for (const it of replay("", { readers: 2 })) if (it.kind === "reading") votes.push(it.chairs[0]!.swings, it.front);
const { text, fault } = replayText("");
for (const { from, to, kind } of new Script("")) votes.push(from, to, Number(kind === "open"));
const code: string = new Refused(32).code;
const majority: Majority = "quorum";
const loaded: Promise<void> = load(new Uint8Array());
export const found = [Number(share), quota, name, omega, half, accepted, why?.code, votes, codes, names, text, fault];
export const others = [code, majority, loaded];

// @ts-expect-error a majority is required
indices([50]);
// @ts-expect-error a majority is required, with a total too
indices([50], { total: 50 });
// @ts-expect-error there is no such majority
indices([50], "HALF");
// @ts-expect-error there is no such option
indices([50], "half", { Total: 50 });
// @ts-expect-error votes are numbers
indices(["50"], "half");
// @ts-expect-error a share may be null
indices([50], "half").chairs[0]!.share.numerator;
// @ts-expect-error only the chosen majorities are counted
indicesOfMany([[1]], ["half"])[0]!.quorum;
// @ts-expect-error there is no such column
indicesOfMembers([{ votes: 1, Chair: 1 }], "half");
// @ts-expect-error votes are numbers
new Register({ AAA: "50" });
// @ts-expect-error an input is text or bytes
replay(5);
// @ts-expect-error a chair is a number or null
register.move("AAA", "1");
// @ts-expect-error there is no such kind
register.submit({ kind: "opne", chair: 1 });
// @ts-expect-error a fault may be null
replay("").fault.name;
