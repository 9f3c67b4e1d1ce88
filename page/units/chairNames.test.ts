/** Names of chairs by the table that all packages and the page read. The page has no call that reads what is published,
 * nor one that carries out a list as a whole, and offers no name for a closed chair: these steps are passed over. */
import assert from "node:assert/strict";
import { readFileSync } from "node:fs";
import { test } from "node:test";
import { Counter, type Counted } from "../src/engine/count";
import { Engine } from "../src/engine/engine";
import type { Boards } from "../src/engine/pool";
import { withChairName } from "../src/study/naming";
import {
  FIRST_VIEW, freshId, studyOf, withAdded, withChanges, type Base, type Command, type Study,
} from "../src/study/study";
import { dataText, readData } from "../src/study/studyData";

const engine = new Engine();
await engine.carryOut("module", readFileSync(process.env["MODULE"] ?? ""), async () => {});
const boards = {
  ask: (kind: never, ask: never) => ({ answer: engine.carryOut(kind, ask, async () => {}), cancel: () => {} }),
};
const counter = new Counter(boards as unknown as Boards);
const counted = (study: Study): Promise<Counted> => counter.count(study.base, study.changes, ["half"]);

const [, ...cases] = readFileSync("../../tests/packages/chair_names.txt", "utf8").trimEnd().split("\n\n");

function started(rows: readonly (readonly string[])[]): Study {
  const chairs = [...new Set(rows.flatMap(([, , chair]) => chair || []))].sort();
  const moves = rows.flatMap(([code, , chair]) => (chair ? [`move,${code},${chair}`] : []));
  const entries = rows.map(([code, votes]) => `${code},${votes}`);
  const records = ["member,votes", ...entries, "script", ...chairs.map((it) => `open,${it}`), ...moves];
  const chairNames = Object.fromEntries(rows.flatMap(([, , chair, name]) => (chair && name ? [[chair, name]] : [])));
  const base: Base = {
    script: `${records.join("\n")}\n`, names: {}, chairNames, rows: {}, choices: [], hash: "", columns: {},
  };
  return studyOf("a table", base);
}

function commandOf(record: string): Command[] {
  const [kind, first = "", second = ""] = record.split(",");
  const chair = (text: string) => (text === "none" ? null : Number(text));
  if (kind === "publish") return [];
  if (kind === "move") return [{ kind, code: first, chair: chair(second) }];
  return [kind === "open" || kind === "close" ? { kind, chair: chair(first) } : { kind: "suspend", code: first }];
}

async function renamed(study: Study, chair: number, name: string): Promise<Study> {
  const { standing } = await counted(study);
  if (!standing.open().includes(chair)) return study;
  return withChairName(study, chair, standing.opening(chair), name);
}

/** The study after a step, or the same. */
async function stepped(study: Study, kind: string, given: string): Promise<Study> {
  const [first = "", name = ""] = given.split(",");
  const chair = Number(first);
  const based = study.base.script.split("script\n")[1]?.trimEnd().split("\n").length ?? 0;
  if (kind === "submit") return withAdded(study, given.split(";").flatMap(commandOf));
  if (kind === "open") return withChairName(withAdded(study, [{ kind, chair }]), chair, freshId(study), name);
  if (kind === "rename") return renamed(study, chair, name);
  if (kind === "undo") return withChanges(study, study.changes.slice(0, Number(given) - based));
  const saved = kind === "save" || kind === "keep";
  return saved ? readData(dataText({ study, view: FIRST_VIEW }, []))?.study ?? study : study;
}

async function check(study: Study, given: string): Promise<void> {
  const { standing } = await counted(study);
  const names = standing.open().flatMap((it) => (standing.given(it) ? [`${it}=${standing.given(it)}`] : []));
  assert.equal(names.join(";"), given);
}

// Catches: a name that outlives its chair, is lost with a saved study, or comes from a refused change.
for (const [title = "", ...steps] of cases.map((it) => it.split("\n"))) {
  test(title, async () => {
    const rows = steps.flatMap((it) => (it.startsWith("table,") ? [it.split(",").slice(1)] : []));
    let study = started(rows);
    for (const step of steps) {
      const [kind = "", ...rest] = step.split(",");
      const given = rest.join(",");
      if (kind === "names") await check(study, given);
      else if (kind !== "refused") study = await stepped(study, kind, given);
      else if (given.startsWith("1,open")) study = await stepped(study, "open", rest.slice(2).join(","));
    }
  });
}

test("a name of a study of version 0.11", async () => {
  // Catches: a chair that a change opened, whose name in an older study is lost, or can't be taken away.
  const study = withAdded(started([["AAA", "5", "1", "North"]]), [{ kind: "open", chair: 25 }]);
  const base = { ...study.base, chairNames: { 1: "North", "new 25": "West" } };
  const old = { ...study, base };
  await check(old, "1=North;25=West");
  await check(withChairName(old, 25, 1, "South"), "1=North;25=South");
  await check(withChairName(old, 25, 1, ""), "1=North");
});
