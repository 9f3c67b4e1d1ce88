/** A study as data: in a page that holds one, and in a saved file. It checks what it reads. */
import { Command } from "../../../bindings/javascript/src/commands";
import { scriptWith } from "./script";
import {
  AGAINST, COLUMNS, FIRST_VIEW, NAMINGS, ORDERS, TABS, THINGS, type Base, type Change, type Operation, type Percentage,
  type Scenario, type Study, type SweepAsked, type View, type What,
} from "./study";
import { OPERATIONS } from "../cited";
import { CHAIRS, MAJORITIES, MEASURES } from "./words";

export interface StudyData {
  readonly study: Study;
  readonly view: View;
  /** The hash of the script that the study had when it was saved; empty if the data names none. */
  readonly scriptHash?: string;
}

const [FORMAT, FIRST_FORMAT] = ["board study 2", "board study 1"];
const MOST_DIGITS = 10;

/** The data as a text that is safe in a page. */
export function dataText({ study, view }: StudyData, provenance: readonly string[]): string {
  return JSON.stringify({ format: FORMAT, provenance, study, view }, null, 1).replace(/</g, "\\u003c");
}

/** Whether a text is a study as data. */
export function isData(text: string): boolean {
  return /^\ufeff?\s*\{/.test(text) && /"format"\s*:\s*"board study/.test(text);
}

type Fields = Readonly<Record<string, unknown>>;

class NotAStudy extends Error {}

function must(isRight: boolean, what: string): void {
  if (!isRight) throw new NotAStudy(`this is no study of this page: ${what}`);
}

function fields(value: unknown, what: string): Fields {
  must(typeof value === "object" && value !== null && !Array.isArray(value), what);
  return value as Fields;
}

function list(value: unknown, what: string): readonly unknown[] {
  must(Array.isArray(value), what);
  return value as unknown[];
}

function text(value: unknown, what: string): string {
  must(typeof value === "string", what);
  return value as string;
}

function whole(value: unknown, what: string): number {
  must(Number.isSafeInteger(value) && (value as number) >= 0, what);
  return value as number;
}

function oneOf<Item>(items: readonly Item[], value: unknown, what: string): Item {
  const found = items.find((it) => it === value);
  must(found !== undefined, what);
  return found as Item;
}

/** A command, whose parts have the types of its kind; the register judges their values. */
function command(value: unknown): Command {
  try {
    return new Command(fields(value, "a command") as never);
  } catch (why) {
    throw new NotAStudy(`this is no study of this page: ${why instanceof Error ? why.message : String(why)}`);
  }
}

function decimal(value: unknown, what: string): string {
  const found = text(value, what);
  must(/^[+-]?[0-9]+(\.[0-9]+)?$/.test(found), what);
  return found;
}

/** A percentage with a sign, or without one. */
function percentOf(value: unknown, isSigned: boolean): string {
  const percent = decimal(value, "a percentage");
  must(/^[+-]/.test(percent) === isSigned, "the sign of a percentage");
  return percent;
}

function percentage(found: Fields): Percentage {
  const of = oneOf(["own", "total"] as const, found["of"], "a percentage");
  const percent = percentOf(found["percent"], of === "own");
  return { kind: "percent", of, code: text(found["code"], "a code"), percent };
}

/** The codes of an operation's members, each once. */
function codes(value: unknown): string[] {
  const found = list(value, "the codes of an operation").map((it) => text(it, "a code"));
  must(found.length > 0 && new Set(found).size === found.length, "the codes of an operation");
  return found;
}

const chair = (value: unknown): number => oneOf(CHAIRS, value, "a chair");

/** What reads a field of an operation, by what the field is. */
const FIELDS = {
  chair,
  seat: (value: unknown) => (value === null ? null : chair(value)),
  opened: (value: unknown) => (value === "lowest" ? value : chair(value)),
  codes,
  whose: (value: unknown) => (typeof value === "number" ? chair(value) : codes(value)),
  change: (value: unknown) => percentOf(value, true),
  share: (value: unknown) => decimal(value, "a share"),
  others: (value: unknown) => oneOf(["keep", "pay"], value, "who pays for a share"),
};

/** The operation of a kind, whose fields the common table names. */
function operation(kind: Operation["kind"], found: Fields): Operation {
  const read = Object.entries(OPERATIONS[kind]).map(([name, field]) => [name, FIELDS[field](found[name])] as const);
  return { kind, ...Object.fromEntries(read) } as unknown as Operation;
}

function what(value: unknown): What {
  const found = fields(value, "a change");
  if (found["kind"] === "percent") return percentage(found);
  const kind = (Object.keys(OPERATIONS) as Operation["kind"][]).find((it) => it === found["kind"]);
  return kind && (kind !== "move" || "codes" in found) ? operation(kind, found) : command(value);
}

function change(value: unknown): Change {
  const found = fields(value, "a change");
  const named = (["name", "chairName"] as const).filter((it) => found[it] !== undefined);
  const names = Object.fromEntries(named.map((it) => [it, text(found[it], "a name")]));
  return { id: whole(found["id"], "a change"), on: found["on"] === true, what: what(found["what"]), ...names };
}

type Read<Value> = (value: unknown, name: string) => Value;

function record<Value>(value: unknown, name: string, of: Read<Value>): Record<string, Value> {
  return Object.fromEntries(Object.entries(fields(value, name)).map(([key, it]) => [key, of(it, name)]));
}

function base(value: unknown): Base {
  const found = fields(value, "a base");
  return {
    script: text(found["script"], "a script"),
    names: record(found["names"], "names", text),
    chairNames: record(found["chairNames"], "names of chairs", text),
    ...found["naming"] === undefined ? {} : { naming: oneOf(NAMINGS, found["naming"], "what chairs are named by") },
    rows: record(found["rows"], "rows", whole),
    choices: list(found["choices"], "choices").map((it) => text(it, "a choice")),
    hash: text(found["hash"], "a hash"),
    columns: record(found["columns"], "columns", text),
  };
}

function scenario(value: unknown): Scenario {
  const found = fields(value, "a scenario");
  return { name: text(found["name"], "a name"), changes: list(found["changes"], "changes").map(change) };
}

function sweep(value: unknown): SweepAsked | null {
  if (value === null || value === undefined) return null;
  const found = fields(value, "a sweep");
  const who = fields(found["who"], "a sweep");
  return {
    who: who["kind"] === "chair"
      ? { kind: "chair", chair: oneOf(CHAIRS, who["chair"], "a chair") }
      : { kind: "member", code: text(who["code"], "a code") },
    on: oneOf(["base", "changed"] as const, found["on"], "a sweep"),
    unit: oneOf(["votes", "percent"] as const, found["unit"], "a sweep"),
    from: decimal(found["from"], "a sweep"),
    to: decimal(found["to"], "a sweep"),
    by: decimal(found["by"], "a sweep"),
  };
}

/** Changes with numbers of their own, whatever the data says. */
function numbered(changes: readonly Change[], first: number): Change[] {
  return changes.map((it, at) => ({ ...it, id: first + at }));
}

function study(value: unknown): Study {
  const found = fields(value, "a study");
  const changes = numbered(list(found["changes"], "changes").map(change), 1);
  let next = changes.length + 1;
  const scenarios = list(found["scenarios"], "scenarios").map(scenario).map((it) => {
    const own = numbered(it.changes, next);
    next += own.length;
    return { ...it, changes: own };
  });
  return {
    name: text(found["name"], "a name"),
    base: base(found["base"]),
    changes,
    scenarios,
    published: found["published"] === null ? null : whole(found["published"], "a total"),
    sweep: sweep(found["sweep"]),
  };
}

function view(value: unknown): View {
  const found = fields(value, "a view");
  const majorities = MAJORITIES.filter((it) => list(found["majorities"], "majorities").includes(it));
  return {
    majorities: majorities.length ? majorities : FIRST_VIEW.majorities,
    measure: oneOf(MEASURES, found["measure"], "a measure"),
    order: oneOf(ORDERS, found["order"], "an order"),
    orderAt: oneOf(MAJORITIES, found["orderAt"], "a majority"),
    digits: Math.min(MOST_DIGITS, whole(found["digits"], "digits")),
    fractions: found["fractions"] === true,
    tab: oneOf(TABS, found["tab"], "a tab"),
    columns: oneOf(COLUMNS, found["columns"] ?? FIRST_VIEW.columns, "columns"),
    against: oneOf(AGAINST, found["against"] ?? FIRST_VIEW.against, "a comparison"),
    hidden: THINGS.filter((it) => list(found["hidden"] ?? [], "columns of the table").includes(it)),
    curveChair: CHAIRS.find((it) => it === found["curveChair"]) ?? null,
    curveVotes: found["curveVotes"] === true,
  };
}

/** A command of the first format, which had `word` for `kind`. */
function renamed(value: unknown): Fields {
  const { word, ...parts } = fields(value, "a command");
  return { kind: word, ...parts };
}

/** The data of the first format in the present one: there a base had members and commands in place of a script. */
function fromFirst(data: Fields): Fields {
  const old = fields(data["study"], "a study");
  const { members, commands, ...rest } = fields(old["base"], "a base");
  const all = list(members, "members").map((it) => fields(it, "a member"));
  const pairs = (part: string) => Object.fromEntries(all.map((it) => [text(it["code"], "a code"), it[part]]));
  const entries = all.map((it) => `${text(it["code"], "a code")},${whole(it["votes"], "votes")}`);
  const records = list(commands, "commands").map((it) => String(command(renamed(it))));
  const changed = (value: unknown) => list(value, "changes").map((it) => {
    const found = fields(it, "a change");
    return { ...found, what: renamed(found["what"]) };
  });
  const scenarios = list(old["scenarios"], "scenarios").map((it) => {
    const found = fields(it, "a scenario");
    return { ...found, changes: changed(found["changes"]) };
  });
  const script = scriptWith("member,votes\n", [...entries, "script", ...records]);
  const base = { ...rest, script, names: pairs("name"), rows: pairs("row") };
  return { ...data, study: { ...old, base, changes: changed(old["changes"]), scenarios } };
}

/** The value of JSON. */
function parsed(json: string): unknown {
  try {
    return JSON.parse(json.replace(/^\ufeff/, ""));
  } catch (why) {
    const end = /[}\]]\s*$/.test(json) ? "its text was changed" : "it breaks off before its end";
    throw new NotAStudy(`the file of the study isn't whole: ${end} (${why instanceof Error ? why.message : why})`);
  }
}

/** The hash of the script, as the page's lines of provenance name it. That of board-study is of another script. */
function scriptHash(provenance: unknown): string {
  const lines = Array.isArray(provenance) ? provenance.filter((it) => typeof it === "string") : [];
  if (!lines.some((it) => it.startsWith("module board.wasm"))) return "";
  return lines.map((it) => /^script sha256 ([0-9a-f]{64})$/.exec(it)?.[1] ?? "").find((it) => it !== "") ?? "";
}

/** The study in a text of data, or null if it has none. Throws if it isn't a study. */
export function readData(json: string): StudyData | null {
  const found = parsed(json);
  if (found === null) return null;
  const given = fields(found, "its data");
  const data = given["format"] === FIRST_FORMAT ? fromFirst(given) : given;
  must([FORMAT, FIRST_FORMAT].includes(text(data["format"], "its format")), "its format");
  return { study: study(data["study"]), view: view(data["view"]), scriptHash: scriptHash(given["provenance"]) };
}
