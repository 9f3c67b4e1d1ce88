/** Rows that may be the sum of members elsewhere: groups, regions, "of which", memorandum items. */
import { grouped } from "../study/fractions";
import type { Questions } from "./questions";
import { lineWords, rowsWords, type Line } from "./rows";

/** More rows without a chair than this are asked about together, unless something else makes them suspect. */
const MOST_ALONE = 3;

const GROUPS = "asean|brics\\+?|cemac|waemu|wamu|eccu|ecb|eu-?[0-9]{0,2}|g-?[0-9]{1,2}|gcc|ldcs?|lics?|oecd|opec";
const PLACES = "africa|asia|caribbean|europe|oceania|pacific|western hemisphere|middle east|north africa|central asia";
const SIDES =
  "sub-?saharan|north(?:ern)?|central|eastern|western|southern|latin|middle|emerging|developing|advanced|euro";
const AGGREGATE = new RegExp(
  `^(?:of which|memo(?:randum)?\\b|aggregates?\\b|(?:the )?(?:${GROUPS})$|(?:region|group)\\b` +
    `|(?:(?:${SIDES}),? (?:and )?)?(?:${PLACES})(?: and (?:the )?(?:${PLACES}))*$|(?:south|latin) (?:asia|america)` +
    "|.*\\b(?:countries|economies|monetary union|european union|euro area|euro zone|nations)$)",
  "i",
);

const MEMO = /^(memo|of which|aggregates?\b)/i;

/** Whether a name is that of several members together. */
export function isAggregateName(name: string): boolean {
  return AGGREGATE.test(name);
}

/** Asks about a row. Returns whether it is an aggregate; it counts as one while the question is open. */
function ask(questions: Questions, line: Line, why: string, seat: string): boolean {
  const who = `${lineWords(line)}, which ${why},`;
  const place = seat ? `in the chair '${seat}'` : "in no chair";
  const answer = questions.ask({
    id: `aggregate-${line.row}`,
    kind: "aggregate",
    row: line.row,
    words: `A member${seat ? "" : " in no chair"}? ${lineWords(line)} ${why}.`,
    options: [
      { key: "yes", words: "No: the sum of members in other rows. Leave this row out",
        choice: `${who} was left out as the sum of members in other rows` },
      { key: "no", words: `Yes: a member ${place}`, choice: `${who} is a member ${place}` },
      ...(seat ? [{ key: "none", words: "Yes: a member in no chair", choice: `${who} is a member in no chair` }] : []),
    ],
  });
  return answer !== "no" && answer !== "none";
}

/** Rows below words such as "Memorandum items" that name no chair. */
function rowsBelowMemo(lines: readonly Line[]): ReadonlySet<Line> {
  const at = lines.findIndex(({ role, raw, heading }) =>
    (role === "note" || role === "heading") && MEMO.test(raw.name || raw.chair || heading));
  return new Set(at < 0 ? [] : lines.slice(at).filter(({ role, cells }) => role === "member" && cells.chair === ""));
}

/** Marks the rows that are aggregates by their names, or by where they stand, once the user says so. */
export function withoutAggregates(lines: readonly Line[], questions: Questions): Line[] {
  const below = rowsBelowMemo(lines);
  return lines.map((line): Line => {
    const isNamed = isAggregateName(line.cells.name);
    if (line.role !== "member" || line.votes === null || !(isNamed || below.has(line))) return line;
    const why = isNamed ? "has the name of a group" : "stands below a heading of such sums";
    return ask(questions, line, why, "") ? { ...line, role: "aggregate" } : line;
  });
}

/** Why a row without a chair may be an aggregate; the plainest reason first. */
function whyLoose(line: Line, seated: readonly Line[]): string {
  const own = line.votes ?? 0;
  const sum = seated.reduce((all, { votes }) => all + (votes ?? 0), 0);
  const most = Math.max(0, ...seated.map(({ votes }) => votes ?? 0));
  const share = sum ? `${((100 * own) / sum).toFixed(1)} % of the votes of all members in chairs` : "";
  if (own >= sum) return "has no chair, and as many votes as all members in chairs together, or more";
  if (own > most) {
    return `has no chair, and more votes than any member in one: ${share}. The greatest has ${grouped(most)} votes`;
  }
  return `has no chair, and ${share}`;
}

/** Asks about many rows without a chair at once. */
function askAll(questions: Questions, rows: readonly number[]): string | null {
  const words = rowsWords(rows);
  return questions.ask({
    id: "aggregates",
    kind: "aggregate",
    words: `Members in no chair? ${words.replace(/^r/, "R")} have no chair, and the others have one.`,
    options: [
      { key: "no", words: "Yes: members in no chair", choice: `Members in no chair: ${words}` },
      { key: "yes", words: "No: sums of members in other rows. Leave them out",
        choice: `Left out as sums of members in other rows: ${words}` },
      { key: "each", words: "Ask about each row", choice: `Members in no chair, and sums of others: ${words}` },
    ],
  });
}

/** What is known of the chairs of rows. */
export interface Seats {
  readonly seats: ReadonlyMap<number, string>;
  /** Rows without a chair about which a question was answered already. */
  readonly answered: ReadonlySet<number>;
  /** Rows below all those that a printed total proves to be of their chair. */
  readonly beyond: ReadonlySet<number>;
}

/** Asks about members' rows without a chair where the others have one. Returns the lines, and who is in no chair. */
export function withoutLoose(
  lines: readonly Line[],
  { seats, answered, beyond }: Seats,
  questions: Questions,
): { lines: Line[]; seats: ReadonlyMap<number, string> } {
  const members = lines.filter(({ role, votes }) => role === "member" && votes !== null);
  const isFree = ({ row, cells }: Line) =>
    !seats.has(row) && !answered.has(row) && cells.chair === "" && (cells.name !== "" || cells.code !== "");
  const seated = members.filter(({ row }) => seats.has(row) && !beyond.has(row));
  const most = Math.max(0, ...seated.map(({ votes }) => votes ?? 0));
  const isAsked = ({ row }: Line) => ["aggregate", "total"].some((it) => questions.isAsked(`${it}-${row}`));
  const free = members.filter((line) => isFree(line) && !isAsked(line));
  const large = free.filter(({ votes }) => (votes ?? 0) > most);
  // A row with a code of its own is a member's, unless more than that speaks against it.
  const plain = free.filter((line) => !large.includes(line) && line.cells.code === "");
  const others = seated.length && plain.length <= seated.length ? plain : [];
  const all = others.length > MOST_ALONE ? askAll(questions, others.map(({ row }) => row)) : "each";
  const out = new Set<Line>(all === "yes" || all === null ? others : []);
  const none = new Set<number>();
  for (const line of seated.length ? members : []) {
    const isOne = large.includes(line) || (all === "each" && others.includes(line));
    if (isOne && ask(questions, line, whyLoose(line, seated), "")) out.add(line);
    if (!beyond.has(line.row)) continue;
    const seat = seats.get(line.row) ?? "";
    const why = `stands below the members of '${seat}', whose printed total is theirs without it`;
    if (ask(questions, line, why, seat)) out.add(line);
    else if (questions.chosen(`aggregate-${line.row}`) === "none") none.add(line.row);
  }
  return {
    lines: lines.map((line): Line => (out.has(line) ? { ...line, role: "aggregate" } : line)),
    seats: new Map([...seats].filter(([row]) => !none.has(row))),
  };
}
