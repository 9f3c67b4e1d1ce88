/** The chair of each member: from its own row, from the first row of its block, or from a heading above it. */
import { CHAIRS } from "../study/words";
import { wholeOf } from "./numbers";
import type { Questions } from "./questions";
import { rowsWords, type Line } from "./rows";
import { firstWithSum, lastWithSum, type Block } from "./totals";

/** The rows with alternates marked, and the text of the chair for each member's row that has one. */
export interface Seated {
  readonly lines: readonly Line[];
  readonly seats: ReadonlyMap<number, string>;
  /** Rows whose second name is an alternate's. */
  readonly alternates: readonly number[];
  /** Rows below all those that a printed total proves to be of their chair. */
  readonly beyond: ReadonlySet<number>;
  /** Rows without a chair about which a question was answered. */
  readonly answered: ReadonlySet<number>;
  readonly notices: readonly string[];
}

const NONE = /^(none|no chair|\(?suspended\)?|-+|\u2013|\u2014|n\.?\/?a\.?|nil)$/i;
const CONTINUED = /\((continued|cont\.?|cont'd|cont\u2019d)\)$/i;

/** Whether a chair's cell says that there is none. */
export function isNone(cell: string): boolean {
  return NONE.test(cell);
}

/** Whether a chair's cell is a name: it has a letter. */
export function isName(cell: string): boolean {
  return /\p{L}/u.test(cell) && !isNone(cell);
}

/** What two spellings of a chair have in common. `\u00df` and `SS` are the same, as in Python's casefold. */
export function keyOf(cell: string): string {
  return cell.split(/\s+/).join(" ").toLowerCase().toUpperCase();
}

function chairOf(line: Line): string {
  return (line.role === "heading" ? line.heading : line.cells.chair).replace(CONTINUED, "").trimEnd();
}

function isSeatLine({ role }: Line): boolean {
  return role === "member" || role === "heading";
}

/** The blocks that printed totals in a column of their own prove, by the direction in which more of them do. */
function columnBlocks(lines: readonly Line[]): Map<number, Block> {
  const members = lines.filter(({ role }) => role === "member");
  const blocksBy = (rowsOf: (at: number, value: number) => Line[]) => {
    const blocks: Block[] = [];
    members.forEach(({ printed, row }, at) => {
      if (printed === null || blocks.some(({ rows }) => rows.includes(row))) return;
      const rows = rowsOf(at, printed).map((it) => it.row);
      if (rows.length) blocks.push({ rows, value: printed });
    });
    return blocks;
  };
  const below = blocksBy((at, value) => firstWithSum(members.slice(at), value));
  const above = blocksBy((at, value) => lastWithSum(members.slice(0, at + 1), value));
  const best = above.length > below.length ? above : below;
  return new Map(best.flatMap((block) => block.rows.map((row) => [row, block])));
}

/** The blocks in which some row has no chair's name. */
function withGaps(lines: readonly Line[], blocks: ReadonlyMap<number, Block>): Map<number, Block> {
  const gaps = new Set(lines.filter((line) => chairOf(line) === "").map(({ row }) => row));
  return new Map([...blocks].filter(([, { rows }]) => rows.some((row) => gaps.has(row))));
}

/** Rows one below the other that each have a chair's name, and no total between them. */
function runsOf(lines: readonly Line[]): Line[][] {
  const runs: Line[][] = [];
  let last: Line | null = null;
  for (const line of lines) {
    if (line.role === "note" || line.role === "header" || line.role === "out") continue;
    const cell = chairOf(line);
    const isRun = isSeatLine(line) && isName(cell);
    if (isRun && last && keyOf(chairOf(last)) !== keyOf(cell)) runs[runs.length - 1]?.push(line);
    else if (isRun && !last) runs.push([line]);
    last = isRun ? line : null;
  }
  return runs;
}

/** Whether a heading has no members of its own: the next row has a chair's name, too, or there is none. */
function isEmptyHeading(lines: readonly Line[], line: Line): boolean {
  const below = lines.slice(lines.indexOf(line) + 1).find(({ role }) => role !== "note" && role !== "out");
  return line.role === "heading" && line.printed === null && (!below || !isSeatLine(below) || chairOf(below) !== "");
}

/** Asks about the names of runs together. */
function askAll(questions: Questions, runs: readonly (readonly Line[])[]): string | null {
  const names = runs.flatMap((run) => run.slice(1));
  const rows = rowsWords(names.map(({ row }) => row));
  const example = names[0] ? `, such as '${chairOf(names[0])}' in row ${names[0].row}` : "";
  const pairs = {
    key: "yes", words: "Yes: every second name is the alternate's, of the same chair",
    choice: `Every second name is an alternate's: ${rows}`,
  };
  return questions.ask({
    id: "alternates",
    kind: "alternate",
    words: `Alternates? A chair's name stands right below another one in ${rows}${example}.`,
    options: [
      ...(runs.every((run) => run.length % 2 === 0) ? [pairs] : []),
      { key: "no", words: "No: each name is a chair's own", choice: `Chairs of their own, and no alternates: ${rows}` },
      { key: "each", words: "Some are: ask about each row", choice: `Some are alternates: ${rows}` },
    ],
  });
}

/** Asks about the names of a run one by one. */
function askEach(questions: Questions, run: readonly Line[]): Line[] {
  const found: Line[] = [];
  for (let at = 1; at < run.length; at += 1) {
    const [first, second] = [run[at - 1], run[at]];
    if (!first || !second || found.includes(first)) continue;
    const answer = questions.ask({
      id: `alternate-${second.row}`,
      kind: "alternate",
      row: second.row,
      words: `An alternate? Row ${second.row} has the name '${chairOf(second)}' right below '${chairOf(first)}'.`,
      options: [
        { key: "yes", words: `Yes: the alternate of '${chairOf(first)}'`,
          choice: `Row ${second.row}: '${chairOf(second)}' is the alternate of '${chairOf(first)}'` },
        { key: "no", words: "No: a chair of its own",
          choice: `Row ${second.row}: '${chairOf(second)}' is a chair of its own` },
      ],
    });
    if (answer === "yes") found.push(second);
  }
  return found;
}

/** Asks about runs of names: together if there are several names, and else, or if the user wants to, by row. */
function askRuns(questions: Questions, runs: readonly (readonly Line[])[]): Line[] {
  const isOne = runs.flatMap((run) => run.slice(1)).length < 2;
  const answer = isOne ? "each" : askAll(questions, runs);
  if (answer === "yes") return runs.flatMap((run) => run.filter((_, at) => at % 2 === 1));
  return answer === "each" ? runs.flatMap((run) => askEach(questions, run)) : [];
}

/** What a table says of alternates: in the heading of its chairs, in a column of their own, or nothing. */
export type AlternateHead = "named" | "apart" | "unknown";

/** The parts of a run that are in doubt. A heading with members, or a name above an alternate alone, begins a chair. */
function openParts(run: readonly Line[], isProved: (line: Line) => boolean, empty: readonly Line[]): Line[][] {
  const parts: Line[][] = [[]];
  run.forEach((line, at) => {
    const below = run[at + 1];
    if (isProved(line) || empty.includes(line)) parts.push([]);
    else if (below && empty.includes(below)) parts.push([line], []);
    else if (line.role === "heading") parts.push([line]);
    else parts[parts.length - 1]?.push(line);
  });
  return parts.filter((part) => part.length > 1);
}

/** The rows whose chair's name is an alternate's. */
function alternatesOf(
  lines: readonly Line[],
  blocks: ReadonlyMap<number, Block>,
  head: AlternateHead,
  questions: Questions,
): Line[] {
  const named = lines.filter((line) => isSeatLine(line) && isName(chairOf(line)));
  const keys = named.filter(({ role }) => role === "member").map((line) => keyOf(chairOf(line)));
  const hasGaps = lines.some((line) => line.role === "member" && chairOf(line) === "");
  const isEachRow = new Set(keys).size < keys.length && head !== "named";
  if (head === "apart" || isEachRow || (!hasGaps && head !== "named")) return [];
  const runs = runsOf(lines);
  const empty = runs.flatMap((run) => run.slice(1).filter((line) => isEmptyHeading(lines, line)));
  const isProved = ({ row }: Line) => blocks.has(row);
  const firstOf = (line: Line) => named.find(({ row }) => row === blocks.get(line.row)?.rows[0]);
  const proved = named.filter((line) => {
    const first = firstOf(line);
    // A merged cell that is filled down has the chair's own name in each row.
    return isProved(line) && first !== line && (!first || keyOf(chairOf(first)) !== keyOf(chairOf(line)));
  });
  const open = runs.flatMap((run) => openParts(run, isProved, empty));
  const isShown = head !== "named" && runs.some((run) => hasOneName(lines, run));
  return [...empty, ...proved, ...(isShown ? [] : askRuns(questions, open))];
}

/** Whether a chair of several members begins with the only name of a run, or with a heading: it has no alternate's. */
function hasOneName(lines: readonly Line[], run: readonly Line[]): boolean {
  const last = run[run.length - 1];
  const below = last && (run.length === 1 || last.role === "heading") ? lines[lines.indexOf(last) + 1] : undefined;
  return below?.role === "member" && chairOf(below) === "";
}

/** Whether blank chairs may be merged cells: no chair stands twice, or most chairs have a blank one right below. */
function mayBeMerged(lines: readonly Line[], blanks: readonly Line[]): boolean {
  const members = lines.filter(({ role }) => role === "member");
  const filled = members.filter((line) => chairOf(line) !== "" && !isNone(chairOf(line)));
  const keys = new Set(filled.map((line) => keyOf(chairOf(line))));
  const heads = filled.filter((line) => {
    const below = members[members.indexOf(line) + 1];
    return below !== undefined && chairOf(below) === "";
  });
  return blanks.length > 0 && (2 * heads.length > filled.length || keys.size === filled.length);
}

function askMerged(questions: Questions, blanks: readonly Line[]): boolean {
  const rows = blanks.map(({ row }) => row);
  const many = rows.length === 1 ? `Row ${rows[0]} has` : `${rows.length} rows have`;
  const counted = rows.length === 1 ? "1 row" : `${rows.length} rows`;
  const answer = questions.ask({
    id: "merged",
    kind: "merged",
    words: `Merged cells? ${many} a blank chair under a filled one: ${rowsWords(rows)}.`,
    options: [
      { key: "yes", words: "Yes: fill the chair down",
        choice: `Merged cells: the chair was filled down in ${counted}` },
      { key: "no", words: "No: these members are in no chair",
        choice: `A blank chair under a filled one is no chair: ${counted}` },
    ],
  });
  // While the question is open the chairs count as filled down, so that totals and names can be checked.
  return answer !== "no";
}

/** Asks about members under no heading in a table of headings. */
function askSingle(questions: Questions, lines: readonly Line[], hasAbove: boolean): string | null {
  const rows = rowsWords(lines.map(({ row }) => row));
  const many = lines.length === 1 ? "stands" : "stand";
  const above = { key: "above", words: "They belong to the heading above", choice: `In the chair above: ${rows}` };
  return questions.ask({
    id: "single",
    kind: "single",
    words: `Chairs of one member? ${rows} ${many} under no heading.`,
    options: [
      { key: "own", words: "Each is a chair of its own", choice: `Each a chair of its own: ${rows}` },
      ...(hasAbove ? [above] : []),
      { key: "none", words: "They are in no chair", choice: `Under no heading and in no chair: ${rows}` },
    ],
  });
}

/** A member's row with the chair above it that applies to it, and why it may. */
interface Place {
  readonly line: Line;
  /** The chair of the last row that names one. */
  readonly above: string;
  readonly why: "cell" | "heading" | "proved" | "blank" | "apart";
}

/** Goes through the rows and keeps the chair that is above each. */
function placesOf(lines: readonly Line[], blocks: ReadonlyMap<number, Block>, alternates: ReadonlySet<Line>): Place[] {
  const hasColumn = lines.some((line) => line.role === "member" && line.cells.chair !== "");
  const places: Place[] = [];
  let [above, isHeading, many, isApart] = ["", false, 0, !hasColumn];
  for (const line of lines) {
    const cell = alternates.has(line) ? "" : chairOf(line);
    if (line.role === "heading" && cell) [above, isHeading, many, isApart] = [cell, true, 0, false];
    if ((line.role === "total" || line.role === "note") && !hasColumn) isApart = true;
    if (line.role !== "member") continue;
    if (!hasColumn && line.isApart && many > 0) isApart = true;
    many += 1;
    if (cell) [above, isHeading] = [cell, false];
    const block = blocks.get(line.row);
    const isProved = block !== undefined && block.rows[0] !== line.row;
    const inBlock = isHeading ? "heading" : isProved || alternates.has(line) ? "proved" : "blank";
    places.push({ line, above, why: cell ? "cell" : isApart ? "apart" : inBlock });
  }
  return places;
}

/** The rows that would be filled down though the printed total of the chair above is that of the rows before them. */
function rowsBeyond(places: readonly Place[], blocks: ReadonlyMap<number, Block>): number[] {
  let block: Block | undefined;
  return places.flatMap(({ line, why }) => {
    if (why === "cell") block = blocks.get(line.row);
    return why === "blank" && block && block.rows.length > 0 && !block.rows.includes(line.row) ? [line.row] : [];
  });
}

/** Says what was taken from headings and from printed totals without a question. */
function placeNotices(places: readonly Place[], alternates: readonly Line[]): string[] {
  const rows = (why: Place["why"]) => places.filter((it) => it.why === why && it.above).map(({ line }) => line.row);
  const [headed, proved] = [rows("heading"), rows("proved")];
  return [
    ...(headed.length ? [`The chair was taken from the heading above in ${rowsWords(headed)}`] : []),
    ...(proved.length ? [`The chair was filled down, as the printed totals say, in ${rowsWords(proved)}`] : []),
    ...(alternates.length ? [`Names of alternates were left out: ${
      alternates.map((line) => `'${chairOf(line)}' in row ${line.row}`).join("; ")}`] : []),
  ];
}

/** Finds the chair of each member, and asks where it is in doubt. */
export function seated(
  lines: readonly Line[],
  totalBlocks: ReadonlyMap<number, Block>,
  head: AlternateHead,
  questions: Questions,
): Seated {
  const ofColumn = columnBlocks(lines);
  const blocks = new Map([...ofColumn, ...totalBlocks]);
  // A total below several names may be that of several chairs, unless the heading speaks of alternates.
  const proofs = head === "named" ? new Map([...ofColumn, ...withGaps(lines, totalBlocks)]) : ofColumn;
  const alternates = alternatesOf(lines, proofs, head, questions);
  const places = placesOf(lines, blocks, new Set(alternates));
  const beyond = new Set(rowsBeyond(places, blocks));
  // Below a word for no chair, a blank is no chair either way.
  const isBlank = ({ why, above, line }: Place) =>
    why === "blank" && above !== "" && !isNone(above) && !beyond.has(line.row);
  const blanks = places.filter(isBlank).map(({ line }) => line);
  const isAsked = mayBeMerged(lines, blanks);
  const fills = isAsked && askMerged(questions, blanks);
  const apart = places.filter(({ why }) => why === "apart");
  const hasHeadings = lines.some(({ role }) => role === "heading");
  const single = hasHeadings && apart.length
    ? askSingle(questions, apart.map(({ line }) => line), apart.some(({ above }) => above !== ""))
    : "none";
  const seatOf = ({ line, above, why }: Place): string => {
    if (why === "apart") return single === "own" ? line.cells.name || line.cells.code : single === "above" ? above : "";
    return why === "blank" && !fills && !beyond.has(line.row) ? "" : above;
  };
  const seats = places.map((place) => [place.line.row, seatOf(place)] as const);
  const marked = lines.map((line): Line => {
    return alternates.includes(line) && line.role === "heading" ? { ...line, role: "alternate" } : line;
  });
  const answered = [...(isAsked ? blanks : []), ...(hasHeadings ? apart.map(({ line }) => line) : [])];
  return {
    lines: marked,
    beyond,
    answered: new Set(answered.map(({ row }) => row)),
    seats: new Map(seats.filter(([, chair]) => chair !== "" && !isNone(chair))),
    alternates: alternates.map(({ row }) => row),
    notices: placeNotices(places, alternates),
  };
}

/** Chairs that are numbers, or words such as `Chair 3`: the number of each text; null if they are names. */
export function chairNumbers(chairs: readonly string[]): ReadonlyMap<string, number> | null {
  const labelled = chairs.map((it) => [it, /^(?:chair|constituency|group|seat|no\.?)\s*([0-9]{1,2})$/i.exec(it)?.[1]]);
  if (!labelled.every(([, number]) => CHAIRS.includes(Number(number)))) return null;
  return new Map(labelled.map(([chair, number]) => [chair ?? "", Number(number)]));
}

/** The number of a chair's cell, or null. */
export function chairNumber(cell: string): number | null {
  const number = wholeOf(cell, ",")?.value ?? 0;
  return CHAIRS.includes(number) ? number : null;
}
