/** A chair in pieces where all others are in one: its name may be a word for a missing value that no list has. */
import { errorWords } from "./cells";
import { isNone, keyOf } from "./chairs";
import type { Questions } from "./questions";
import { rowsWords, type Line } from "./rows";

/** Fewer pieces than this, or fewer other chairs, say nothing. */
const LEAST_PIECES = 3;
const LEAST_OTHERS = 3;

/** The rows of each chair of members in pieces that another chair's row ends, by the chair's key. */
function piecesOf(lines: readonly Line[]): Map<string, Line[][]> {
  const found = new Map<string, Line[][]>();
  let last = "";
  for (const line of lines) {
    const { chair } = line.cells;
    if (line.role !== "member" || chair === "" || isNone(chair) || errorWords(chair)) continue;
    const key = keyOf(chair);
    const pieces = found.get(key) ?? [];
    if (key === last) pieces[pieces.length - 1]?.push(line);
    else pieces.push([line]);
    found.set(key, pieces);
    last = key;
  }
  return found;
}

/** Asks whether the only chair in pieces is one. Returns the rows, with blanks in place of its name if it isn't. */
export function withoutPieces(lines: readonly Line[], questions: Questions): readonly Line[] {
  const all = [...piecesOf(lines).values()];
  const [odd, ...more] = all.filter((pieces) => pieces.length > 1);
  if (!odd || more.length || odd.length < LEAST_PIECES || all.length <= LEAST_OTHERS) return lines;
  const own = odd.flat();
  const chair = own[0]?.cells.chair ?? "";
  const rows = rowsWords(own.map(({ row }) => row));
  const answer = questions.ask({
    id: "pieces",
    kind: "chairs",
    words: `A chair named '${chair}'? It has ${rows}, and the rows of each other chair stand together.`,
    options: [
      { key: "yes", words: "Yes: these members sit in one chair", choice: `A chair '${chair}' has ${rows}` },
      { key: "no", words: "No: the word stands for a blank", choice: `'${chair}' was taken as a blank in ${rows}` },
    ],
  });
  return answer === "yes" ? lines : lines.map((line) =>
    (own.includes(line) ? { ...line, cells: { ...line.cells, chair: "" } } : line));
}
